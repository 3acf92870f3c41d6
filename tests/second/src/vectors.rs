//! The stored vectors: of each kind and of lists the chosen cases, then random
//! ones.

use crate::binding::Batch;
use crate::content_samples;
use crate::dates::Date;
use crate::frames;
use crate::generate;
use crate::inputs;
use crate::kinds::{Kind, KINDS};
use crate::list_inputs;
use crate::lists;
use crate::programs::MOST_INPUT;
use crate::random::Random;
use crate::samples;

/// How many random cases follow the chosen ones.
fn random_cases(kind: Kind) -> u64 {
    match kind {
        Kind::ReadBook => 300,
        Kind::CheckLineup => 400,
        Kind::Replay => 500,
        Kind::Plan => 1_200,
        Kind::Any(_) => 40,
        Kind::Board => 500,
        Kind::AnyTable => 150,
        Kind::Passes => 300,
        Kind::Rewrite => 600,
        Kind::WriteBook => 1_200,
    }
}

pub fn cases(kind: Kind, seed: u64) -> Vec<Vec<u8>> {
    let mut cases = samples::cases(kind, seed);
    cases.extend((0..random_cases(kind)).map(|index| inputs::case(kind, seed, index)));
    fit_for_stream(cases)
}

/// A stream holds no case longer than `plan` reads, so that a program can take
/// each frame in a buffer of one byte more.
pub fn fit_for_stream(mut cases: Vec<Vec<u8>>) -> Vec<Vec<u8>> {
    cases.retain(|case| case.len() <= MOST_INPUT);
    cases
}

/// The cases of every kind, with frames of no kind between two kinds.
pub fn stream(seed: u64) -> Vec<u8> {
    let mut stream = Vec::new();
    for kind in KINDS {
        stream.extend(frames::join(kind, &cases(kind, seed)));
        stream.extend(NO_KIND.iter().flat_map(|bytes| frames::framed(bytes)));
    }
    stream
}

const NO_KIND: [&[u8]; 4] = [&[], &[12], &[255], &[12, 1, 0, 1, 4]];

/// What a program is run on and has to print, and a note on where that is from.
pub struct Stored {
    pub program: &'static str,
    pub stdin: Vec<u8>,
    pub stdout: Vec<u8>,
    pub note: String,
}

/// The stored vectors of every program: the stream of all kinds, the stream of
/// lists, and one case for each program that takes one.
pub fn stored(seed: u64, folder: &str) -> Vec<Stored> {
    let stream = stream(seed);
    let stream_of_lists = lists::join(&list_inputs::stored(seed));
    let mut list = vec![
        Stored {
            program: "frames",
            stdout: frames::run(&stream).into_bytes(),
            stdin: stream,
            note: stream_note(seed) + &origin(seed, folder),
        },
        Stored {
            program: "plan_list",
            stdout: lists::run(&stream_of_lists).into_bytes(),
            stdin: stream_of_lists,
            note: lists_note(seed) + &origin(seed, folder),
        },
    ];
    list.extend(single_cases(seed).into_iter().map(|(kind, case, note)| Stored {
        program: kind.name(),
        stdout: kind.output(&case),
        stdin: case,
        note: format!(
            "The file stdin here is {note}.\nstdout is what it prints.\n{}\
             More cases are in crates/frames.\n",
            origin(seed, folder)
        ),
    }));
    list
}

/// A case of each program that takes one, with what it is. The day of their date is no
/// month, so that who exchanges the two has another answer.
fn single_cases(seed: u64) -> Vec<(Kind, Vec<u8>, &'static str)> {
    let book = samples::book_a().bytes();
    let batch = Batch { marks: 3, date: Date::new(15, 7, 2026) };
    let reports = [inputs::failed_bytes(&[1, 2, 3]), inputs::failed_bytes(&[1, 3]), vec![0]];
    vec![
        (
            Kind::Plan,
            inputs::plan_input(batch, 0, 3, &book),
            "the case that paper 01 lists for `plan`: marks 3, start 0, end 3, 15 July 2026 and book A",
        ),
        (
            Kind::Board,
            inputs::board_input(batch, 0, &book),
            "one case of `board`: marks 3, start 0, 15 July 2026 and book A",
        ),
        (
            Kind::CheckLineup,
            inputs::check_lineup_input(batch, &[0, 1, 2, 3], &book),
            "one case of `check_lineup`: marks 3, 15 July 2026, the line-up 0 1 2 3 and book A",
        ),
        (
            Kind::Replay,
            [inputs::replay_input(batch, 0, 3, &book), reports.concat()].concat(),
            "one case of `replay`: marks 3, start 0, end 3, 15 July 2026 and book A, then the reports of\n\
             paper 01's settled sums, named 1 2 3 and named 1 3, and then passed, which is refused\n\
             since the trials are over",
        ),
        (
            Kind::Passes,
            generate::typical(&mut Random::new(&[seed])).bytes(),
            "one case of `passes`: a book of 30 grades",
        ),
        (
            Kind::Rewrite,
            book,
            "one case of `rewrite`: book A, whose changeovers paper 01 lists in another order than rising",
        ),
        (
            Kind::WriteBook,
            content_samples::write_case().bytes(),
            "one case of `write_book`: book A with its changeovers in yet another order, and with a window\n\
             on its second sheet, for an area of just the book's length",
        ),
    ]
}

fn stream_note(seed: u64) -> String {
    let counts: Vec<String> = KINDS
        .iter()
        .map(|&kind| format!("{} of `{}`", cases(kind, seed).len(), kind.name()))
        .collect();
    format!(
        "The file stdin here is a framed stream (see tests/second/README.md) of cases, and some frames of no kind:\n\
         {}.\nstdout is what they print, one after the other.\n",
        counts.join(", "),
    )
}

fn lists_note(seed: u64) -> String {
    format!(
        "The file stdin here is a framed stream of {} lists of changeovers (see tests/second/src/lists.rs).\n\
         stdout is what they print, one after the other.\n",
        list_inputs::stored(seed).len(),
    )
}

/// The seed, and the command that made the vectors.
fn origin(seed: u64, folder: &str) -> String {
    format!(
        "They come from the second planner with seed {seed}; from the repository's top folder:\n\
         cargo run --release --offline --manifest-path tests/second/Cargo.toml --bin vectors -- {seed} {folder}\n"
    )
}
