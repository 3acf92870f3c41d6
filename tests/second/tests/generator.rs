//! The generator and the vectors: deterministic, of the promised sizes, and
//! with every answer among them.

use second::binding::{self, Batch};
use second::book;
use second::calls::Call;
use second::dates::Date;
use second::exhaustive;
use second::frames;
use second::generate;
use second::inputs;
use second::kinds::{Kind, KINDS};
use second::large;
use second::random::Random;
use second::samples;
use second::sources::Source;
use second::text;
use second::vectors;
use std::collections::BTreeSet;

#[test]
fn random_numbers_are_those_of_splitmix64() {
    // The first numbers of the published generator from state 0.
    let mut random = Random::from_state(0);
    assert_eq!(random.word(), 0xe220_a839_7b1d_cdaf);
    assert_eq!(random.word(), 0x6e78_9e6a_a1b9_65f4);
}

#[test]
fn cases_are_deterministic_and_differ() {
    for kind in KINDS {
        let cases: BTreeSet<Vec<u8>> = (0..200).map(|index| inputs::case(kind, 7, index)).collect();
        assert!(cases.len() > 150, "{}: {}", kind.name(), cases.len());
        assert_eq!(inputs::case(kind, 7, 3), inputs::case(kind, 7, 3));
        assert_ne!(inputs::case(kind, 7, 3), inputs::case(kind, 8, 3));
        assert_eq!(vectors::cases(kind, 5), vectors::cases(kind, 5));
    }
}

#[test]
fn typical_books_have_their_size() {
    let book = generate::read(&generate::typical(&mut Random::new(&[9])));
    assert_eq!((book.grades(), book.changeovers.count(), book.runs()), (30, 300, 20));
}

#[test]
fn speed_inputs_are_there() {
    for name in samples::SPEED_INPUTS {
        let input = samples::speed_input(name, 1).unwrap();
        let printed = Kind::Plan.run(&input);
        assert!(printed.starts_with("LITRES "), "{name}: {printed}");
    }
    assert_eq!(samples::speed_input("other", 1), None);
    assert_eq!(samples::speed_input("largest", 1).map(|input| input.len()), Some(39_260));
}

#[test]
fn frames_are_joined_and_split() {
    let stream = frames::join(Kind::Plan, &[vec![], vec![7], vec![1; 300]]);
    assert_eq!(stream[..11], [0, 0, 0, 1, 2, 0, 0, 0, 2, 2, 7]);
    assert_eq!(stream[11..17], [0, 0, 1, 45, 2, 1]);
    let frames = frames::split(&stream);
    assert_eq!(frames[..2], [&[2][..], &[2, 7]]);
    assert_eq!(frames[2].len(), 301);
    assert_eq!(frames::split(&stream[..stream.len() - 1]), frames[..2]);
    assert_eq!(frames::split(&[0, 0, 0]), Vec::<&[u8]>::new());
}

/// Stored frames have 12 and 255 as no kind.
#[test]
fn kinds_have_bytes_of_their_own() {
    let bytes: BTreeSet<u8> = KINDS.iter().map(|kind| kind.byte()).collect();
    assert_eq!(
        bytes.into_iter().collect::<Vec<_>>(),
        [&(0..12).collect::<Vec<u8>>()[..], &[13, 14, 15]].concat()
    );
    assert!(KINDS.iter().all(|&kind| Kind::of_byte(kind.byte()) == Some(kind)));
}

/// The vectors of each kind: enough cases, small enough, and each answer that
/// the kind can have.
#[test]
fn vectors_are_complete() {
    let check = |kind: Kind, cases: usize, most: usize, answers: &[&str]| {
        let list = vectors::cases(kind, 1);
        assert!(list.len() >= cases, "{} has {} cases", kind.name(), list.len());
        let stream = frames::join(kind, &list);
        let printed = frames::run(&stream);
        assert!(stream.len() < most && printed.len() < most, "{}", kind.name());
        for answer in answers {
            let count = printed.lines().filter(|line| line.starts_with(answer)).count();
            assert!(count > 0, "{} lacks {answer}", kind.name());
        }
    };
    let book = ["REFUSED 1 ", "REFUSED 2 ", "REFUSED 3 ", "REFUSED 4 ", "REFUSED 5 ", "REFUSED 6 "];
    let with = |more: &[&'static str]| [&book[..], more].concat();
    check(Kind::ReadBook, 500, 400_000, &with(&["GRADES 64 CHANGEOVERS 4032 SHEETS 16 RUNS 256"]));
    check(Kind::CheckLineup, 320, 1_000_000, &with(&["CLEAR", "RUN AT ", "REFUSED 10"]));
    check(Kind::Plan, 1_000, 1_000_000, &with(&["LITRES ", "NONE", "REFUSED 7"]));
    let named = ["REFUSED 11", "REFUSED 12", "REFUSED 13", "REFUSED 16", "REFUSED 17"];
    let replay = [&["STAGE 0", "STAGE 1", "STAGE 2", "REFUSED 7"][..], &named].concat();
    check(Kind::Replay, 320, 1_000_000, &with(&replay));
    let board = ["0 LITRES 0 CHANGES 0", "3 LITRES 450 CHANGES 5", "3 NONE", "REFUSED 7"];
    check(Kind::Board, 600, 1_000_000, &with(&board));
    let table = ["FILLED 4", "FILLED 1", "TABLE 1 ", "REFUSED 7", "REFUSED 8", "REFUSED 9"];
    check(Kind::AnyTable, 200, 500_000, &[&table[..], &["REFUSED 1 "]].concat());
    let passes = ["END 0 PASSES 1 MOST 0", "END 63 PASSES 64 MOST 63", "END 63 PASSES 2 MOST 1"];
    check(Kind::Passes, 600, 500_000, &with(&passes));
    let lengths = ["LENGTH 4", "LENGTH 81", "LENGTH 85", "LENGTH 39252", "REFUSED 14 "];
    check(Kind::Rewrite, 900, 700_000, &with(&lengths));
    let written =
        [&lengths[..], &["REFUSED 1 ", "REFUSED 3 ", "REFUSED 4 ", "REFUSED 5 "]].concat();
    let written = [&written[..], &["REFUSED 6 ", "REFUSED 18"]].concat();
    check(Kind::WriteBook, 1_800, 800_000, &written);
    let any = |call, answers: &[&str]| check(Kind::Any(call), 100, 500_000, answers);
    any(Call::Bind, &["KNOWN 2", "RUNS ", "REFUSED 1 ", "REFUSED 8"]);
    any(Call::Check, &["CLEAR", "RUN AT ", "REFUSED 1 ", "REFUSED 8", "REFUSED 9", "REFUSED 10"]);
    let planned = ["LITRES ", "NONE", "LINEUP ", "REFUSED 1 ", "REFUSED 7", "REFUSED 8"];
    any(Call::Plan, &[&planned[..], &["REFUSED 9"]].concat());
    any(Call::Begin, &["STAGE 0", "STAGE 2", "RUNS ", "LINEUP ", "REFUSED 7", "REFUSED 8"]);
    let refused = ["REFUSED 1 ", "REFUSED 8", "REFUSED 9"];
    any(Call::Passed, &[&refused[..], &["STAGE 1", "REFUSED 11"]].concat());
    any(Call::Failed, &[&refused[..], &["STAGE 0", "RUNS ", "LINEUP "], &named].concat());
    let printed: String =
        (0..400).map(|index| Kind::Any(Call::Failed).run(&any_failed(index))).collect();
    assert!(printed.contains("REFUSED 13\n"));
}

fn any_failed(index: u64) -> Vec<u8> {
    inputs::case(Kind::Any(Call::Failed), 1, index)
}

/// The largest books have the greatest length, and their plans are no mere
/// changeover; the long inputs have the lengths that count.
#[test]
fn inputs_at_the_limits_have_their_lengths() {
    let mut changes = Vec::new();
    for index in 0..20 {
        let input = Source::LargestPlans.case(1, index);
        assert_eq!(input.len(), large::LONGEST_INPUT);
        let book = book::read(&input[8..]).unwrap();
        assert_eq!((book.grades(), book.changeovers.count(), book.runs()), (64, 4_032, 256));
        let printed = Kind::Plan.run(&input);
        assert!(printed.starts_with("LITRES "), "{printed}");
        changes.push(printed.lines().nth(1).unwrap().split(' ').count());
    }
    assert!(changes.iter().filter(|&&grades| grades > 4).count() > 5, "{changes:?}");
    let lengths: Vec<usize> = (0..6).map(|i| Source::LongPlans.case(1, i).len()).collect();
    for length in [39_260, 39_261, 65_535, 65_536, 65_537, 131_072] {
        assert!(lengths.contains(&length), "{lengths:?}");
    }
    assert!(Kind::Plan.run(&Source::LongPlans.case(1, 0)).starts_with("LITRES "));
    for index in 0..4 {
        let input = Source::LargestBoards.case(1, index);
        assert_eq!(input.len(), large::LONGEST_BOARD);
        assert_eq!(Kind::Board.run(&input).lines().count(), 64);
    }
    let lengths: Vec<usize> = (0..6).map(|i| Source::LongBoards.case(1, i).len()).collect();
    for length in [39_259, 39_260, 65_535, 65_536, 65_537, 131_072] {
        assert!(lengths.contains(&length), "{lengths:?}");
    }
    assert_eq!(Kind::Board.run(&Source::LongBoards.case(1, 0)).lines().count(), 64);
}

/// 01's settled sums are among the vectors with the paper's answers.
#[test]
fn vectors_hold_the_settled_sums() {
    let plan = vectors::cases(Kind::Plan, 1);
    for (marks, answer) in [
        (0, "LITRES 300 CHANGES 3\n0 1 2 3\n"),
        (1, "LITRES 350 CHANGES 2\n0 2 3\n"),
        (2, "LITRES 300 CHANGES 3\n0 1 2 3\n"),
        (3, "LITRES 450 CHANGES 5\n0 1 2 1 2 3\n"),
    ] {
        let input = inputs::plan_input(samples::batch(marks), 0, 3, &samples::book_a().bytes());
        assert!(plan.contains(&input));
        assert_eq!(Kind::Plan.run(&input), answer);
    }
    let read = vectors::cases(Kind::ReadBook, 1);
    for (bytes, answer) in [
        (&[1, 0, 1, 0x40][..], "GRADES 64 CHANGEOVERS 0 SHEETS 0 RUNS 0\n"),
        (&[1, 0, 1, 0x41], "REFUSED 4 AT 0\n"),
        (&[1, 0, 1], "REFUSED 1 AT 0\n"),
        (&[], "REFUSED 1 AT 0\n"),
    ] {
        assert!(read.contains(&bytes.to_vec()));
        assert_eq!(Kind::ReadBook.run(bytes), answer);
    }
}

/// The stored plans are those of the planner that follows line-ups best first.
#[test]
fn vectors_hold_the_plans_of_another_planner() {
    let mut plans = 0;
    for input in vectors::cases(Kind::Plan, 1) {
        if let Some(printed) = planned_best_first(&input) {
            assert_eq!(Kind::Plan.run(&input), printed);
            plans += 1;
        }
    }
    assert!(plans > 800, "{plans}");
}

/// What `plan` prints for an input that is not refused.
fn planned_best_first(input: &[u8]) -> Option<String> {
    match input {
        [high, low, start, end, day, month, century, year, bytes @ ..] => {
            let book = book::read(bytes).ok()?;
            if usize::from(*start.max(end)) >= book.grades() {
                return None;
            }
            let date = Date::new(*day, *month, u16::from_be_bytes([*century, *year]));
            let batch = Batch { marks: u16::from_be_bytes([*high, *low]), date };
            let runs = binding::known_runs(&book, batch).ok()?;
            let plan = exhaustive::best_first(&book.changeovers, &runs, *start, *end);
            Some(text::plan(plan.as_ref()))
        }
        _ => None,
    }
}
