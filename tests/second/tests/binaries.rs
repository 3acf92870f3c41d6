//! The built programs: what they read and print, and their exit status.

use second::frames;
use second::inputs;
use second::kinds::{Kind, KINDS};
use second::list_inputs;
use second::lists;
use second::samples;
use second::vectors;
use std::fs;
use std::io::Write;
use std::process::{Command, Output, Stdio};

const SECOND: &str = env!("CARGO_BIN_EXE_second");
const COMPARE: &str = env!("CARGO_BIN_EXE_compare");
const VECTORS: &str = env!("CARGO_BIN_EXE_vectors");

fn run(program: &str, words: &[&str], input: &[u8]) -> Output {
    let mut child = Command::new(program)
        .args(words)
        .stdin(Stdio::piped())
        .stdout(Stdio::piped())
        .stderr(Stdio::piped())
        .spawn()
        .unwrap();
    // A program that refuses its words reads nothing.
    let _ = child.stdin.take().unwrap().write_all(input);
    child.wait_with_output().unwrap()
}

fn text(output: &Output) -> String {
    String::from_utf8(output.stdout.clone()).unwrap()
}

#[test]
fn second_answers_one_case_or_a_stream() {
    let listing = inputs::plan_input(samples::batch(3), 0, 3, &samples::book_a().bytes());
    let answer = "LITRES 450 CHANGES 5\n0 1 2 1 2 3\n";
    assert_eq!(text(&run(SECOND, &["plan"], &listing)), answer);
    let stream = [
        frames::join(Kind::Plan, &[listing.clone(), vec![], listing]),
        frames::framed(&[12]),
        frames::framed(&[]),
        frames::frame(Kind::ReadBook, &samples::book_a().bytes()[..4]),
    ]
    .concat();
    assert_eq!(
        text(&run(SECOND, &["frames"], &stream)),
        format!(
            "{answer}REFUSED 1 AT 0\n{answer}UNKNOWN KIND\nNO KIND\n\
             GRADES 4 CHANGEOVERS 0 SHEETS 0 RUNS 0\n"
        )
    );
    for kind in KINDS {
        let case = inputs::case(kind, 1, 1);
        assert_eq!(run(SECOND, &[kind.name()], &case).stdout, kind.output(&case));
    }
    assert_eq!(
        run(SECOND, &["input", "chain", "1"], &[]).stdout,
        samples::speed_input("chain", 1).unwrap()
    );
    let typical = [1, 2].map(|seed| samples::speed_input("typical", seed).unwrap());
    assert_eq!(
        run(SECOND, &["inputs", "typical", "1", "2"], &[]).stdout,
        frames::join(Kind::Plan, &typical)
    );
}

#[test]
fn wrong_words_fail() {
    for (program, words) in [
        (SECOND, &[][..]),
        (SECOND, &["other"]),
        (SECOND, &["plans"]),
        (SECOND, &["input", "other", "1"]),
        (SECOND, &["inputs", "other", "1", "2"]),
        (COMPARE, &["plan", "5", "1"]),
        (COMPARE, &["plan", "5", "1", "--"]),
        (COMPARE, &["other", "5", "1", "--", SECOND, "plan"]),
        (COMPARE, &["long_plans", "5", "1", "--", SECOND, "plan"]),
        (COMPARE, &["long_boards", "5", "1", "--", SECOND, "board"]),
        (COMPARE, &["long_rewrites", "5", "1", "--", SECOND, "rewrite"]),
        (COMPARE, &["long_write_books", "5", "1", "--", SECOND, "write_book"]),
        (COMPARE, &["plan_list", "5", "1", "--", SECOND, "plan_lists"]),
        (COMPARE, &["passess", "5", "1", "--", SECOND, "frames"]),
        (COMPARE, &["--trickle", "0", "plan", "5", "1", "--", SECOND, "plan"]),
        (VECTORS, &["1"]),
        (VECTORS, &["plan", "/tmp"]),
    ] {
        let output = run(program, words, &[]);
        assert!(!output.status.success() && output.stdout.is_empty(), "{words:?}");
    }
}

#[test]
fn vectors_writes_three_files_for_each_program() {
    let folder = std::env::temp_dir().join(format!("second-vectors-{}", std::process::id()));
    let name = folder.to_str().unwrap();
    assert!(run(VECTORS, &["4", name], &[]).status.success());
    let stream = vectors::stream(4);
    let read = |program: &str, file: &str| fs::read(folder.join(program).join(file)).unwrap();
    assert_eq!(read("frames", "stdin"), stream);
    assert_eq!(read("frames", "stdout"), frames::run(&stream).into_bytes());
    let stream = lists::join(&list_inputs::stored(4));
    assert_eq!(read("plan_list", "stdin"), stream);
    assert_eq!(read("plan_list", "stdout"), lists::run(&stream).into_bytes());
    let kinds = ["plan", "board", "check_lineup", "replay", "passes", "rewrite", "write_book"];
    for name in kinds {
        let case = read(name, "stdin");
        assert_eq!(read(name, "stdout"), Kind::named(name).unwrap().output(&case));
    }
    for program in kinds.iter().chain(&["frames", "plan_list"]) {
        let note = String::from_utf8(read(program, "VECTORS.txt")).unwrap();
        assert!(note.contains(&format!("--bin vectors -- 4 {name}\n")), "{note}");
    }
    fs::remove_dir_all(folder).unwrap();
}

#[test]
fn compare_finds_no_difference_from_itself() {
    for kind in KINDS {
        let stream = kind.stream_name();
        for (name, count, word) in [(kind.name(), "12", kind.name()), (&stream, "300", "frames")] {
            let output = run(COMPARE, &[name, count, "2", "--", SECOND, word], &[]);
            assert!(output.status.success());
            assert_eq!(text(&output), format!("{name}: {count} inputs of seed 2, 0 different\n"));
        }
    }
}

/// Inputs at the limits of length, and inputs that come a few bytes at a time.
#[test]
fn compare_takes_long_inputs_and_lets_them_trickle() {
    for (words, word) in [
        (&["largest_plans", "5"][..], "frames"),
        (&["long_plan", "12"], "plan"),
        (&["largest_boards", "3"], "frames"),
        (&["long_board", "12"], "board"),
        (&["long_rewrite", "12"], "rewrite"),
        (&["long_write_book", "12"], "write_book"),
        (&["--trickle", "300", "long_plan", "6"], "plan"),
        (&["--trickle", "300", "long_rewrite", "6"], "rewrite"),
        (&["--limit", "60", "--trickle", "1", "check_lineup", "3"], "check_lineup"),
    ] {
        let words = [words, &["2", "--", SECOND, word]].concat();
        let output = run(COMPARE, &words, &[]);
        assert!(output.status.success(), "{words:?}: {}", text(&output));
    }
}

#[test]
fn compare_reports_each_difference() {
    let output = run(COMPARE, &["plan", "3", "2", "--", SECOND, "replay"], &[]);
    assert!(!output.status.success());
    let printed = text(&output);
    let lines: Vec<&str> = printed.lines().collect();
    assert_eq!(lines.len(), 4);
    for (index, line) in lines[..3].iter().enumerate() {
        assert!(line.starts_with(&format!("DIFFERENT plan seed 2 index {index}: ")), "{line}");
    }
    assert_eq!(lines[3], "plan: 3 inputs of seed 2, 3 different");
    // A stream that differs is gone through case by case.
    let output = run(COMPARE, &["plans", "3", "2", "--", SECOND, "plan"], &[]);
    assert!(!output.status.success());
    assert!(text(&output).contains("DIFFERENT plans seed 2 index 1: "));
    // A program that fails, or isn't there, differs.
    for command in [&[SECOND][..], &["/no/such/program"]] {
        let words = [&["plan", "2", "2", "--"], command].concat();
        assert!(
            text(&run(COMPARE, &words, &[])).ends_with("plan: 2 inputs of seed 2, 2 different\n")
        );
    }
}

/// Bytes that are no text differ too, and are shown.
#[test]
fn compare_compares_bytes() {
    let script = format!("{SECOND} rewrite | tr '\\300-\\376' '\\301-\\377'");
    let output = run(COMPARE, &["long_rewrite", "1", "2", "--", "sh", "-c", &script], &[]);
    assert!(!output.status.success());
    let printed = text(&output);
    let (before, got) = printed.split_once(", got \"").unwrap();
    let (place, expected) = before.split_once(": expected \"").unwrap();
    assert!(place.starts_with("DIFFERENT long_rewrite seed 2 index 0: line "), "{printed}");
    assert!(!got.starts_with(expected.trim_end_matches("\"...")), "{printed}");
}

/// A line with too many passes, by itself and in a stream.
#[test]
fn compare_reports_too_many_passes() {
    let over = "END 0 PASSES 3 MOST 1 OVER";
    let script = format!("cat >/dev/null; echo '{over}'");
    for name in ["passes", "books_passes"] {
        let output = run(COMPARE, &[name, "1", "2", "--", "sh", "-c", &script], &[]);
        assert!(!output.status.success());
        let line = format!("DIFFERENT {name} seed 2 index 0: too many passes: {over:?}\n");
        assert!(text(&output).starts_with(&line), "{}", text(&output));
    }
}

/// A program that never ends is ended, and is the last one to be run.
#[test]
fn compare_ends_a_program_that_hangs() {
    for (kind, place) in [("plan", "index 0"), ("plans", "indexes 0 to 2 in one stream")] {
        let words = ["--limit", "1", kind, "3", "2", "--", "sleep", "1000"];
        let output = run(COMPARE, &words, &[]);
        assert!(!output.status.success());
        let hangs = "hangs: still running after 1 s, and ended";
        assert_eq!(
            text(&output),
            format!(
                "DIFFERENT {kind} seed 2 {place}: {hangs}\n\
                 {kind}: 3 inputs of seed 2, 1 different\n"
            )
        );
    }
}

#[test]
fn compare_shows_the_input_of_a_case() {
    let case = inputs::case(Kind::Plan, 6, 9);
    assert_eq!(run(COMPARE, &["--show", "plan", "6", "9"], &[]).stdout, case);
    assert_eq!(
        run(COMPARE, &["--show", "plans", "6", "9"], &[]).stdout,
        frames::frame(Kind::Plan, &case)
    );
}
