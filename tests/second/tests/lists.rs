//! Planning from lists: the frames of `plan_list`, its cases, and the programs
//! that take them.

use second::inputs;
use second::list_inputs;
use second::lists::{self, List};
use second::programs::{self, MOST_INPUT};
use second::random::Random;
use second::samples;
use std::collections::BTreeSet;
use std::io::Write;
use std::process::{Command, Output, Stdio};

const SECOND: &str = env!("CARGO_BIN_EXE_second");
const COMPARE: &str = env!("CARGO_BIN_EXE_compare");

fn run(program: &str, words: &[&str], input: &[u8]) -> Output {
    let mut child = Command::new(program)
        .args(words)
        .stdin(Stdio::piped())
        .stdout(Stdio::piped())
        .stderr(Stdio::piped())
        .spawn()
        .unwrap();
    let _ = child.stdin.take().unwrap().write_all(input);
    child.wait_with_output().unwrap()
}

fn text(output: &Output) -> String {
    String::from_utf8(output.stdout.clone()).unwrap()
}

/// The head of a list of 4 grades from 0 to 3 with no known run, up to the
/// runs area, which has this length.
fn head(area: [u8; 2]) -> Vec<u8> {
    [&[0, 4, 0, 3, 0, 0, 6, 64][..], &area].concat()
}

#[test]
fn frames_are_read_as_their_format_says() {
    let items = [0, 1, 0, 0, 0, 100, 1, 3, 0, 0, 1, 144, 3, 0];
    let bytes = [&head([9, 0])[..], &[0; 2_304], &items].concat();
    let list = List::read(&bytes).unwrap();
    assert_eq!((list.grades, list.start, list.end), (4, 0, 3));
    assert_eq!((list.known, list.lineup_area, list.runs_area.len()), (0, 1_600, 2_304));
    let read: Vec<_> = list.items.iter().map(|item| (item.from, item.to, item.litres)).collect();
    assert_eq!(read, [(0, 1, 100), (1, 3, 400)]);
    // What is left after the last whole item is no item.
    assert_eq!(list.bytes(), bytes[..bytes.len() - 2]);
    assert_eq!(lists::run_frame(&bytes), "LITRES 500 CHANGES 2\n0 1 3\n");
    for length in [0, 9, 10, 2_313] {
        assert_eq!(lists::run_frame(&bytes[..length]), "REFUSED 1 AT 0\n");
    }
    assert_eq!(lists::run_frame(&bytes[..2_314]), "NONE\n");
    assert_eq!(lists::run_frame(&head([0, 0])), "REFUSED 8\n");
}

/// 01's sums.
#[test]
fn book_a_is_planned_from_its_list() {
    let answer = |marks, start, end| {
        let batch = samples::batch(marks);
        lists::run_frame(&list_inputs::list_of(&samples::book_a(), batch, start, end).bytes())
    };
    assert_eq!(answer(0, 0, 3), "LITRES 300 CHANGES 3\n0 1 2 3\n");
    assert_eq!(answer(1, 0, 3), "LITRES 350 CHANGES 2\n0 2 3\n");
    assert_eq!(answer(2, 0, 3), "LITRES 300 CHANGES 3\n0 1 2 3\n");
    assert_eq!(answer(3, 0, 3), "LITRES 450 CHANGES 5\n0 1 2 1 2 3\n");
    assert_eq!(answer(0, 3, 0), "NONE\n");
    assert_eq!(answer(0, 3, 3), "LITRES 0 CHANGES 0\n3\n");
    assert_eq!(answer(0, 4, 3), "REFUSED 7\n");
}

/// The plan is that of the book with the same changeovers, in any order.
#[test]
fn a_list_plans_as_its_book() {
    let mut planned = 0;
    for index in 0..800 {
        let random = &mut Random::new(&[17, index]);
        let scene = inputs::any_scene(random);
        let (start, end) = inputs::terminals(random, &scene);
        let batch = inputs::good_batch(random, &scene.draft);
        let mut list = list_inputs::list_of(&scene.draft, batch, start, end);
        random.shuffle(&mut list.items);
        let from_list = lists::run_frame(&list.bytes());
        let book = inputs::plan_input(batch, start, end, &scene.draft.bytes());
        assert_eq!(from_list, programs::plan(&book), "index {index}");
        planned += u32::from(from_list.starts_with("LITRES"));
    }
    assert!(planned > 300, "only {planned} plans");
}

#[test]
fn cases_are_deterministic_and_differ_and_fit() {
    let cases: BTreeSet<Vec<u8>> = (0..200).map(|index| list_inputs::case(7, index)).collect();
    assert!(cases.len() > 150, "{}", cases.len());
    assert!(cases.iter().all(|case| case.len() <= MOST_INPUT));
    assert_eq!(list_inputs::case(7, 3), list_inputs::case(7, 3));
    assert_ne!(list_inputs::case(7, 3), list_inputs::case(8, 3));
    assert_eq!(list_inputs::stored(5), list_inputs::stored(5));
    assert!(list_inputs::stored(5).iter().all(|case| case.len() <= MOST_INPUT));
}

/// Every answer that planning from a list has is among random cases, and so
/// are long lists.
#[test]
fn random_cases_have_every_answer() {
    let cases: Vec<Vec<u8>> = (0..2_000).map(|index| list_inputs::case(3, index)).collect();
    let printed = lists::run(&lists::join(&cases));
    let lines: BTreeSet<&str> = printed.lines().collect();
    let has = |start: &str| lines.iter().any(|line| line.starts_with(start));
    for line in ["NONE", "REFUSED 1 AT 0", "REFUSED 4 AT 0", "REFUSED 5 AT 4032"] {
        assert!(lines.contains(line), "{line}");
    }
    for start in ["LITRES ", "REFUSED 4 AT 1", "REFUSED 5 AT 1", "REFUSED 7", "REFUSED 8"] {
        assert!(has(start), "{start}");
    }
    assert!(lines.contains("REFUSED 9"));
    let items = |case: &Vec<u8>| List::read(case).map_or(0, |list| list.items.len());
    assert!(cases.iter().filter(|case| items(case) > 4_100).count() >= 3);
}

#[test]
fn programs_take_lists() {
    let stored = lists::join(&list_inputs::stored(4));
    assert_eq!(text(&run(SECOND, &["plan_lists"], &stored)), lists::run(&stored));
    let compare =
        |command: &str| run(COMPARE, &["plan_lists", "600", "2", "--", SECOND, command], &[]);
    let output = compare("plan_lists");
    assert!(output.status.success());
    assert_eq!(text(&output), "plan_lists: 600 inputs of seed 2, 0 different\n");
    let output = compare("plan");
    assert!(!output.status.success());
    assert!(text(&output).contains("DIFFERENT plan_lists seed 2 index 1: "));
    let shown = run(COMPARE, &["--show", "plan_lists", "2", "5"], &[]).stdout;
    assert_eq!(shown, lists::join(&[list_inputs::case(2, 5)]));
}
