//! Binding, the check and both forms of planning: answers, every byte of the
//! areas, and the order of refusals.

use second::binding::{self, Batch, RUNS_AREA};
use second::changeovers::Changeover;
use second::check::{self, Found};
use second::dates::Date;
use second::draft::Draft;
use second::generate;
use second::inputs;
use second::kinds::Kind;
use second::plan::{self, Answer, Known, LINEUP_AREA};
use second::programs;
use second::random::Random;
use second::refusal::Refusal;
use second::samples::{self, batch};

const BAD_BOOK: &[u8] = &[1, 0, 1, 0];

fn plain<T>(number: u8) -> Result<T, Refusal> {
    Err(Refusal::plain(number))
}

fn area_of(runs: &[&[u8]]) -> Vec<u8> {
    let runs: Vec<Vec<u8>> = runs.iter().map(|run| run.to_vec()).collect();
    let mut area = vec![0; RUNS_AREA];
    binding::write_area(&runs, &mut area);
    area
}

#[test]
fn binding_takes_all_binding_sheets_together() {
    let book = Draft::new(5)
        .sheet(0x0003)
        .run(&[0, 1])
        .sheet(0x0001)
        .run(&[1, 2])
        .run(&[0, 1])
        .run(&[1, 2])
        .sheet(0x8000)
        .run(&[4, 3])
        .sheet(0)
        .run(&[2, 3])
        .bytes();
    for (marks, runs) in [
        (0x0000, &[&[2, 3][..]][..]),
        (0x0002, &[&[2, 3]]),
        // Of the runs of binding sheets, 1 2 appears first.
        (0x0001, &[&[1, 2], &[0, 1], &[2, 3]]),
        (0x0003, &[&[0, 1], &[1, 2], &[2, 3]]),
        (0x8000, &[&[4, 3], &[2, 3]]),
        (0xffff, &[&[0, 1], &[1, 2], &[4, 3], &[2, 3]]),
    ] {
        let mut area = vec![0x55; RUNS_AREA + 1];
        assert_eq!(binding::bind(&book, batch(marks), &mut area), Ok(runs.len()));
        assert_eq!(area[..RUNS_AREA], area_of(runs));
        assert_eq!(area[RUNS_AREA], 0x55);
    }
}

/// A run that comes back is bound, once, and found by the check.
#[test]
fn runs_that_come_back_are_bound_and_found() {
    let book = samples::book_a()
        .sheet(0)
        .run(&[1, 2, 1])
        .run(&[1, 1])
        .run(&[1, 2, 1])
        .run(&[1, 2, 1, 2, 3])
        .bytes();
    let mut area = vec![0x55; RUNS_AREA];
    assert_eq!(binding::bind(&book, batch(0), &mut area), Ok(3));
    assert_eq!(area, area_of(&[&[1, 2, 1], &[1, 1], &[1, 2, 1, 2, 3]]));
    let found = |lineup: &[u8]| check::check(&book, &area, 3, lineup);
    assert_eq!(found(&[0, 1, 2, 1, 2, 3]), Ok(Some(Found { place: 1, length: 3 })));
    assert_eq!(found(&[0, 2, 1, 2, 3]), Ok(None));
    assert_eq!(found(&[0, 1, 1, 2]), plain(10));
}

#[test]
fn binding_refuses_and_writes_nothing() {
    let book = samples::book_a().bytes();
    let bad_window = samples::book_a_in([0, 5, 15, 9]).bytes();
    let mut area = vec![0x55; RUNS_AREA];
    for batch in [batch(3), samples::bad_batch()] {
        let short = &mut area[1..];
        assert_eq!(binding::bind(&book, batch, short), plain(8));
        assert_eq!(binding::bind(BAD_BOOK, batch, short), Err(Refusal::at(4, 0)));
        assert_eq!(binding::bind(&bad_window, batch, short), Err(Refusal::at(14, 70)));
    }
    assert_eq!(binding::bind(&book, samples::bad_batch(), &mut area), plain(15));
    assert!(area.iter().all(|&byte| byte == 0x55));
}

#[test]
fn the_check_names_the_earliest_end_then_the_shortest() {
    let known = |runs: &[&[u8]]| -> Vec<Vec<u8>> { runs.iter().map(|run| run.to_vec()).collect() };
    let found = |place, length| Some(Found { place, length });
    let lineup = [0, 1, 2, 3, 4];
    assert_eq!(check::first_run(&lineup, &known(&[])), None);
    assert_eq!(check::first_run(&lineup, &known(&[&[1, 3], &[4, 0]])), None);
    assert_eq!(check::first_run(&lineup, &known(&[&[0, 1]])), found(0, 2));
    assert_eq!(check::first_run(&lineup, &known(&[&[3, 4]])), found(3, 2));
    // It begins later, but ends earlier.
    assert_eq!(check::first_run(&lineup, &known(&[&[0, 1, 2, 3], &[1, 2]])), found(1, 2));
    assert_eq!(
        check::first_run(&lineup, &known(&[&[0, 1, 2, 3], &[1, 2, 3], &[2, 3]])),
        found(2, 2)
    );
    assert_eq!(
        check::first_run(&lineup, &known(&[&[2, 3], &[0, 1, 2, 3], &[1, 2, 3]])),
        found(2, 2)
    );
    // It begins inside another's false start.
    assert_eq!(check::first_run(&[0, 1, 0, 1, 2], &known(&[&[0, 1, 2]])), found(2, 3));
    // It begins inside its own false start.
    assert_eq!(check::first_run(&[0, 1, 0, 1, 0, 2], &known(&[&[0, 1, 0, 2]])), found(2, 4));
    assert_eq!(check::first_run(&[0, 1, 0, 1, 0], &known(&[&[1, 0, 1, 0], &[1, 1]])), found(1, 4));
}

/// Random line-ups, against a look at every end and every length in turn.
#[test]
fn the_check_agrees_with_a_look_at_every_place() {
    let mut found = 0;
    for seed in 0..3_000 {
        let random = &mut Random::new(&[7, seed]);
        let grades = random.between(2, 6);
        let count = random.between(1, 12);
        let runs = generate::random_runs(random, grades, &[], count);
        let lineup: Vec<u8> =
            (0..random.between(1, 15)).map(|_| random.below(grades) as u8).collect();
        let ends =
            (0..=lineup.len()).flat_map(|end| (2..=end.min(8)).map(move |length| (end, length)));
        let first = ends
            .map(|(end, length)| Found { place: end - length, length })
            .find(|at| runs.contains(&lineup[at.place..at.place + at.length].to_vec()));
        assert_eq!(check::first_run(&lineup, &runs), first, "{lineup:?} {runs:?}");
        found += usize::from(first.is_some());
    }
    assert!((500..2_500).contains(&found), "{found}");
}

#[test]
fn the_check_refuses_in_order() {
    let book = samples::book_a().bytes();
    let area = area_of(&[&[0, 2, 3]]);
    let clear: &[u8] = &[0, 1, 2, 1, 2, 3];
    assert_eq!(check::check(&book, &area, 1, clear), Ok(None));
    assert_eq!(check::check(&book, &area, 1, &[0, 2, 3]), Ok(Some(Found { place: 0, length: 3 })));
    assert_eq!(check::check(&book, &area[1..], 9, &[]), plain(8));
    assert_eq!(check::check(BAD_BOOK, &area[1..], 9, &[]), Err(Refusal::at(4, 0)));
    assert_eq!(check::check(&book, &area, 2, &[]), plain(9));
    for bad in [&[][..], &[4], &[0, 3], &[0, 0], &[255, 0], &[0, 1, 2, 3, 0]] {
        assert_eq!(check::check(&book, &area, 1, bad), plain(10), "{bad:?}");
    }
}

#[test]
fn the_check_takes_at_most_1600_grades() {
    let book = Draft::new(2).changeover(0, 1, 0).changeover(1, 0, 0).bytes();
    let lineup: Vec<u8> = (0..1_601).map(|i| (i % 2) as u8).collect();
    let area = area_of(&[]);
    assert_eq!(check::check(&book, &area, 0, &lineup[..1_600]), Ok(None));
    assert_eq!(check::check(&book, &area, 0, &lineup), plain(10));
}

#[test]
fn an_area_of_known_runs_is_judged_whole() {
    let good = area_of(&[&[0, 1], &[1, 2, 3]]);
    let judged = |area: &[u8], count| binding::read_area(area, count, 4).is_ok();
    assert!(judged(&good, 2));
    assert!(judged(&area_of(&[]), 0));
    assert!(!judged(&good, 1), "an unused entry is not 0");
    assert!(!judged(&good, 3), "a run of no grades");
    assert!(!judged(&good, 257));
    assert!(!judged(&good, usize::MAX));
    for (place, byte) in [
        (0, 0), // too short
        (0, 1), // too short
        (0, 9), // too long
        (0, 255),
        (1, 4),  // not below the count
        (3, 1),  // unused, inside a used entry
        (8, 1),  // unused, inside a used entry
        (18, 1), // unused
        (RUNS_AREA - 1, 1),
    ] {
        let mut area = good.clone();
        area[place] = byte;
        assert!(!judged(&area, 2), "byte {place} as {byte}");
    }
    // The same entry as 0 1 0, and as 1 1.
    for (place, byte) in [(0, 3), (1, 1)] {
        let mut area = good.clone();
        area[place] = byte;
        assert!(judged(&area, 2), "byte {place} as {byte}");
    }
    assert!(judged(&area_of(&[&[3; 8], &[0, 1, 0, 1], &[0, 0], &[0, 0, 0]]), 4));
    assert!(!judged(&area_of(&[&[0, 1], &[0, 1]]), 2), "a repeated one");
    assert!(!judged(&area_of(&[&[1, 0, 1], &[2, 2], &[1, 0, 1]]), 3), "a repeated one");
    assert!(judged(&area_of(&[&[0, 1], &[1, 0], &[0, 1, 2]]), 3));
    // Bytes after the entries are not judged.
    assert!(judged(&[good, vec![7; 5]].concat(), 2));
}

#[test]
fn an_area_may_hold_256_runs() {
    let runs: Vec<Vec<u8>> = (0..256).map(|i| vec![(i / 16) as u8, 16 + (i % 16) as u8]).collect();
    let mut area = vec![0; RUNS_AREA];
    binding::write_area(&runs, &mut area);
    assert_eq!(binding::read_area(&area, 256, 32), Ok(runs));
}

fn plan_a(
    known: Known,
    start: u8,
    end: u8,
    lineup_area: &mut [u8],
) -> Result<Option<Answer>, Refusal> {
    plan::plan(&samples::book_a().bytes(), known, start, end, lineup_area)
}

#[test]
fn planning_refuses_in_order_and_writes_nothing() {
    let area = area_of(&[&[0, 1, 2, 3]]);
    let good = Known { area: &area, count: 1 };
    let wrong_count = Known { area: &area, count: 2 };
    let short = Known { area: &area[1..], count: 2 };
    let mut lineup_area = vec![0x55; LINEUP_AREA];
    assert_eq!(plan_a(good, 0, 4, &mut lineup_area), plain(7));
    assert_eq!(plan_a(good, 4, 0, &mut lineup_area), plain(7));
    assert_eq!(plan_a(wrong_count, 0, 4, &mut lineup_area), plain(7));
    assert_eq!(plan_a(wrong_count, 0, 3, &mut lineup_area), plain(9));
    assert_eq!(plan_a(short, 0, 4, &mut lineup_area), plain(8));
    assert_eq!(plan_a(wrong_count, 0, 4, &mut lineup_area[1..]), plain(8));
    assert_eq!(plan::plan(BAD_BOOK, short, 9, 9, &mut lineup_area), Err(Refusal::at(4, 0)));
    assert_eq!(plan_a(good, 3, 0, &mut lineup_area), Ok(None));
    assert!(lineup_area.iter().all(|&byte| byte == 0x55));
    assert_eq!(plan_a(good, 0, 3, &mut lineup_area), Ok(Some(Answer { litres: 350, changes: 2 })));
    assert_eq!(lineup_area[..4], [0, 2, 3, 0x55]);
}

fn item(from: u8, to: u8, litres: u32) -> Changeover {
    Changeover { from, to, litres }
}

#[test]
fn the_list_form_refuses_with_the_items_index() {
    let area = area_of(&[]);
    let known = Known { area: &area, count: 0 };
    let refused = |grades, items: &[Changeover]| {
        plan::plan_list(grades, items, known, 0, 0, &mut [0; LINEUP_AREA])
    };
    let answer = Ok(Some(Answer { litres: 0, changes: 0 }));
    assert_eq!(refused(1, &[]), answer);
    assert_eq!(refused(64, &[item(63, 62, 1_000_000), item(62, 63, 0)]), answer);
    assert_eq!(refused(0, &[]), Err(Refusal::at(4, 0)));
    assert_eq!(refused(65, &[item(0, 1, 0), item(0, 1, 0)]), Err(Refusal::at(4, 0)));
    assert_eq!(refused(2, &[item(0, 1, 0), item(1, 2, 0)]), Err(Refusal::at(4, 1)));
    assert_eq!(refused(2, &[item(0, 1, 0), item(2, 1, 0)]), Err(Refusal::at(4, 1)));
    assert_eq!(refused(2, &[item(1, 1, 0)]), Err(Refusal::at(4, 0)));
    assert_eq!(refused(2, &[item(0, 1, 1_000_001)]), Err(Refusal::at(4, 0)));
    assert_eq!(refused(3, &[item(0, 1, 0), item(1, 0, 0), item(0, 1, 5)]), Err(Refusal::at(5, 2)));
    assert_eq!(refused(3, &[item(0, 1, 0), item(0, 1, 1_000_001)]), Err(Refusal::at(4, 1)));
    assert_eq!(refused(3, &[item(0, 1, 0), item(0, 1, 0), item(9, 9, 9)]), Err(Refusal::at(5, 1)));
}

#[test]
fn the_list_form_refuses_8_7_9_in_order() {
    let area = area_of(&[&[0, 1]]);
    let items = [item(0, 1, 5), item(1, 0, 5)];
    let mut lineup_area = vec![0x55; LINEUP_AREA];
    let mut planned = |grades, area: &[u8], count, end, lineup: usize| {
        plan::plan_list(grades, &items, Known { area, count }, 0, end, &mut lineup_area[lineup..])
    };
    assert_eq!(planned(0, &area[1..], 0, 9, 1), Err(Refusal::at(4, 0)));
    assert_eq!(planned(2, &area[1..], 0, 9, 0), plain(8));
    assert_eq!(planned(2, &area, 0, 9, 1), plain(8));
    assert_eq!(planned(2, &area, 0, 2, 0), plain(7));
    assert_eq!(planned(2, &area, 0, 1, 0), plain(9));
    assert_eq!(planned(2, &area, 1, 1, 0), Ok(None));
    assert_eq!(planned(2, &area, 1, 0, 0), Ok(Some(Answer { litres: 0, changes: 0 })));
    assert_eq!(lineup_area[..2], [0, 0x55]);
}

/// Random books: the program, planning from the book and planning from its
/// changeovers in any order are one.
#[test]
fn all_forms_of_planning_agree() {
    let mut planned = 0;
    for index in 0..1_500 {
        let input = inputs::case(Kind::Plan, 11, index);
        if input.len() < 8 {
            continue;
        }
        let marks = u16::from_be_bytes([input[0], input[1]]);
        let year = u16::from_be_bytes([input[6], input[7]]);
        let batch = Batch { marks, date: Date::new(input[4], input[5], year) };
        let (start, end, bytes) = (input[2], input[3], &input[8..]);
        let book = match second::book::read(bytes) {
            Ok(book) => book,
            Err(_) => continue,
        };
        let mut runs_area = vec![0x55; RUNS_AREA];
        let count = match binding::bind(bytes, batch, &mut runs_area) {
            Ok(count) => count,
            Err(refusal) => {
                assert_eq!((refusal.number, batch.date.is_good()), (15, false));
                continue;
            }
        };
        let known = Known { area: &runs_area, count };
        let mut items = book.changeovers.list();
        Random::new(&[index]).shuffle(&mut items);
        let (mut one, mut other) = (vec![0x55; LINEUP_AREA], vec![0x55; LINEUP_AREA]);
        let from_book = plan::plan(bytes, known, start, end, &mut one);
        let from_list = plan::plan_list(book.grades(), &items, known, start, end, &mut other);
        assert_eq!(from_book, from_list);
        assert_eq!(one, other);
        let first_line = programs::plan(&input).lines().next().unwrap().to_string();
        match from_book {
            Ok(Some(Answer { litres, changes })) => {
                assert_eq!(first_line, format!("LITRES {litres} CHANGES {changes}"));
                planned += 1;
            }
            Ok(None) => assert_eq!(first_line, "NONE"),
            Err(refusal) => assert_eq!(first_line, format!("REFUSED {}", refusal.number)),
        }
    }
    assert!(planned > 500, "only {planned} plans");
}

#[test]
fn the_program_plan_refuses() {
    let book = samples::book_a().bytes();
    let printed =
        |start, end, book: &[u8]| programs::plan(&inputs::plan_input(batch(3), start, end, book));
    for length in 0..=7 {
        assert_eq!(programs::plan(&[0, 3, 0, 3, 1, 7, 7][..length]), "REFUSED 1 AT 0\n");
    }
    assert_eq!(printed(0, 3, &[]), "REFUSED 1 AT 0\n");
    assert_eq!(printed(4, 0, &book), "REFUSED 7\n");
    assert_eq!(printed(0, 4, &book), "REFUSED 7\n");
    assert_eq!(printed(4, 4, &book[..80]), "REFUSED 1 AT 75\n");
    assert_eq!(printed(0, 3, &[&book[..], &[9, 9, 9]].concat()), "REFUSED 2 AT 81\n");
    let long = [&generate::largest(&mut Random::new(&[2])).bytes()[..], &vec![0; 60_000]].concat();
    assert_eq!(printed(0, 3, &long), "REFUSED 2 AT 39188\n");
}

#[test]
fn check_lineup_prints() {
    let book = samples::book_a().bytes();
    let printed = |marks, lineup: &[u8]| {
        programs::check_lineup(&inputs::check_lineup_input(batch(marks), lineup, &book))
    };
    assert_eq!(printed(3, &[0, 1, 2, 1, 2, 3]), "CLEAR\n");
    assert_eq!(printed(3, &[0, 1, 2, 3]), "RUN AT 0 LENGTH 4\n");
    assert_eq!(printed(2, &[0, 1, 2, 3]), "CLEAR\n");
    assert_eq!(printed(2, &[0, 2, 3]), "RUN AT 0 LENGTH 3\n");
    assert_eq!(printed(2, &[]), "REFUSED 10\n");
    assert_eq!(printed(2, &[3, 0]), "REFUSED 10\n");
    let whole = inputs::check_lineup_input(batch(3), &[0, 1], &book);
    for length in 0..=10 {
        assert_eq!(programs::check_lineup(&whole[..length]), "REFUSED 1 AT 0\n");
    }
    assert_eq!(programs::check_lineup(&whole[..18]), "REFUSED 1 AT 4\n");
}
