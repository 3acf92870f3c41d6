//! Sheets with a season: order 4 of 02, its rules typed from the paper. Years, edges
//! and windows against walks day by day, the refusals 14 and 15 in their places, and
//! how many of the random inputs turn on a window.

use second::any_inputs::begun_on_book_a;
use second::binding::{self, Batch, RUNS_AREA};
use second::book::{self, Book, Run, Sheet};
use second::calls::{Call, Case};
use second::check;
use second::dates::{Date, Day, Window};
use second::draft::Draft;
use second::generate;
use second::inputs::{self, board_input, check_lineup_input, plan_input, replay_input};
use second::kinds::Kind;
use second::plan::{self, LINEUP_AREA};
use second::programs;
use second::refusal::Refusal;
use second::samples::{self, batch};
use second::seasons::{BAD_DATES, NO_DAYS};
use second::sources::Source;
use second::trials;
use second::vectors;
use std::collections::BTreeSet;

/// The days of each month of a common year.
const MONTHS: [u8; 12] = [31, 28, 31, 30, 31, 30, 31, 31, 30, 31, 30, 31];

/// Gregorian: 1900 and 2100 are no leap years, 2000 is one.
fn is_leap(year: u16) -> bool {
    year % 4 == 0 && (year % 100 != 0 || year % 400 == 0)
}

/// Every day of a year as month and day, from 1 January to 31 December.
fn walk(leap: bool) -> Vec<(u8, u8)> {
    let mut days = vec![(1, 1)];
    while days[days.len() - 1] != (12, 31) {
        let (month, day) = days[days.len() - 1];
        let last = MONTHS[usize::from(month) - 1] + u8::from(leap && month == 2);
        days.push(if day < last { (month, day + 1) } else { (month + 1, 1) });
    }
    days
}

fn window([first_day, first_month, last_day, last_month]: [u8; 4]) -> Window {
    let first = Day { day: first_day, month: first_month };
    Window { first, last: Day { day: last_day, month: last_month } }
}

fn on(marks: u16, day: u8, month: u8, year: u16) -> Batch {
    Batch { marks, date: Date { day, month, year } }
}

/// Of all pairs of two bytes a year has as days and months just those of the walk, 365
/// or 366, and all years together have 109,573.
#[test]
fn each_year_has_its_days() {
    let walks = [false, true].map(|leap| walk(leap).into_iter().collect::<BTreeSet<_>>());
    assert_eq!((walks[0].len(), walks[1].len()), (365, 366));
    let mut all = 0;
    for year in 1900..=2199 {
        let expected = &walks[usize::from(is_leap(year))];
        let mut days = 0;
        for month in 0..=255 {
            for day in 0..=255 {
                let good = Date { day, month, year }.is_good();
                assert_eq!(good, expected.contains(&(month, day)), "{day} {month} {year}");
                days += usize::from(good);
            }
        }
        let february = (1..=31).filter(|&day| Date { day, month: 2, year }.is_good()).count();
        assert_eq!((days, february), if is_leap(year) { (366, 29) } else { (365, 28) });
        all += days;
    }
    assert_eq!(all, 109_573);
    for (year, days) in [(1900, 28), (2000, 29), (2100, 28), (1904, 29), (2096, 29), (2199, 28)] {
        assert_eq!(Date { day: 29, month: 2, year }.is_good(), days == 29, "{year}");
    }
}

#[test]
fn other_years_have_no_days() {
    for year in 0..=u16::MAX {
        for (day, month) in [(1, 1), (28, 2), (29, 2), (1, 7), (31, 12)] {
            let good = Date { day, month, year }.is_good();
            let expected =
                (1900..=2199).contains(&year) && ((day, month) != (29, 2) || is_leap(year));
            assert_eq!(good, expected, "{day} {month} {year}");
        }
    }
    for (day, month, year) in [(31, 12, 1899), (1, 1, 2200), (29, 2, 1896), (29, 2, 2200)] {
        assert!(!Date { day, month, year }.is_good());
    }
    assert!(Date { day: 1, month: 1, year: 1900 }.is_good());
    assert!(Date { day: 31, month: 12, year: 2199 }.is_good());
}

/// A sheet in the long form behind a count of 3 grades, 9 bytes from byte 4 on.
fn sheet(window: [u8; 4]) -> Vec<u8> {
    [&[1, 0, 1, 3, 3, 0, 6, 0, 2][..], &window].concat()
}

/// All 65,536 pairs of day and month, as each of the two edges.
#[test]
fn edges_are_days_that_some_year_has() {
    let days: BTreeSet<(u8, u8)> = walk(true).into_iter().collect();
    let mut taken = 0;
    for month in 0..=255 {
        for day in 0..=255 {
            for edges in [[day, month, 15, 9], [1, 5, day, month]] {
                let read = book::read(&sheet(edges));
                if days.contains(&(month, day)) {
                    let sheets = read.unwrap().sheets;
                    assert_eq!(sheets[0].window, Some(window(edges)));
                    taken += 1;
                } else {
                    assert_eq!(read, Err(Refusal::at(14, 4)), "{edges:?}");
                }
            }
        }
    }
    assert_eq!(taken, 2 * 366);
    for Day { day, month } in NO_DAYS {
        assert!(!days.contains(&(month, day)));
        assert_eq!(programs::read_book(&sheet([day, month, day, month])), "REFUSED 14 AT 4\n");
    }
}

/// All windows: the days that a walk from the first day to the last one comes by, over
/// the year's end if need be.
#[test]
fn windows_have_the_days_of_a_walk() {
    let days = walk(true);
    let day = |place: usize| Day { day: days[place].1, month: days[place].0 };
    for first in 0..366 {
        for last in 0..366 {
            let window = Window { first: day(first), last: day(last) };
            let mut walked = [false; 366];
            let mut place = first;
            walked[place] = true;
            while place != last {
                place = (place + 1) % 366;
                walked[place] = true;
            }
            // Every day near the edges, and each seventh one.
            let near = [first, last].into_iter().flat_map(|edge| edge + 364..edge + 369);
            for place in near.map(|place| place % 366).chain((first % 7..366).step_by(7)) {
                assert_eq!(window.has(day(place)), walked[place], "{window:?} {:?}", day(place));
            }
        }
    }
}

/// By month, then day; both edge days count; a last day before the first runs over the
/// year's end; equal days are one.
fn rule(Window { first, last }: Window, day: Day) -> bool {
    let [first, last, day] = [first, last, day].map(|Day { day, month }| (month, day));
    if first <= last {
        first <= day && day <= last
    } else {
        first <= day || day <= last
    }
}

/// The windows of the samples, and on every day of seven years whether binding takes
/// the sheet.
#[test]
fn a_sheet_binds_on_the_days_of_its_window() {
    let windows: BTreeSet<[u8; 4]> = samples::seasons_of_book_a()
        .iter()
        .flat_map(|(draft, _, _)| draft.windows())
        .map(Window::bytes)
        .collect();
    for bytes in windows {
        let book = book::read(&sheet(bytes)).unwrap();
        let run = vec![0, 1];
        let bound = Book {
            sheets: vec![Sheet { runs: vec![run.clone()], ..book.sheets[0].clone() }],
            ..book
        };
        for year in [1900, 2000, 2023, 2024, 2096, 2100, 2199] {
            for (month, day) in walk(is_leap(year)) {
                let holds = rule(window(bytes), Day { day, month });
                let expected = if holds { vec![run.clone()] } else { Vec::new() };
                let runs = |marks| binding::known_runs(&bound, on(marks, day, month, year));
                assert_eq!(runs(2), Ok(expected.clone()), "{bytes:?} {day} {month} {year}");
                assert_eq!(runs(0xffff), Ok(expected));
                // Without the mark the sheet binds on no day.
                assert_eq!(runs(0xfffd), Ok(Vec::new()));
            }
        }
    }
}

/// 29 February to 29 February has a day in leap years only.
#[test]
fn a_window_of_29_february_binds_nothing_in_common_years() {
    let book = samples::book_a_in([29, 2, 29, 2]).bytes();
    let mut days = 0;
    for year in 1900..=2199 {
        let mut bound = Vec::new();
        for (month, day) in walk(is_leap(year)) {
            let mut area = vec![0; RUNS_AREA];
            if month != 2 && day != 1 {
                continue;
            }
            if binding::bind(&book, on(2, day, month, year), &mut area) == Ok(1) {
                bound.push((month, day));
            }
        }
        let expected = if is_leap(year) { vec![(2, 29)] } else { Vec::new() };
        assert_eq!(bound, expected, "{year}");
        days += bound.len();
    }
    assert_eq!(days, 73);
}

/// Marks 3 on book A: 450 litres while the vapour sheet holds, and otherwise 350 as
/// with marks 1. The same for the board, the check and trials.
#[test]
fn book_a_with_a_season() {
    let (mut held, mut not_held) = (0, 0);
    for (draft, batch, holds) in samples::seasons_of_book_a() {
        let book = draft.bytes();
        let context = format!("{:?} on {:?}", draft.windows(), batch.date);
        let planned = programs::plan(&plan_input(batch, 0, 3, &book));
        let board = programs::board(&board_input(batch, 0, &book));
        let checked = programs::check_lineup(&check_lineup_input(batch, &[0, 2, 3], &book));
        let begun = programs::replay(&replay_input(batch, 0, 3, &book));
        if holds {
            assert_eq!(planned, "LITRES 450 CHANGES 5\n0 1 2 1 2 3\n", "{context}");
            assert!(board.ends_with("3 LITRES 450 CHANGES 5\n"), "{context}");
            assert_eq!(checked, "RUN AT 0 LENGTH 3\n", "{context}");
            assert!(begun.starts_with("STAGE 0 START 0 END 3 KNOWN 2 AT-START 2 "), "{context}");
            held += 1;
        } else {
            assert_eq!(planned, "LITRES 350 CHANGES 2\n0 2 3\n", "{context}");
            assert!(board.ends_with("3 LITRES 350 CHANGES 2\n"), "{context}");
            assert_eq!(checked, "CLEAR\n", "{context}");
            assert!(begun.starts_with("STAGE 0 START 0 END 3 KNOWN 1 AT-START 1 "), "{context}");
            not_held += 1;
        }
        let marks_1 = Batch { marks: 1, ..batch };
        let planned = programs::plan(&plan_input(marks_1, 0, 3, &book));
        assert_eq!(planned, "LITRES 350 CHANGES 2\n0 2 3\n", "{context}");
    }
    assert!(held > 40 && not_held > 40, "{held} and {not_held}");
}

/// Book A with the sheet from 1 May to 15 September: what is read and bound, and trials
/// in the winter.
#[test]
fn from_1_may_to_15_september() {
    let book = samples::book_a_season().bytes();
    assert_eq!(book.len(), 85);
    assert_eq!(book[70..79], [3, 0, 6, 0, 2, 1, 5, 15, 9]);
    assert!(programs::read_book(&book)
        .ends_with("SHEET 1\nRUN 0 1 2 3\nSHEET 2 WINDOW 1 5 15 9\nRUN 0 2 3\n"));
    for (day, month, entries) in [
        (30, 4, &[4, 0, 1, 2, 3, 0, 0, 0, 0][..]),
        (1, 5, &[4, 0, 1, 2, 3, 0, 0, 0, 0, 3, 0, 2, 3, 0, 0, 0, 0, 0]),
        (15, 9, &[4, 0, 1, 2, 3, 0, 0, 0, 0, 3, 0, 2, 3, 0, 0, 0, 0, 0]),
        (16, 9, &[4, 0, 1, 2, 3, 0, 0, 0, 0]),
    ] {
        let mut area = [0xAA; RUNS_AREA + 3];
        let count = binding::bind(&book, on(3, day, month, 2026), &mut area);
        assert_eq!(count, Ok(entries.len() / 9));
        assert_eq!(&area[..entries.len()], entries);
        assert!(area[entries.len()..RUNS_AREA].iter().all(|&byte| byte == 0));
        assert_eq!(area[RUNS_AREA..], [0xAA; 3]);
    }
    // In the winter the lab names the run of the vapour sheet.
    let named = inputs::failed_bytes(&[0, 2, 3]);
    let winter = [replay_input(on(3, 1, 12, 2026), 0, 3, &book), named].concat();
    assert_eq!(
        programs::replay(&winter),
        "STAGE 0 START 0 END 3 KNOWN 1 AT-START 1 FAILED 0 PASSED 0 LITRES 350 LENGTH 3\n0 2 3\n\
         STAGE 0 START 0 END 3 KNOWN 2 AT-START 1 FAILED 1 PASSED 0 LITRES 450 LENGTH 6\n\
         0 1 2 1 2 3\n"
    );
}

/// First appearance is among the sheets that bind on the date: 0 1 2 3 stands in the first
/// sheet, and behind 0 2 3 in the second one.
#[test]
fn known_runs_are_in_order_of_first_appearance_on_the_date() {
    let book = samples::book_of_a_shared_run().bytes();
    assert!(programs::read_book(&book)
        .ends_with("SHEET 1 WINDOW 1 5 15 9\nRUN 0 1 2 3\nSHEET 2\nRUN 0 2 3\nRUN 0 1 2 3\n"));
    let (x, y) = ([4, 0, 1, 2, 3, 0, 0, 0, 0], [3, 0, 2, 3, 0, 0, 0, 0, 0]);
    for (marks, day, month, entries) in [
        (3, 15, 7, &[x, y][..]),
        (3, 15, 12, &[y, x]),
        (2, 15, 7, &[y, x]),
        (2, 15, 12, &[y, x]),
        (1, 15, 7, &[x]),
        (1, 15, 12, &[]),
        (0, 15, 7, &[]),
    ] {
        let context = format!("{marks} on {day} {month}");
        let batch = on(marks, day, month, 2026);
        let mut expected = entries.concat();
        expected.resize(RUNS_AREA, 0);
        let mut area = vec![0xAA; RUNS_AREA];
        assert_eq!(binding::bind(&book, batch, &mut area), Ok(entries.len()), "{context}");
        assert_eq!(area, expected, "{context}");
        let (mut area, mut lineup) = (vec![0xAA; RUNS_AREA], vec![0; LINEUP_AREA]);
        let record = trials::begin(&book, batch, 0, 3, &mut area, &mut lineup).unwrap();
        assert_eq!((record.known, area), (entries.len() as u64, expected), "{context}");
    }
    for (marks, month, answer) in [
        (3, 7, "LITRES 450 CHANGES 5\n0 1 2 1 2 3\n"),
        (3, 12, "LITRES 450 CHANGES 5\n0 1 2 1 2 3\n"),
        (1, 7, "LITRES 350 CHANGES 2\n0 2 3\n"),
        (1, 12, "LITRES 300 CHANGES 3\n0 1 2 3\n"),
    ] {
        let input = plan_input(on(marks, 15, month, 2026), 0, 3, &book);
        assert_eq!(programs::plan(&input), answer, "{marks} in {month}");
    }
}

/// In some random single calls the known runs would stand in another order, if sheets out
/// of season gave them their places.
#[test]
fn orders_of_known_runs_turn_on_windows() {
    for call in [Call::Bind, Call::Begin] {
        let turns = |index: &u64| {
            let case = Case::read(&inputs::case(Kind::Any(call), 2, *index)).ok()?;
            let book = book::read(&case.book).ok().filter(|_| case.batch.date.is_good())?;
            let known = generate::runs_of(&book, case.batch);
            let mut others = runs_by(&book, case.batch, |_, _| true);
            others.retain(|run| known.contains(run));
            Some(known != others)
        };
        let count = (0..2_000).filter(|index| turns(index) == Some(true)).count();
        assert!(count > 15, "{call:?}: {count}");
    }
}

#[test]
fn read_book_prints_windows() {
    let draft = Draft::new(2)
        .season(0xffff, [29, 2, 29, 2])
        .sheet(7)
        .run(&[0, 1])
        .season(0, [31, 12, 1, 1])
        .run(&[1, 0]);
    assert_eq!(
        programs::read_book(&draft.bytes()),
        "GRADES 2 CHANGEOVERS 0 SHEETS 3 RUNS 2\nSHEET 65535 WINDOW 29 2 29 2\nSHEET 7\nRUN 0 1\n\
         SHEET 0 WINDOW 31 12 1 1\nRUN 1 0\n"
    );
}

fn refused(bytes: &[u8]) -> (u8, usize) {
    match book::read(bytes) {
        Ok(book) => panic!("read: {book:?}"),
        Err(Refusal { number, at }) => (number, at.unwrap()),
    }
}

/// 14 stands where 4 does: behind the head, the tag, the length and the body, and
/// before 6. The first bad field decides.
#[test]
fn refusal_14_has_the_place_of_4() {
    let bad = [30, 2, 15, 9];
    let draft = |window| Draft::new(3).season(2, window);
    assert_eq!(refused(&draft(bad).bytes()), (14, 4));
    assert_eq!(refused(&draft([1, 5, 31, 9]).bytes()), (14, 4));
    let whole = draft(bad).bytes();
    for length in 5..whole.len() {
        assert_eq!(refused(&whole[..length]), (1, 4));
    }
    for length in [0, 1, 3, 4, 5, 7, 8] {
        let body: Vec<u8> = [&[0, 2][..], &bad, &[0, 0]].concat()[..length].to_vec();
        assert_eq!(refused(&Draft::new(3).field(3, &body).bytes()), (3, 4));
    }
    // With a tag that may not stand there.
    assert_eq!(refused(&whole[4..]), (2, 0));
    // Before and after fields that are refused otherwise.
    assert_eq!(refused(&draft(bad).run(&[0, 3]).bytes()), (14, 4));
    assert_eq!(refused(&draft([1, 5, 15, 9]).run(&[0, 3]).season(2, bad).bytes()), (4, 13));
    let repeated = Draft::new(3).changeover(0, 1, 5).changeover(0, 1, 5);
    assert_eq!(refused(&repeated.season(2, bad).bytes()), (5, 13));
    // The 17th sheet is 14 with a bad window, and 6 otherwise.
    let full = samples::full_sheets();
    assert_eq!(refused(&full.clone().season(2, bad).bytes()), (14, 84));
    assert_eq!(refused(&full.clone().season(2, [1, 5, 15, 0]).bytes()), (14, 84));
    assert_eq!(refused(&full.clone().season(2, [1, 5, 15, 9]).bytes()), (6, 84));
    assert_eq!(refused(&full.clone().field(3, &[0, 2, 30, 2]).bytes()), (3, 84));
    let with_windows = (0..16).fold(Draft::new(2), |draft, _| draft.season(2, [1, 5, 15, 9]));
    assert_eq!(book::read(&with_windows.bytes()).unwrap().sheets.len(), 16);
    assert_eq!(refused(&with_windows.clone().season(2, bad).bytes()), (14, 148));
    assert_eq!(refused(&with_windows.sheet(2).bytes()), (6, 148));
}

/// The dates that are refused, in every program and call that takes one.
#[test]
fn bad_dates_are_15() {
    let book = samples::book_a().bytes();
    let season = samples::book_a_in([1, 1, 31, 12]).bytes();
    for date in BAD_DATES {
        let batch = Batch { marks: 3, date };
        for book in [&book, &season] {
            for input in [plan_input(batch, 0, 3, book), plan_input(batch, 3, 3, book)] {
                assert_eq!(programs::plan(&input), "REFUSED 15\n", "{date:?}");
            }
            assert_eq!(programs::board(&board_input(batch, 0, book)), "REFUSED 15\n");
            assert_eq!(programs::replay(&replay_input(batch, 0, 3, book)), "REFUSED 15\n");
            let checked = check_lineup_input(batch, &[0, 1], book);
            assert_eq!(programs::check_lineup(&checked), "REFUSED 15\n");
        }
        let case = Case { batch, ..begun_on_book_a() };
        for call in [Call::Bind, Call::Begin] {
            assert_eq!(case.make(call), "REFUSED 15\n");
        }
        // These take no batch.
        assert_eq!(case.make(Call::Check), "CLEAR\n");
        assert_eq!(case.make(Call::Plan), "LITRES 450 CHANGES 5\n0 1 2 1 2 3\n");
        assert!(case.make(Call::Passed).starts_with("STAGE 1 "));
        assert!(case.make(Call::Failed).starts_with("STAGE 0 "));
    }
    for date in samples::GOOD_DATES {
        let batch = Batch { marks: 3, date };
        assert_eq!(
            programs::plan(&plan_input(batch, 0, 3, &book)),
            "LITRES 450 CHANGES 5\n0 1 2 1 2 3\n"
        );
    }
}

/// Chosen plans have the last day of every month, on which they are not refused.
#[test]
fn chosen_plans_have_all_month_ends() {
    let cases = samples::cases(Kind::Plan, 1);
    let on_day = |day: u8, month: u8, good: bool| {
        cases.iter().any(|case| {
            let is_plan = !Kind::Plan.run(case).starts_with("REFUSED ");
            case.get(4..6) == Some(&[day, month]) && is_plan == good
        })
    };
    for (month, day) in (1..).zip(MONTHS) {
        assert!(on_day(day, month, true), "{day} {month}");
    }
    assert!(on_day(29, 2, true));
    for (day, month) in [(29, 2), (30, 2), (31, 4), (31, 6), (31, 9), (31, 11)] {
        assert!(on_day(day, month, false), "{day} {month}");
    }
}

/// The book's refusals, 8, 7, and only then 15; a refusal writes nothing.
#[test]
fn refusal_15_stands_behind_7_and_8() {
    let good_book = samples::book_a().bytes();
    let bad_book = samples::book_a_in([1, 5, 0, 9]).bytes();
    let bad = samples::bad_batch();
    let mut runs_area = vec![0x55; RUNS_AREA];
    let mut lineup_area = vec![0x66; LINEUP_AREA];
    let mut bind = |book: &[u8], from: usize| binding::bind(book, bad, &mut runs_area[from..]);
    assert_eq!(bind(&bad_book, 1), Err(Refusal::at(14, 70)));
    assert_eq!(bind(&good_book, 1), Err(Refusal::plain(8)));
    assert_eq!(bind(&good_book, 0), Err(Refusal::plain(15)));
    let mut begin = |book: &[u8], start, runs_from: usize, lineup_from: usize| {
        let (runs, lineup) = (&mut runs_area[runs_from..], &mut lineup_area[lineup_from..]);
        trials::begin(book, bad, start, 3, runs, lineup)
    };
    assert_eq!(begin(&bad_book, 4, 1, 1), Err(Refusal::at(14, 70)));
    assert_eq!(begin(&good_book, 4, 1, 0), Err(Refusal::plain(8)));
    assert_eq!(begin(&good_book, 0, 0, 1), Err(Refusal::plain(8)));
    assert_eq!(begin(&good_book, 4, 0, 0), Err(Refusal::plain(7)));
    assert_eq!(begin(&good_book, 255, 0, 0), Err(Refusal::plain(7)));
    assert_eq!(begin(&good_book, 0, 0, 0), Err(Refusal::plain(15)));
    assert!(runs_area.iter().all(|&byte| byte == 0x55));
    assert!(lineup_area.iter().all(|&byte| byte == 0x66));
    for (start, book, answer) in [
        (0, &good_book, "REFUSED 15\n"),
        (4, &good_book, "REFUSED 7\n"),
        (4, &bad_book, "REFUSED 14 AT 70\n"),
    ] {
        assert_eq!(programs::plan(&plan_input(bad, start, 3, book)), answer);
        assert_eq!(programs::board(&board_input(bad, start, book)), answer);
        assert_eq!(programs::replay(&replay_input(bad, start, 3, book)), answer);
    }
    // A line-up that is none is 10, behind 15.
    let checked = |batch, book| programs::check_lineup(&check_lineup_input(batch, &[3, 0], book));
    assert_eq!(checked(batch(3), &good_book), "REFUSED 10\n");
    assert_eq!(checked(bad, &good_book), "REFUSED 15\n");
    assert_eq!(checked(bad, &bad_book), "REFUSED 14 AT 70\n");
}

/// The bytes of each program's input, by their places; fewer than the fixed part is
/// refused with 1 at 0, and so is just the fixed part, whose book is empty.
#[test]
fn inputs_have_their_forms() {
    let batch = on(0x0102, 29, 2, 2000);
    let book = [1, 0, 1, 9];
    let plan = plan_input(batch, 3, 5, &book);
    assert_eq!(plan, [1, 2, 3, 5, 29, 2, 0x07, 0xD0, 1, 0, 1, 9]);
    let board = board_input(batch, 3, &book);
    assert_eq!(board, [1, 2, 3, 29, 2, 0x07, 0xD0, 1, 0, 1, 9]);
    let replay = replay_input(batch, 3, 5, &book);
    assert_eq!(replay, [1, 2, 3, 5, 29, 2, 0x07, 0xD0, 0, 0, 0, 4, 1, 0, 1, 9]);
    let check = check_lineup_input(batch, &[7, 8], &book);
    assert_eq!(check, [1, 2, 29, 2, 0x07, 0xD0, 0, 2, 7, 8, 1, 0, 1, 9]);
    for (kind, input, fixed) in [
        (Kind::Plan, plan, 8),
        (Kind::Board, board, 7),
        (Kind::Replay, replay, 12),
        (Kind::CheckLineup, check, 10),
    ] {
        for length in 0..=fixed {
            assert_eq!(kind.run(&input[..length]), "REFUSED 1 AT 0\n", "{}", kind.name());
        }
        assert!(!kind.run(&input).starts_with("REFUSED 1 "), "{}", kind.name());
    }
    // A bad date or start says nothing while there is no whole book.
    assert_eq!(programs::plan(&[0, 3, 255, 255, 0, 0, 0, 0]), "REFUSED 1 AT 0\n");
    assert_eq!(programs::board(&[0, 3, 255, 0, 0, 0, 0]), "REFUSED 1 AT 0\n");
}

/// The head of the kinds any_bind to any_failed_report: 76 bytes, of which the date is
/// the last four.
#[test]
fn the_head_of_single_calls_ends_in_the_date() {
    let case = Case { batch: on(0x0304, 31, 12, 2199), ..begun_on_book_a() };
    let bytes = case.bytes();
    assert_eq!(bytes[58..60], [3, 4]);
    // The length of the list, then day, month and year.
    assert_eq!(bytes[70..76], [0, 3, 31, 12, 0x08, 0x97]);
    // Then the first known run.
    assert_eq!(bytes[76..81], [4, 0, 1, 2, 3]);
    assert_eq!(Case::read(&bytes), Ok(case));
    let cut = |length: usize| Kind::Any(Call::Bind).run(&bytes[..length]);
    for length in 0..76 {
        assert_eq!(cut(length), "REFUSED 1 AT 0\n");
    }
    let empty = Case {
        batch: batch(0),
        runs: Vec::new(),
        lineup: Vec::new(),
        list: Vec::new(),
        book: Vec::new(),
        ..begun_on_book_a()
    };
    assert_eq!(empty.bytes().len(), 76);
}

/// 39,252 bytes and one more; inputs of `plan` of 39,260 and 39,261, of `board` of
/// 39,259 and 39,260.
#[test]
fn the_longest_inputs() {
    assert_eq!(book::LONGEST_BOOK, 39_252);
    let holds = |kind: Kind, length: usize, answer: &str| {
        let stored = vectors::cases(kind, 1);
        let found =
            stored.iter().any(|case| case.len() == length && kind.run(case).starts_with(answer));
        assert!(found, "{} lacks {length}: {answer}", kind.name());
    };
    holds(Kind::ReadBook, 39_252, "GRADES 64 CHANGEOVERS 4032 SHEETS 16 RUNS 256\n");
    holds(Kind::ReadBook, 39_253, "REFUSED 1 AT 39252\n");
    holds(Kind::Plan, 39_260, "LITRES ");
    holds(Kind::Plan, 39_261, "REFUSED 1 AT 39252\n");
    holds(Kind::Board, 39_259, "0 ");
    holds(Kind::Board, 39_260, "REFUSED 1 AT 39252\n");
    // In the largest plans every known run is there in most cases, and not in all.
    let known: Vec<usize> = (0..60)
        .map(|index| {
            let (book, batch, _, _) = plan_parts(&Source::LargestPlans.case(1, index)).unwrap();
            assert!(book.sheets.iter().all(|sheet| sheet.window.is_some()));
            generate::runs_of(&book, batch).len()
        })
        .collect();
    let full = known.iter().filter(|&&count| count == 256).count();
    assert!((20..58).contains(&full), "{known:?}");
}

/// Book, batch, start and end of an input of `plan` that is not refused for its book.
fn plan_parts(input: &[u8]) -> Option<(Book, Batch, u8, u8)> {
    match input {
        [a, b, start, end, day, month, c, d, bytes @ ..] => {
            let marks = u16::from_be_bytes([*a, *b]);
            let batch = on(marks, *day, *month, u16::from_be_bytes([*c, *d]));
            Some((book::read(bytes).ok()?, batch, *start, *end))
        }
        _ => None,
    }
}

/// The same of an input of `board`, for every end.
fn board_parts(input: &[u8]) -> Option<(Book, Batch, u8)> {
    let with_end = [input.get(..3)?, &[0], input.get(3..)?].concat();
    let (book, batch, start, _) = plan_parts(&with_end)?;
    Some((book, batch, start))
}

/// Whether a window has a date's day.
type Rule = fn(Window, Date) -> bool;

/// The runs that bind where windows are taken by another rule.
fn runs_by(book: &Book, batch: Batch, has: Rule) -> Vec<Run> {
    let takes = |window: Option<Window>| window.map_or(true, |window| has(window, batch.date));
    let sheets = book.sheets.iter().map(|sheet| Sheet {
        window: None,
        runs: if takes(sheet.window) { sheet.runs.clone() } else { Vec::new() },
        ..sheet.clone()
    });
    let book = Book { sheets: sheets.collect(), ..book.clone() };
    generate::runs_of(&book, Batch { date: samples::DATE, ..batch })
}

fn day_of(date: Date) -> Day {
    Day { day: date.day, month: date.month }
}

/// A rule that errs, with its name, and how many of the random plans at least, and of
/// the stored ones, show it.
type Mistake = (&'static str, Rule, usize, usize);

const MISTAKES: [Mistake; 11] = [
    ("windows are passed over", |_, _| true, 150, 60),
    ("sheets with a window never bind", |_, _| false, 250, 60),
    (
        "the first day does not count",
        |window, date| rule(window, day_of(date)) && day_of(date) != window.first,
        80,
        30,
    ),
    (
        "the last day does not count",
        |window, date| rule(window, day_of(date)) && day_of(date) != window.last,
        80,
        30,
    ),
    (
        "no window runs over the year's end",
        |window, date| {
            let [first, last, day] =
                [window.first, window.last, day_of(date)].map(|day| (day.month, day.day));
            first <= day && day <= last
        },
        80,
        15,
    ),
    (
        "a window over the year's end has the days between",
        |window, date| {
            let [first, last, day] =
                [window.first, window.last, day_of(date)].map(|day| (day.month, day.day));
            first.min(last) <= day && day <= first.max(last)
        },
        80,
        15,
    ),
    (
        "equal days are the whole year",
        |window, date| window.first == window.last || rule(window, day_of(date)),
        50,
        15,
    ),
    (
        "the day comes before the month",
        |window, date| {
            let turned = |Day { day, month }: Day| Day { day: month, month: day };
            let Window { first, last } = window;
            let turned_window = Window { first: turned(first), last: turned(last) };
            rule(turned_window, turned(day_of(date)))
        },
        40,
        15,
    ),
    (
        "days and months are looked at by themselves",
        |window, date| {
            let Window { first, last } = window;
            let days = (first.day..=last.day).contains(&date.day);
            days && (first.month..=last.month).contains(&date.month)
        },
        120,
        20,
    ),
    (
        "29 February is 28 February in a common year",
        |window, date| {
            let leap = is_leap(date.year);
            let edge = |day: Day| match day {
                Day { day: 29, month: 2 } if !leap => Day { day: 28, month: 2 },
                _ => day,
            };
            let Window { first, last } = window;
            rule(Window { first: edge(first), last: edge(last) }, day_of(date))
        },
        10,
        5,
    ),
    (
        "29 February is 1 March in a common year",
        |window, date| {
            let leap = is_leap(date.year);
            let edge = |day: Day| match day {
                Day { day: 29, month: 2 } if !leap => Day { day: 1, month: 3 },
                _ => day,
            };
            let Window { first, last } = window;
            rule(Window { first: edge(first), last: edge(last) }, day_of(date))
        },
        6,
        4,
    ),
];

fn random_plans() -> Vec<Vec<u8>> {
    (0..5_000).map(|index| inputs::case(Kind::Plan, 2, index)).collect()
}

/// How many plans have another answer where windows are taken by that rule.
fn plans_that_show(plans: &[(Book, Batch, u8, u8)], has: Rule) -> usize {
    let differs = |&&(ref book, batch, start, end): &&(Book, Batch, u8, u8)| {
        let (runs, others) = (generate::runs_of(book, batch), runs_by(book, batch, has));
        let best = |runs: &[Run]| plan::best(&book.changeovers, runs, start, end);
        runs != others && best(&runs) != best(&others)
    };
    plans.iter().filter(differs).count()
}

/// Enough random plans and enough stored ones turn on each of the rules.
#[test]
fn plans_turn_on_windows() {
    let good = |inputs: Vec<Vec<u8>>| -> Vec<(Book, Batch, u8, u8)> {
        let parts = inputs.iter().filter_map(|input| plan_parts(input));
        let is_good = |(book, batch, start, end): &(Book, Batch, u8, u8)| {
            batch.date.is_good() && usize::from(*start.max(end)) < book.grades()
        };
        parts.filter(is_good).collect()
    };
    let (random, stored) = (good(random_plans()), good(vectors::cases(Kind::Plan, 1)));
    assert_eq!(plans_that_show(&random, |window, date| rule(window, day_of(date))), 0);
    for (name, has, of_random, of_stored) in MISTAKES {
        let (random, stored) = (plans_that_show(&random, has), plans_that_show(&stored, has));
        let enough = random >= of_random && stored >= of_stored;
        assert!(enough, "{name}: {random} and {stored}, at least {of_random} and {of_stored}");
    }
}

/// Boards, checks, trials and single calls turn on windows as well: they have another
/// answer where every sheet is taken, and where no sheet with a window is.
#[test]
fn other_inputs_turn_on_windows() {
    let all = |_: Window, _: Date| true;
    let none = |_: Window, _: Date| false;
    let rules = [all as Rule, none];
    let count = |kind: Kind, answer: fn(&[u8], Rule) -> Option<String>| {
        let cases: Vec<Vec<u8>> = (0..2_000).map(|index| inputs::case(kind, 2, index)).collect();
        let by_rule: Rule = |window, date| rule(window, day_of(date));
        rules.map(|has| {
            let differs = |case: &&Vec<u8>| answer(case, by_rule) != answer(case, has);
            cases.iter().filter(differs).count()
        })
    };
    let board = count(Kind::Board, |input, has| {
        let (book, batch, start) = board_parts(input)?;
        if !batch.date.is_good() || usize::from(start) >= book.grades() {
            return None;
        }
        let runs = runs_by(&book, batch, has);
        Some(format!("{:?}", second::board::ends(&book.changeovers, &runs, start)))
    });
    assert!(board[0] > 60 && board[1] > 110, "{board:?}");
    let check = count(Kind::CheckLineup, |input, has| {
        let length = usize::from(u16::from_be_bytes([*input.get(6)?, *input.get(7)?]));
        let (lineup, bytes) = (input.get(8..8 + length)?, &input[8 + length..]);
        let marks = u16::from_be_bytes([input[0], input[1]]);
        let batch = on(marks, input[2], input[3], u16::from_be_bytes([input[4], input[5]]));
        let book = book::read(bytes).ok().filter(|_| batch.date.is_good())?;
        Some(format!("{:?}", check::first_run(lineup, &runs_by(&book, batch, has))))
    });
    assert!(check[0] > 40 && check[1] > 70, "{check:?}");
    // All that begin hands to the lab.
    let replay = count(Kind::Replay, |input, has| {
        let length = u32::from_be_bytes(input.get(8..12)?.try_into().unwrap()) as usize;
        let bytes = input[12..].get(..length)?;
        let (book, batch, start, end) = plan_parts(&[&input[..8], bytes].concat())?;
        if !batch.date.is_good() || usize::from(start.max(end)) >= book.grades() {
            return None;
        }
        let runs = runs_by(&book, batch, has);
        Some(format!("{:?}", plan::best(&book.changeovers, &runs, start, end)))
    });
    assert!(replay[0] > 60 && replay[1] > 100, "{replay:?}");
    for call in [Call::Bind, Call::Begin] {
        let bound = count(Kind::Any(call), |input, has| {
            let case = Case::read(input).ok().filter(|case| case.batch.date.is_good())?;
            let book = book::read(&case.book).ok()?;
            Some(format!("{:?}", runs_by(&book, case.batch, has)))
        });
        assert!(bound[0] > 150 && bound[1] > 200, "{call:?}: {bound:?}");
    }
}

/// Of the random books about half have windows, of every sort, and most dates lie at an
/// edge or beside one.
#[test]
fn random_books_have_windows_and_dates_at_their_edges() {
    let parts: Vec<_> = random_plans().iter().filter_map(|input| plan_parts(input)).collect();
    let with_windows: Vec<(Vec<Window>, Batch)> = parts
        .iter()
        .map(|(book, batch, _, _)| (book.sheets.iter().filter_map(|sheet| sheet.window), batch))
        .map(|(windows, batch)| (windows.collect::<Vec<Window>>(), *batch))
        .filter(|(windows, _)| !windows.is_empty())
        .collect();
    let percent = 100 * with_windows.len() / parts.len();
    assert!((35..=60).contains(&percent), "{percent}");
    let without =
        parts.iter().filter(|(book, _, _, _)| book.sheets.iter().any(|s| s.window.is_none()));
    assert!(without.count() > parts.len() / 3);

    let windows: Vec<Window> =
        with_windows.iter().flat_map(|(windows, _)| windows.clone()).collect();
    let share = |holds: &dyn Fn(&Window) -> bool| {
        1_000 * windows.iter().filter(|window| holds(window)).count() / windows.len()
    };
    let key = |Day { day, month }: Day| (month, day);
    let leap_day = Day { day: 29, month: 2 };
    let days = |window: &Window| {
        walk(true).iter().filter(|&&(month, day)| rule(*window, Day { day, month })).count()
    };
    for (name, least, count) in [
        ("over the year's end", 250, share(&|window| key(window.last) < key(window.first))),
        ("one day", 80, share(&|window| window.first == window.last)),
        ("29 February alone", 30, share(&|w| w.first == leap_day && w.last == leap_day)),
        ("29 February first", 30, share(&|w| w.first == leap_day && w.last != leap_day)),
        ("29 February last", 30, share(&|w| w.first != leap_day && w.last == leap_day)),
        ("the whole year", 80, share(&|window| days(window) == 366)),
        ("1 January to 31 December", 30, share(&|window| window.bytes() == [1, 1, 31, 12])),
        ("all but a few days", 60, share(&|window| (350..366).contains(&days(window)))),
        ("a few days", 60, share(&|window| (2..10).contains(&days(window)))),
    ] {
        assert!(count >= least, "{name}: {count} of 1,000");
    }

    let places: Vec<(u8, u8)> = walk(true);
    let place = |day: Day| places.iter().position(|&at| at == key(day)).unwrap();
    let (mut beside, mut good) = ([0; 3], 0);
    for (windows, batch) in with_windows.iter().filter(|(_, batch)| batch.date.is_good()) {
        good += 1;
        let here = place(day_of(batch.date));
        for (away, count) in beside.iter_mut().enumerate() {
            let at = |edge: Day| (place(edge) + 365 + away) % 366 == here;
            *count += usize::from(windows.iter().any(|w| at(w.first) || at(w.last)));
        }
    }
    // The day before, the edge, the day after.
    assert!(beside[0] > good / 6 && beside[1] > good / 3 && beside[2] > good / 6, "{beside:?}");
}

/// Random dates: most are good, those of the limits are there, and so is every way to
/// be bad; some stand beside a bad start.
#[test]
fn random_dates_are_good_and_bad() {
    let (mut dates, mut beside_start) = (Vec::new(), 0);
    for kind in [Kind::Plan, Kind::Board, Kind::Replay] {
        for index in 0..5_000 {
            let input = inputs::case(kind, 2, index);
            let from = if kind == Kind::Board { 3 } else { 4 };
            if let Some(&[day, month, c, d]) = input.get(from..from + 4) {
                let date = Date { day, month, year: u16::from_be_bytes([c, d]) };
                let printed = kind.run(&input);
                beside_start += usize::from(!date.is_good() && printed == "REFUSED 7\n");
                dates.push(date);
            }
        }
    }
    let count = |holds: &dyn Fn(&Date) -> bool| dates.iter().filter(|date| holds(date)).count();
    let bad = count(&|date| !date.is_good());
    assert!((dates.len() / 50..dates.len() / 25).contains(&bad), "{bad} of {}", dates.len());
    assert!(beside_start > 40, "{beside_start}");
    for year in [1900, 1904, 2000, 2100, 2199] {
        assert!(count(&|date| date.year == year && date.is_good()) > 300, "{year}");
    }
    for year in [0, 1896, 1899, 2200, 65_535] {
        assert!(count(&|date| date.year == year) > 2, "{year}");
    }
    for (day, month) in [(31, 12), (1, 1), (28, 2), (29, 2), (1, 3)] {
        let there = |date: &Date| (date.day, date.month) == (day, month) && date.is_good();
        assert!(count(&there) > 150, "{day} {month}");
    }
    let year = |date: &Date| (1900..=2199).contains(&date.year);
    for (name, count) in [
        ("day 0", count(&|date| date.day == 0 && year(date))),
        ("month 0", count(&|date| date.month == 0 && year(date))),
        ("month 13", count(&|date| date.month == 13 && year(date))),
        ("30 February", count(&|date| (date.day, date.month) == (30, 2) && year(date))),
        ("31 April", count(&|date| (date.day, date.month) == (31, 4) && year(date))),
        (
            "29 February in a common year",
            count(&|date| (date.day, date.month) == (29, 2) && year(date) && !is_leap(date.year)),
        ),
        ("29 February 1900 or 2100", {
            count(&|date| (date.day, date.month) == (29, 2) && [1900, 2100].contains(&date.year))
        }),
    ] {
        assert!(count >= 5, "{name}: {count}");
    }
}

/// What the refused field of a random book is: 14 by each edge, cut bodies, other
/// lengths, and 17th sheets with a bad window and with a good one.
#[test]
fn random_books_have_damaged_windows() {
    let days: BTreeSet<(u8, u8)> = walk(true).into_iter().collect();
    let is_day = |day: u8, month: u8| days.contains(&(month, day));
    let mut counts = [0; 8];
    for index in 0..5_000 {
        let input = inputs::case(Kind::ReadBook, 2, index);
        let (number, at) = match book::read(&input) {
            Ok(_) => continue,
            Err(Refusal { number, at }) => (number, at.unwrap()),
        };
        let field = &input[at..];
        if field.first() != Some(&3) {
            continue;
        }
        let sheets = book::read(&input[..at]).map_or(0, |book| book.sheets.len());
        match (number, field) {
            (14, &[_, _, _, _, _, a, b, c, d, ..]) => {
                counts[0] += usize::from(!is_day(a, b) && is_day(c, d));
                counts[1] += usize::from(is_day(a, b) && !is_day(c, d));
                counts[2] += usize::from(!is_day(a, b) && !is_day(c, d));
                counts[3] += usize::from(sheets == 16);
            }
            (1, &[_, 0, 6, ..]) => counts[4] += 1,
            (3, &[_, 0, 3 | 4 | 5 | 7, ..]) => counts[5] += 1,
            (6, &[_, 0, 6, ..]) => counts[6] += 1,
            (3, _) => counts[7] += 1,
            _ => {}
        }
    }
    assert!(counts.iter().all(|&count| count > 10), "{counts:?}");
}

/// The stored cases have every answer of order 4.
#[test]
fn vectors_have_windows_and_bad_dates() {
    for (kind, answers) in [
        (Kind::ReadBook, &["REFUSED 14 AT 4\n", " WINDOW 29 2 ", "REFUSED 14 AT 84\n"][..]),
        (Kind::Plan, &["REFUSED 14 AT 70\n", "REFUSED 15\n", "LITRES 450 CHANGES 5\n"]),
        (Kind::Board, &["REFUSED 14 AT 70\n", "REFUSED 15\n", "3 LITRES 350 CHANGES 2\n"]),
        (Kind::Replay, &["REFUSED 14 AT 70\n", "REFUSED 15\n"]),
        (Kind::CheckLineup, &["REFUSED 14 AT 70\n", "REFUSED 15\n", "CLEAR\n"]),
        (Kind::Passes, &["REFUSED 14 AT 4\n"]),
        (Kind::Any(Call::Bind), &["REFUSED 14 AT 70\n", "REFUSED 15\n", "KNOWN 1\n"]),
        (Kind::Any(Call::Begin), &["REFUSED 14 AT 70\n", "REFUSED 15\n", " KNOWN 1 "]),
        (Kind::Any(Call::Check), &["REFUSED 14 AT 70\n"]),
        (Kind::Any(Call::Plan), &["REFUSED 14 AT 70\n"]),
        (Kind::Any(Call::Passed), &["REFUSED 14 AT 70\nSTAGE 0 "]),
        (Kind::Any(Call::Failed), &["REFUSED 14 AT 70\nSTAGE 0 "]),
        (Kind::AnyTable, &["REFUSED 14 AT 70\n"]),
    ] {
        let cases = vectors::cases(kind, 1);
        let printed: Vec<String> = cases.iter().map(|case| kind.run(case)).collect();
        for answer in answers {
            let found = printed.iter().any(|printed| printed.contains(answer));
            assert!(found, "{} lacks {answer}", kind.name());
        }
    }
    // Each window and date of the samples, and each bad date.
    let plans: BTreeSet<Vec<u8>> = vectors::cases(Kind::Plan, 1).into_iter().collect();
    for (draft, batch, _) in samples::seasons_of_book_a() {
        assert!(plans.contains(&plan_input(batch, 0, 3, &draft.bytes())));
    }
    for date in BAD_DATES.iter().chain(&samples::GOOD_DATES) {
        let batch = Batch { marks: 3, date: *date };
        assert!(plans.contains(&plan_input(batch, 0, 3, &samples::book_a().bytes())));
    }
    // The single stored cases are refused with day and month exchanged.
    for stored in vectors::stored(1, "FOLDER") {
        let day = match stored.program {
            "plan" | "replay" => 4,
            "board" => 3,
            "check_lineup" => 2,
            _ => continue,
        };
        let mut exchanged = stored.stdin;
        exchanged.swap(day, day + 1);
        let kind = second::kinds::KINDS.into_iter().find(|kind| kind.name() == stored.program);
        assert_eq!(kind.unwrap().run(&exchanged), "REFUSED 15\n", "{}", stored.program);
        assert!(stored.note.contains("15 July 2026"), "{}", stored.note);
    }
    // The run of two sheets on both dates, planned, bound and begun.
    let shared = samples::book_of_a_shared_run().bytes();
    let single = [Call::Bind, Call::Begin].map(|call| vectors::cases(Kind::Any(call), 1));
    for batch in samples::batches_of_a_shared_run() {
        assert!(plans.contains(&plan_input(batch, 0, 3, &shared)));
        let case = Case { batch, book: shared.clone(), ..begun_on_book_a() }.bytes();
        assert!(single.iter().all(|cases| cases.contains(&case)));
    }
}
