//! 01's settled sums, their values typed from the paper, and sums with runs that
//! come back (order 2 of 02).

use second::binding::{self, Batch, RUNS_AREA};
use second::book;
use second::dates::Date;
use second::plan::{self, Answer, Known, LINEUP_AREA};
use second::programs::{self, Report, Trials};
use second::refusal::Refusal;

/// Book A, byte by byte as in 01's listing.
const BOOK_A: &[u8] = &[
    0x01, 0x00, 0x01, 0x04, //
    0x02, 0x00, 0x06, 0x00, 0x01, 0x00, 0x00, 0x00, 0x64, //
    0x02, 0x00, 0x06, 0x01, 0x02, 0x00, 0x00, 0x00, 0x64, //
    0x02, 0x00, 0x06, 0x02, 0x03, 0x00, 0x00, 0x00, 0x64, //
    0x02, 0x00, 0x06, 0x00, 0x02, 0x00, 0x00, 0x00, 0xFA, //
    0x02, 0x00, 0x06, 0x02, 0x01, 0x00, 0x00, 0x00, 0x32, //
    0x02, 0x00, 0x06, 0x01, 0x03, 0x00, 0x00, 0x01, 0x90, //
    0x03, 0x00, 0x02, 0x00, 0x01, //
    0x04, 0x00, 0x04, 0x00, 0x01, 0x02, 0x03, //
    0x03, 0x00, 0x02, 0x00, 0x02, //
    0x04, 0x00, 0x03, 0x00, 0x02, 0x03, //
];

/// 0 to 1, 1 to 3, 0 to 2, 2 to 3, all 100.
const TIES: &[u8] = &[
    0x01, 0x00, 0x01, 0x04, //
    0x02, 0x00, 0x06, 0x00, 0x01, 0x00, 0x00, 0x00, 0x64, //
    0x02, 0x00, 0x06, 0x01, 0x03, 0x00, 0x00, 0x00, 0x64, //
    0x02, 0x00, 0x06, 0x00, 0x02, 0x00, 0x00, 0x00, 0x64, //
    0x02, 0x00, 0x06, 0x02, 0x03, 0x00, 0x00, 0x00, 0x64, //
];

/// 0 to 3 at 200.
const SHORT_WAY: &[u8] = &[0x02, 0x00, 0x06, 0x00, 0x03, 0x00, 0x00, 0x00, 0xC8];

/// Days, months and years with their bytes: 1 January 1900, 29 February 2000, 1 July
/// 2026 and 31 December 2199.
const DATES: [(Date, [u8; 4]); 4] = [
    (Date::new(1, 1, 1900), [0x01, 0x01, 0x07, 0x6C]),
    (Date::new(29, 2, 2000), [0x1D, 0x02, 0x07, 0xD0]),
    (Date::new(1, 7, 2026), [0x01, 0x07, 0x07, 0xEA]),
    (Date::new(31, 12, 2199), [0x1F, 0x0C, 0x08, 0x97]),
];

/// A batch of 1 July 2026.
fn batch(marks: u16) -> Batch {
    Batch { marks, date: Date::new(1, 7, 2026) }
}

/// What the program prints, and the same through binding and planning, on every date.
fn planned(marks: u16, start: u8, end: u8, book: &[u8]) -> String {
    let answers = DATES.map(|(date, bytes)| {
        let input = [&marks.to_be_bytes()[..], &[start, end], &bytes, book].concat();
        let printed = programs::plan(&input);
        assert_eq!(printed, planned_by_operations(Batch { marks, date }, start, end, book));
        printed
    });
    assert!(answers.iter().all(|answer| *answer == answers[0]));
    answers[0].clone()
}

fn planned_by_operations(batch: Batch, start: u8, end: u8, book: &[u8]) -> String {
    let mut runs_area = [0xAA; RUNS_AREA];
    let mut lineup_area = [0xBB; LINEUP_AREA];
    let count = binding::bind(book, batch, &mut runs_area).unwrap();
    let known = Known { area: &runs_area, count };
    match plan::plan(book, known, start, end, &mut lineup_area).unwrap() {
        None => {
            assert_eq!(lineup_area, [0xBB; LINEUP_AREA]);
            "NONE\n".to_string()
        }
        Some(Answer { litres, changes }) => {
            assert!(lineup_area[changes + 1..].iter().all(|&byte| byte == 0xBB));
            let grades: Vec<String> = lineup_area[..=changes].iter().map(u8::to_string).collect();
            format!("LITRES {litres} CHANGES {changes}\n{}\n", grades.join(" "))
        }
    }
}

#[test]
fn marks_0() {
    assert_eq!(planned(0, 0, 3, BOOK_A), "LITRES 300 CHANGES 3\n0 1 2 3\n");
}

#[test]
fn marks_1() {
    assert_eq!(planned(1, 0, 3, BOOK_A), "LITRES 350 CHANGES 2\n0 2 3\n");
}

#[test]
fn marks_2() {
    assert_eq!(planned(2, 0, 3, BOOK_A), "LITRES 300 CHANGES 3\n0 1 2 3\n");
}

#[test]
fn marks_3() {
    assert_eq!(planned(3, 0, 3, BOOK_A), "LITRES 450 CHANGES 5\n0 1 2 1 2 3\n");
}

#[test]
fn trials_from_marks_3() {
    let mut trials = Trials::begin(BOOK_A, batch(3), 0, 3).unwrap();
    assert_eq!(
        trials.text(),
        "STAGE 0 START 0 END 3 KNOWN 2 AT-START 2 FAILED 0 PASSED 0 LITRES 450 LENGTH 6\n0 1 2 1 2 3\n"
    );
    assert_eq!(
        trials.report(Report::Failed(&[1, 2, 3])),
        "STAGE 0 START 0 END 3 KNOWN 3 AT-START 2 FAILED 1 PASSED 0 LITRES 500 LENGTH 3\n0 1 3\n"
    );
    assert_eq!(
        trials.report(Report::Failed(&[1, 3])),
        "STAGE 2 START 0 END 3 KNOWN 4 AT-START 2 FAILED 2 PASSED 0 LITRES 0 LENGTH 0\n"
    );
    assert_eq!((trials.record.failed, trials.record.trials()), (2, 2));
}

/// Of the two line-ups at 500 litres, 0 1 3 has the fewer changeovers.
#[test]
fn a_named_run_that_comes_back() {
    let mut trials = Trials::begin(BOOK_A, batch(3), 0, 3).unwrap();
    assert_eq!(
        trials.report(Report::Failed(&[1, 2, 1])),
        "STAGE 0 START 0 END 3 KNOWN 3 AT-START 2 FAILED 1 PASSED 0 LITRES 500 LENGTH 3\n0 1 3\n"
    );
    let changeovers = book::read(BOOK_A).unwrap().changeovers;
    assert_eq!(changeovers.lineup_litres(&[0, 2, 1, 2, 3]), Some(500));
}

#[test]
fn sheets_with_runs_that_come_back() {
    let with = |run: &[u8]| {
        let fields = [&[0x03, 0x00, 0x02, 0x00, 0x00, 0x04, 0x00, run.len() as u8][..], run];
        planned(3, 0, 3, &[BOOK_A, &fields.concat()].concat())
    };
    assert_eq!(with(&[1, 2, 1]), "LITRES 500 CHANGES 2\n0 1 3\n");
    assert_eq!(with(&[1, 1]), "LITRES 450 CHANGES 5\n0 1 2 1 2 3\n");
    assert_eq!(with(&[1, 2, 2, 3]), "LITRES 450 CHANGES 5\n0 1 2 1 2 3\n");
}

#[test]
fn start_3_end_0() {
    assert_eq!(planned(0, 3, 0, BOOK_A), "NONE\n");
    assert_eq!(planned(3, 3, 0, BOOK_A), "NONE\n");
}

#[test]
fn start_3_end_3() {
    assert_eq!(planned(0, 3, 3, BOOK_A), "LITRES 0 CHANGES 0\n3\n");
    assert_eq!(planned(3, 3, 3, BOOK_A), "LITRES 0 CHANGES 0\n3\n");
}

#[test]
fn ties() {
    assert_eq!(planned(0, 0, 3, TIES), "LITRES 200 CHANGES 2\n0 1 3\n");
    let with_short_way = [TIES, SHORT_WAY].concat();
    assert_eq!(planned(0, 0, 3, &with_short_way), "LITRES 200 CHANGES 1\n0 3\n");
}

#[test]
fn smallest_books() {
    assert_eq!(book::read(&[0x01, 0x00, 0x01, 0x40]).map(|book| book.grades()), Ok(64));
    assert_eq!(book::read(&[0x01, 0x00, 0x01, 0x41]), Err(Refusal::at(4, 0)));
    assert_eq!(book::read(&[0x01, 0x00, 0x01]), Err(Refusal::at(1, 0)));
    assert_eq!(book::read(&[]), Err(Refusal::at(1, 0)));
}

#[test]
fn litres_at_the_limit() {
    let with = |litres: [u8; 4]| {
        let body = [&[0x02, 0x00, 0x06, 0x00, 0x01][..], &litres].concat();
        book::read(&[&[0x01, 0x00, 0x01, 0x02][..], &body].concat())
    };
    // 1,000,000 is 0F 42 40 in hexadecimal.
    assert_eq!(with([0x00, 0x0F, 0x42, 0x40]).unwrap().changeovers.litres(0, 1), Some(1_000_000));
    assert_eq!(with([0x00, 0x0F, 0x42, 0x41]), Err(Refusal::at(4, 4)));
}

#[test]
fn runs_of_1_and_9_grades() {
    let sheet = [0x01, 0x00, 0x01, 0x09, 0x03, 0x00, 0x02, 0x00, 0x00];
    let with = |run: &[u8]| book::read(&[&sheet, &[0x04, 0x00, run.len() as u8][..], run].concat());
    assert_eq!(with(&[0]), Err(Refusal::at(3, 9)));
    assert_eq!(with(&[0, 1]).unwrap().runs(), 1);
    assert_eq!(with(&[0, 1, 2, 3, 4, 5, 6, 7]).unwrap().runs(), 1);
    assert_eq!(with(&[0, 1, 2, 3, 4, 5, 6, 7, 8]), Err(Refusal::at(3, 9)));
}

/// The listing of 01 with its exact output, with any good date after the end grade.
#[test]
fn the_listing() {
    let input = "00 03 00 03, 01 00 01 04, 02 00 06 00 01 00 00 00 64, 02 00 06 01 02 00 00 00 64, \
                 02 00 06 02 03 00 00 00 64, 02 00 06 00 02 00 00 00 FA, 02 00 06 02 01 00 00 00 32, \
                 02 00 06 01 03 00 00 01 90, 03 00 02 00 01, 04 00 04 00 01 02 03, 03 00 02 00 02, \
                 04 00 03 00 02 03";
    let bytes: Vec<u8> = input
        .replace(',', "")
        .split(' ')
        .map(|byte| u8::from_str_radix(byte, 16).unwrap())
        .collect();
    let (head, book) = bytes.split_at(4);
    assert_eq!(book, BOOK_A);
    for (_, date) in DATES {
        let printed = programs::plan(&[head, &date, book].concat());
        assert_eq!(printed, "LITRES 450 CHANGES 5\n0 1 2 1 2 3\n");
    }
}

/// Book A binds 0, 1, 1 and 2 runs for marks 0, 1, 2 and 3.
#[test]
fn book_a_binds() {
    for (marks, entries) in [
        (0, &[][..]),
        (1, &[4, 0, 1, 2, 3, 0, 0, 0, 0][..]),
        (2, &[3, 0, 2, 3, 0, 0, 0, 0, 0]),
        (3, &[4, 0, 1, 2, 3, 0, 0, 0, 0, 3, 0, 2, 3, 0, 0, 0, 0, 0]),
    ] {
        let mut area = [0xAA; RUNS_AREA + 3];
        let count = binding::bind(BOOK_A, batch(marks), &mut area).unwrap();
        assert_eq!(count, entries.len() / 9);
        assert_eq!(&area[..entries.len()], entries);
        assert!(area[entries.len()..RUNS_AREA].iter().all(|&byte| byte == 0));
        assert_eq!(area[RUNS_AREA..], [0xAA; 3]);
    }
}

#[test]
fn book_a_is_read() {
    assert_eq!(
        programs::read_book(BOOK_A),
        "GRADES 4 CHANGEOVERS 6 SHEETS 2 RUNS 2\nARC 0 1 100\nARC 0 2 250\nARC 1 2 100\n\
         ARC 1 3 400\nARC 2 1 50\nARC 2 3 100\nSHEET 1\nRUN 0 1 2 3\nSHEET 2\nRUN 0 2 3\n"
    );
}

/// The sheets in the other order give equal plans.
#[test]
fn order_of_sheets() {
    let split = BOOK_A.len() - 23;
    let (front, sheets) = BOOK_A.split_at(split);
    let other = [front, &sheets[12..], &sheets[..12]].concat();
    assert_ne!(other, BOOK_A);
    for marks in 0..4 {
        assert_eq!(planned(marks, 0, 3, &other), planned(marks, 0, 3, BOOK_A));
    }
}
