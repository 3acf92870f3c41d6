//! Chosen inputs of `write_book` and `rewrite`: contents on both sides of each limit, each
//! with its reason and its answer; what is bad twice; areas; and inputs that are cut short.

use crate::book::{LONGEST_BOOK, MOST_SHEETS, TAG_CHANGEOVER, TAG_RUN, TAG_SHEET};
use crate::changeovers::MOST_LITRES;
use crate::content_inputs::{self, content_of, needed};
use crate::contents::{WriteCase, MOST_AREA};
use crate::dates::Day;
use crate::draft::{Draft, Field};
use crate::random::Random;
use crate::refusal::Refusal;
use crate::samples::{self, book_a, book_a_season, full_runs, full_sheets};
use crate::seasons::NO_DAYS;

/// The length of the book, or its refusal.
pub type Answer = Result<usize, Refusal>;

pub struct Chosen {
    pub reason: &'static str,
    pub case: WriteCase,
    pub answer: Answer,
}

impl Chosen {
    fn new(reason: &'static str, draft: &Draft, area: usize, answer: Answer) -> Chosen {
        let content = content_of(draft).expect("the draft has a content");
        Chosen { reason, case: WriteCase { content, area: area as u32 }, answer }
    }
}

/// A content that is good, and the length of its book.
type Good = (&'static str, Draft, usize);

/// A content that is refused, for what, and the index of the item.
type Bad = (&'static str, Draft, u8, usize);

const TOO_SHORT: Answer = Err(Refusal { number: 18, at: None });

/// A window that holds, and two that do not.
const SUMMER: [u8; 4] = [1, 5, 15, 9];
const BAD_FIRST: [u8; 4] = [30, 2, 15, 9];
const BAD_LAST: [u8; 4] = [1, 5, 31, 9];

/// Good contents with areas of just their book's length, a byte less, a byte more, and
/// none; bad ones with an area that every book fits and with none.
pub fn chosen() -> Vec<Chosen> {
    let mut list = Vec::new();
    for (reason, draft, length) in good() {
        list.push(Chosen::new(reason, &draft, length, Ok(length)));
        list.push(Chosen::new(reason, &draft, length - 1, TOO_SHORT));
        list.push(Chosen::new(reason, &draft, length + 1, Ok(length)));
        list.push(Chosen::new(reason, &draft, 0, TOO_SHORT));
    }
    for (reason, draft, number, index) in bad() {
        let answer = Err(Refusal::at(number, index));
        list.push(Chosen::new(reason, &draft, LONGEST_BOOK, answer));
        list.push(Chosen::new(reason, &draft, 0, answer));
    }
    for (area, answer) in [
        (1, TOO_SHORT),
        (4, TOO_SHORT),
        (40, TOO_SHORT),
        (LONGEST_BOOK, Ok(81)),
        (MOST_AREA - 1, Ok(81)),
        // Modulo 65,536 all but the last are too short.
        (MOST_AREA, Ok(81)),
        (MOST_AREA + 1, Ok(81)),
        (MOST_AREA + 80, Ok(81)),
        (1 << 24, Ok(81)),
        (1 << 31, Ok(81)),
        (u32::MAX as usize, Ok(81)),
    ] {
        list.push(Chosen::new("an area of any length", &book_a(), area, answer));
    }
    list
}

/// The longest contents, few of which print their book.
pub fn longest(random: &mut Random) -> Vec<Chosen> {
    let longest = content_inputs::longest(random);
    let mut pair_more = longest.clone();
    let mut grade = longest.clone();
    pair_more.fields.insert(4_033, longest.fields[2_000].clone());
    grade.fields[4_304].body[7] = 64;
    let run_more = longest.clone().run(&[0, 1]);
    let any = MOST_AREA;
    let refused = |number, index| Err(Refusal::at(number, index));
    vec![
        Chosen::new("the longest book", &longest, 39_252, Ok(39_252)),
        Chosen::new("a byte less than the longest", &longest, 39_251, TOO_SHORT),
        Chosen::new("a pair more than all", &pair_more, any, refused(5, 4_033)),
        Chosen::new("a grade of the last run", &grade, any, refused(4, 4_304)),
        Chosen::new("a run more than all", &run_more, any, refused(6, 4_305)),
    ]
}

/// Book A with its changeovers, by their places in 01, in another order.
fn book_a_by(places: [usize; 6]) -> Draft {
    let mut draft = book_a();
    for (field, place) in draft.fields[1..].iter_mut().zip(places) {
        *field = book_a().fields[place].clone();
    }
    draft
}

const SHUFFLED: [usize; 6] = [3, 6, 1, 5, 2, 4];

/// Book A, shuffled, with a window on its second sheet, and an area of just its length.
pub fn write_case() -> WriteCase {
    let draft = with(book_a_by(SHUFFLED), 9, sheet(2, SUMMER));
    Chosen::new("", &draft, 85, Ok(85)).case
}

pub fn good() -> Vec<Good> {
    let mut list = orders();
    list.extend(changeovers_and_runs());
    list.extend(sheets());
    list
}

fn orders() -> Vec<Good> {
    let falling = |draft: Draft, from: u8| draft.changeover(5, from, 1).changeover(from, 5, 1);
    vec![
        ("changeovers as 01 lists them", book_a(), 81),
        ("rising", book_a_by([1, 4, 2, 6, 5, 3]), 81),
        ("falling", book_a_by([3, 5, 6, 2, 4, 1]), 81),
        ("by to, then from", book_a_by([1, 5, 4, 2, 6, 3]), 81),
        ("by litres", book_a_by([5, 1, 2, 3, 4, 6]), 81),
        ("the last two exchanged", book_a_by([1, 4, 2, 6, 3, 5]), 81),
        ("the first two exchanged", book_a_by([4, 1, 2, 6, 5, 3]), 81),
        ("shuffled", book_a_by(SHUFFLED), 81),
        ("the lowest last", book_a_by([4, 2, 6, 5, 3, 1]), 81),
        ("the highest first", book_a_by([3, 1, 4, 2, 6, 5]), 81),
        ("froms and tos cross", (0..5).rev().fold(Draft::new(6), falling), 94),
        ("ties", samples::book_of_ties(), 40),
        ("a season", book_a_season(), 85),
        ("sheets in the other order", samples::book_a_other_order(), 81),
    ]
}

fn changeovers_and_runs() -> Vec<Good> {
    vec![
        ("one grade", Draft::new(1), 4),
        ("64 grades", Draft::new(64), 4),
        ("one changeover", Draft::new(2).changeover(1, 0, 7), 13),
        ("a pair and its reverse", Draft::new(2).changeover(1, 0, 7).changeover(0, 1, 7), 22),
        (
            "the highest grades, and litres of each byte",
            Draft::new(64)
                .changeover(63, 62, 0)
                .changeover(62, 63, MOST_LITRES)
                .changeover(0, 63, 0x01_02_03)
                .changeover(63, 0, 255),
            40,
        ),
        ("a run of two", Draft::new(3).sheet(0).run(&[2, 1]), 14),
        ("a run of eight", Draft::new(9).sheet(0).run(&[8, 0, 7, 1, 6, 2, 5, 3]), 20),
        ("a run that comes back", Draft::new(3).sheet(0).run(&[1, 2, 1]), 15),
        ("neighbours equal", Draft::new(1).sheet(0).run(&[0, 0]).run(&[0; 8]), 25),
        (
            "a run again, in its sheet and in another",
            Draft::new(3).sheet(1).run(&[1, 2]).run(&[1, 2]).sheet(2).run(&[1, 2]),
            29,
        ),
        ("runs in falling order", Draft::new(3).sheet(1).run(&[2, 1, 0]).run(&[0, 2]), 20),
        ("256 runs in a sheet", full_runs(), 1_289),
        ("256 runs in 16 sheets", spread_runs(), 1_364),
        ("256 runs, 241 of them in the last of 16 sheets", late_runs(), 1_364),
    ]
}

fn sheets() -> Vec<Good> {
    let sheet = |window| Draft::new(1).season(0x0100, window);
    vec![
        ("a sheet without runs", Draft::new(4).sheet(0), 9),
        ("marks of each byte", Draft::new(4).sheet(0x8001).sheet(0x0180).sheet(0xff00), 19),
        ("sheets in falling order", Draft::new(2).sheet(3).sheet(2).sheet(2).sheet(0), 24),
        (
            "windows on some sheets",
            Draft::new(2)
                .season(1, SUMMER)
                .sheet(1)
                .season(2, [1, 10, 31, 3])
                .run(&[0, 1])
                .sheet(2)
                .run(&[1, 0]),
            42,
        ),
        ("29 February", sheet([29, 2, 29, 2]), 13),
        ("over the year's end", sheet([31, 12, 1, 1]), 13),
        ("the whole year", sheet([1, 1, 31, 12]), 13),
        ("one day", sheet([1, 7, 1, 7]), 13),
        ("first and last days of months", sheet([30, 4, 31, 1]), 13),
        ("16 sheets", full_sheets(), 84),
        ("16 sheets with windows", full_seasons(), 148),
        ("16 sheets and a run", full_sheets().run(&[0, 1]), 89),
    ]
}

/// As many sheets as a book may have, each with as many runs.
fn spread_runs() -> Draft {
    let runs = vec![vec![1, 0]; MOST_SHEETS];
    (0..16).fold(Draft::new(2), |draft, marks| draft.sheet(marks).runs(&runs))
}

/// As many sheets as a book may have, each with one run, but the last with all others.
fn late_runs() -> Draft {
    let one = |draft: Draft, marks| draft.sheet(marks).run(&[1, 0]);
    let runs: Vec<Vec<u8>> = (0..241).map(|i| vec![(i % 3) as u8, (i % 2) as u8]).collect();
    (0..15).fold(Draft::new(3), one).sheet(15).runs(&runs)
}

fn full_seasons() -> Draft {
    (0..16).fold(Draft::new(2), |draft, marks| draft.season(marks, SUMMER))
}

pub fn bad() -> Vec<Bad> {
    let mut list = bad_counts();
    list.extend(bad_changeovers());
    list.extend(bad_pairs());
    list.extend(bad_sheets());
    list.extend(bad_runs());
    list.extend(runs_past_the_last());
    list.extend(bad_twice());
    list
}

/// Another field in the place of one. In a draft a field's place is its item's index.
fn with(mut draft: Draft, place: usize, field: Field) -> Draft {
    draft.fields[place] = field;
    draft
}

/// A field more.
fn before(mut draft: Draft, place: usize, field: Field) -> Draft {
    draft.fields.insert(place, field);
    draft
}

fn pair(from: u8, to: u8, litres: u32) -> Field {
    Field::new(TAG_CHANGEOVER, &[&[from, to], &litres.to_be_bytes()[..]].concat())
}

fn sheet(marks: u8, window: [u8; 4]) -> Field {
    Field::new(TAG_SHEET, &[&[0, marks], &window[..]].concat())
}

fn run(grades: &[u8]) -> Field {
    Field::new(TAG_RUN, grades)
}

fn bad_counts() -> Vec<Bad> {
    let all_bad = |count| {
        let pairs = Draft::new(count).changeover(0, 0, 0).changeover(0, 0, 0);
        pairs.season(0, BAD_FIRST).run(&[0])
    };
    let mut list = Vec::new();
    for count in [0, 65, 66, 128, 255] {
        list.push(("the count by itself", Draft::new(count), 4, 0));
        list.push(("the count before all", all_bad(count), 4, 0));
    }
    list
}

/// Book A with a bad changeover as the first, the third and the last.
fn bad_changeovers() -> Vec<Bad> {
    let mut list = Vec::new();
    for place in [1, 3, 6] {
        for (reason, field) in [
            ("from is the count", pair(4, 1, 100)),
            ("from is 255", pair(255, 1, 100)),
            ("from is 0 modulo 128", pair(128, 3, 100)),
            ("to is the count", pair(3, 4, 100)),
            ("to is 255", pair(3, 255, 100)),
            ("both are the count", pair(4, 4, 100)),
            ("from equal to to", pair(3, 3, 100)),
            ("a litre too many", pair(3, 0, MOST_LITRES + 1)),
            ("litres modulo 65,536 are 0", pair(3, 0, 1 << 24)),
            ("the most litres", pair(3, 0, u32::MAX)),
        ] {
            list.push((reason, with(book_a(), place, field), 4, place));
        }
    }
    list.push(("one grade has no pair", Draft::new(1).changeover(0, 0, 0), 4, 1));
    list.push(("64 is no grade", Draft::new(64).changeover(63, 64, 0), 4, 1));
    list
}

/// Pairs that were given before, and what is 4 instead.
fn bad_pairs() -> Vec<Bad> {
    let a = book_a;
    vec![
        ("the first pair next to it", before(a(), 2, pair(0, 1, 100)), 5, 2),
        ("the first pair as the last", before(a(), 7, pair(0, 1, 100)), 5, 7),
        ("other litres, less", before(a(), 4, pair(0, 1, 0)), 5, 4),
        ("other litres, more", before(a(), 7, pair(2, 3, MOST_LITRES)), 5, 7),
        ("the last pair as the first", before(a(), 1, pair(1, 3, 400)), 5, 7),
        ("in another's place", with(a(), 6, pair(2, 1, 50)), 5, 6),
        ("three times", before(before(a(), 4, pair(1, 2, 7)), 7, pair(1, 2, 8)), 5, 4),
        ("two pairs", before(before(a(), 3, pair(1, 2, 7)), 2, pair(0, 1, 8)), 5, 2),
        ("with a litre too many", before(a(), 7, pair(0, 1, MOST_LITRES + 1)), 4, 7),
        (
            "the reverse is another pair, and not twice",
            before(before(a(), 2, pair(1, 0, 7)), 8, pair(1, 0, 7)),
            5,
            8,
        ),
        ("again after the reverse", before(before(a(), 2, pair(1, 0, 7)), 3, pair(0, 1, 7)), 5, 3),
        ("a bad pair twice", before(before(a(), 2, pair(4, 0, 7)), 3, pair(4, 0, 7)), 4, 2),
        ("equal grades twice", before(before(a(), 2, pair(2, 2, 7)), 3, pair(2, 2, 7)), 4, 2),
        (
            "bad litres, then good ones",
            before(before(a(), 2, pair(3, 0, u32::MAX)), 3, pair(3, 0, 7)),
            4,
            2,
        ),
        ("4, then 5", before(before(a(), 2, pair(3, 4, 7)), 3, pair(0, 1, 7)), 4, 2),
        ("5, then 4", before(before(a(), 2, pair(0, 1, 7)), 3, pair(3, 4, 7)), 5, 2),
    ]
}

/// Each edge of each sheet's window, and a 17th sheet.
fn bad_sheets() -> Vec<Bad> {
    let mut list = Vec::new();
    for Day { day, month } in NO_DAYS {
        list.push(("first day", with(book_a(), 7, sheet(1, [day, month, 15, 9])), 14, 7));
        list.push(("last day", with(book_a(), 9, sheet(2, [1, 5, day, month])), 14, 9));
    }
    let full = full_sheets;
    list.extend([
        ("both edges", with(book_a(), 9, sheet(2, [31, 4, 31, 6])), 14, 9),
        ("a sheet behind all", book_a().season(0, BAD_LAST), 14, 11),
        ("a 17th sheet", full().sheet(0), 6, 17),
        ("with a window", full().season(0, SUMMER), 6, 17),
        ("with a bad first day", full().season(0, BAD_FIRST), 14, 17),
        ("with a bad last day", full().season(0, BAD_LAST), 14, 17),
        ("of sheets with windows", full_seasons().sheet(0), 6, 17),
        ("of those, with a bad window", full_seasons().season(0, BAD_FIRST), 14, 17),
        ("with a bad run", full().sheet(0).run(&[0]), 6, 17),
        ("after a bad run", full().run(&[0, 2]).sheet(0), 4, 17),
        ("after good runs", full().run(&[0, 1]).run(&[0, 1]).sheet(0), 6, 19),
        ("an 18th sheet, its window bad", full().sheet(0).season(0, BAD_FIRST), 6, 17),
        ("a bad window before", with(full().sheet(0), 5, sheet(5, BAD_FIRST)), 14, 5),
    ]);
    list
}

/// Book A with a bad run in its first sheet, and in its last.
fn bad_runs() -> Vec<Bad> {
    let mut list = Vec::new();
    for place in [8, 10] {
        for (reason, field, number) in [
            ("no grade", run(&[]), 3),
            ("one grade", run(&[0]), 3),
            ("nine grades", run(&[0, 1, 2, 3, 0, 1, 2, 3, 0]), 3),
            ("255 grades", run(&[0; 255]), 3),
            ("one bad grade", run(&[4]), 3),
            ("nine bad grades", run(&[255; 9]), 3),
            ("nine grades, the first bad", run(&[4, 1, 2, 3, 0, 1, 2, 3, 0]), 3),
            ("the first of two", run(&[4, 1]), 4),
            ("the last of two", run(&[0, 4]), 4),
            ("255", run(&[0, 255, 1]), 4),
            ("modulo 128 good", run(&[0, 129, 1]), 4),
            ("the first of eight", run(&[4, 1, 2, 3, 0, 1, 2, 3]), 4),
            ("the fifth of eight", run(&[0, 1, 2, 3, 4, 1, 2, 3]), 4),
            ("the last of eight", run(&[0, 1, 2, 3, 0, 1, 2, 4]), 4),
        ] {
            list.push((reason, with(book_a(), place, field), number, place));
        }
    }
    list.push(("one grade has one name", Draft::new(1).sheet(0).run(&[0, 1]), 4, 2));
    list.push(("64 is no grade", Draft::new(64).sheet(0).run(&[64, 63]), 4, 2));
    list
}

fn runs_past_the_last() -> Vec<Bad> {
    let (one, spread) = (full_runs, spread_runs);
    let mut first = spread();
    first.fields.insert(3, run(&[0, 1]));
    vec![
        ("a 257th run", one().run(&[0, 1]), 6, 258),
        ("with a bad grade", one().run(&[0, 3]), 4, 258),
        ("with one grade", one().run(&[0]), 3, 258),
        ("with nine grades", one().run(&[0; 9]), 3, 258),
        ("with one bad grade", one().run(&[3]), 3, 258),
        ("the first run again", one().run(&[0, 1]).run(&[0, 1]), 6, 258),
        ("in another sheet", one().sheet(1).run(&[0, 1]), 6, 259),
        ("in another sheet, bad", one().sheet(1).run(&[3, 1]), 4, 259),
        ("after a bad window", one().season(1, BAD_LAST).run(&[0, 1]), 14, 258),
        ("before a bad window", one().run(&[0, 1]).season(1, BAD_LAST), 6, 258),
        ("a bad run before", with(one().run(&[0, 1]), 100, run(&[0, 3])), 4, 100),
        ("the last run bad", with(one(), 257, run(&[0, 3])), 4, 257),
        ("of all sheets", spread().run(&[0, 1]), 6, 273),
        ("of all sheets, bad", spread().run(&[0, 2]), 4, 273),
        ("of all sheets, one grade", spread().run(&[1]), 3, 273),
        // The run that is one too many is the last one, and then a 17th sheet.
        ("in the first sheet", first.clone(), 6, 273),
        ("before a 17th sheet", first.sheet(0), 6, 273),
        ("after a 17th sheet", spread().sheet(0).run(&[0, 1]), 6, 273),
        ("after a bad 17th sheet", spread().season(0, BAD_FIRST).run(&[0, 1]), 14, 273),
    ]
}

/// Two bad items in one content: the first one decides.
fn bad_twice() -> Vec<Bad> {
    let twice = |one: (usize, Field), other: (usize, Field)| {
        with(with(book_a(), one.0, one.1), other.0, other.1)
    };
    let four = pair(4, 0, 1);
    let five = pair(0, 1, 1);
    let edge = |marks| sheet(marks, BAD_FIRST);
    vec![
        ("changeovers, 4 and 4", twice((2, four.clone()), (5, four.clone())), 4, 2),
        ("changeovers, 5 and 5", twice((2, five.clone()), (5, five.clone())), 5, 2),
        ("changeover and sheet", twice((6, five.clone()), (7, edge(1))), 5, 6),
        ("changeover and run", twice((6, four), (8, run(&[0]))), 4, 6),
        ("changeover and last run", twice((6, five), (10, run(&[0, 4]))), 5, 6),
        ("sheet and its run", twice((7, edge(1)), (8, run(&[0]))), 14, 7),
        ("second sheet and its run", twice((9, edge(2)), (10, run(&[4, 0]))), 14, 9),
        ("sheets", twice((7, edge(1)), (9, edge(2))), 14, 7),
        ("run and later sheet", twice((8, run(&[0])), (9, edge(2))), 3, 8),
        ("bad grade and later sheet", twice((8, run(&[0, 4])), (9, edge(2))), 4, 8),
        ("runs, 4 and 3", twice((8, run(&[0, 4])), (10, run(&[0]))), 4, 8),
        ("runs, 3 and 4", twice((8, run(&[0])), (10, run(&[0, 4]))), 3, 8),
    ]
}

/// The chosen inputs of `write_book`.
pub fn inputs(random: &mut Random) -> Vec<Vec<u8>> {
    let mut inputs: Vec<Vec<u8>> = chosen().iter().map(|chosen| chosen.case.bytes()).collect();
    inputs.extend(longest(random).iter().map(|chosen| chosen.case.bytes()));
    inputs.extend(at_boundaries());
    inputs.extend(samples::cuts(&write_case().bytes()));
    inputs.extend(other_ends());
    inputs
}

/// Where the reader has its limits, as far as there are contents of that.
fn at_boundaries() -> Vec<Vec<u8>> {
    let contents =
        samples::drafts_at_boundaries().into_iter().filter_map(|draft| content_of(&draft));
    let input = |content| {
        let area = needed(&content) as u32;
        WriteCase { content, area }.bytes()
    };
    contents.map(input).collect()
}

/// More bytes than the counts say, or less; and other bytes that say that there is a window.
fn other_ends() -> Vec<Vec<u8>> {
    let whole = write_case().bytes();
    let mut inputs = vec![[&whole[..], &[0]].concat(), [&whole[..], &[255; 300]].concat()];
    inputs.extend([2, 16, 128, 255].map(|byte| write_case().bytes_with(byte)));
    // The count of changeovers, of sheets, of runs, a run's length, the byte of a window.
    for (place, bytes) in [
        (1, &[0, 0][..]),
        (1, &[0, 5]),
        (1, &[0, 7]),
        (1, &[6, 0]),
        (1, &[255, 255]),
        (39, &[0]),
        (39, &[1]),
        (39, &[3]),
        (39, &[255]),
        (42, &[1]),
        (43, &[0, 0]),
        (43, &[0, 2]),
        (43, &[1, 0]),
        (43, &[255, 255]),
        (45, &[0]),
        (45, &[5]),
        (45, &[255]),
        (52, &[0]),
    ] {
        let mut input = whole.clone();
        input[place..place + bytes.len()].copy_from_slice(bytes);
        inputs.push(input);
    }
    inputs
}

/// The chosen inputs of `rewrite`.
pub fn books(random: &mut Random) -> Vec<Vec<u8>> {
    let mut books: Vec<Vec<u8>> = good().iter().map(|(_, draft, _)| draft.bytes()).collect();
    books.extend(samples::drafts_at_boundaries().iter().map(Draft::bytes));
    books.extend(samples::cuts(&book_a_season().bytes()));
    let longest = content_inputs::longest(random);
    books.push(longest.bytes());
    books.push(longest.clone().run(&[0, 1]).bytes());
    books.push([longest.bytes(), vec![TAG_SHEET]].concat());
    books
}
