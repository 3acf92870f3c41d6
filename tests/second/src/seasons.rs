//! Random windows of sheets, and random dates of batches: mostly at an edge of some
//! window, or a day before or after it. And edges and dates that are none.

use crate::book::{MOST_RUNS, MOST_SHEETS, TAG_RUN, TAG_SHEET};
use crate::dates::{self, Date, Day, Window, FIRST_YEAR, LAST_YEAR, LONGEST_YEAR};
use crate::draft::{Draft, Field};
use crate::random::Random;

/// Edges that no year has. Those of which day and month change places are days.
pub const NO_DAYS: [Day; 20] = [
    Day::new(0, 1),
    Day::new(0, 12),
    Day::new(1, 0),
    Day::new(29, 0),
    Day::new(1, 13),
    Day::new(12, 13),
    Day::new(30, 2),
    Day::new(31, 2),
    Day::new(31, 4),
    Day::new(31, 6),
    Day::new(31, 9),
    Day::new(31, 11),
    Day::new(32, 1),
    Day::new(32, 12),
    Day::new(128, 3),
    Day::new(255, 5),
    Day::new(5, 128),
    Day::new(5, 255),
    Day::new(0, 0),
    Day::new(255, 255),
];

/// Dates that 15 is for: no day of any year, 29 February of years that lack it, and
/// days of years that are too early or too late.
pub const BAD_DATES: [Date; 34] = [
    Date::new(0, 7, 2026),
    Date::new(1, 0, 2026),
    Date::new(0, 0, 2026),
    Date::new(1, 13, 2026),
    Date::new(12, 255, 2026),
    Date::new(32, 1, 2026),
    Date::new(32, 12, 2026),
    Date::new(255, 7, 2026),
    Date::new(30, 2, 2024),
    Date::new(31, 2, 2000),
    Date::new(30, 2, 1900),
    Date::new(31, 4, 2026),
    Date::new(31, 6, 2024),
    Date::new(31, 9, 2199),
    Date::new(31, 11, 1900),
    Date::new(29, 2, 1900),
    Date::new(29, 2, 2100),
    Date::new(29, 2, 1901),
    Date::new(29, 2, 2023),
    Date::new(29, 2, 2026),
    Date::new(29, 2, 2198),
    Date::new(29, 2, 2199),
    Date::new(31, 12, 1899),
    Date::new(1, 7, 1899),
    Date::new(29, 2, 1896),
    Date::new(1, 1, 2200),
    Date::new(1, 7, 2200),
    Date::new(28, 2, 2200),
    Date::new(29, 2, 2200),
    Date::new(29, 2, 2204),
    Date::new(1, 7, 0),
    Date::new(29, 2, 0),
    Date::new(1, 7, 65_535),
    Date::new(0, 0, 0),
];

/// The first and last year, the years that end a century, and others, leap years and
/// not.
const YEARS: [u16; 13] =
    [1900, 1901, 1904, 1996, 1999, 2000, 2024, 2026, 2096, 2100, 2104, 2196, 2199];

fn any_year(random: &mut Random) -> u16 {
    if random.chance(60) {
        random.pick(&YEARS)
    } else {
        random.between(FIRST_YEAR.into(), LAST_YEAR.into()) as u16
    }
}

fn any_day(random: &mut Random) -> Day {
    if random.chance(70) {
        return Day::at_place(random.below(LONGEST_YEAR));
    }
    let (day, month) =
        random.pick(&[(31, 12), (1, 1), (28, 2), (29, 2), (1, 3), (31, 1), (1, 2), (30, 4)]);
    Day::new(day, month)
}

fn days_later(day: Day, days: usize) -> Day {
    Day::at_place(day.place() + days)
}

fn day_before(day: Day) -> Day {
    days_later(day, LONGEST_YEAR - 1)
}

/// A window of any sort: one day, the whole year from any day on, all but a few days,
/// a few days, with 29 February as an edge, over the year's end, or any; or one that
/// meets an earlier window of the book at its edges.
pub fn any_window(random: &mut Random, earlier: &[Window]) -> Window {
    let (first, other) = (any_day(random), any_day(random));
    let leap_day = Day::new(29, 2);
    let (first, last) = match random.below(16) {
        0 | 1 => (first, first),
        2 => (leap_day, leap_day),
        3 => (Day::new(1, 1), Day::new(31, 12)),
        4 => (first, day_before(first)),
        5 => (first, days_later(first, LONGEST_YEAR - random.between(2, 5))),
        6 => (first, days_later(first, random.between(1, 5))),
        7 => (leap_day, other),
        8 => (first, leap_day),
        9 => (Day::new(random.between(1, 31) as u8, 12), Day::new(other.day, 1)),
        10..=12 if !earlier.is_empty() => meeting(random, earlier, other),
        _ => (first, other),
    };
    Window { first, last }
}

/// The rest of the year after an earlier window, the days just before or after it,
/// the same days, or with one edge the same.
fn meeting(random: &mut Random, earlier: &[Window], other: Day) -> (Day, Day) {
    let Window { first, last } = random.pick(earlier);
    match random.below(5) {
        0 => (days_later(last, 1), day_before(first)),
        1 => (other, day_before(first)),
        2 => (days_later(last, 1), other),
        3 => (first, last),
        _ => (last, first),
    }
}

/// Half of the drafts that have sheets: some of these, one at least, get windows, and
/// sometimes runs get a sheet of their own, so that not all of them hold or none, or stand
/// in one sheet more.
pub fn with_seasons(random: &mut Random, draft: &mut Draft) {
    let has_sheets = draft.fields.iter().any(|field| field.tag == TAG_SHEET);
    if !has_sheets || random.chance(50) {
        return;
    }
    if random.chance(35) {
        split_sheets(random, &mut draft.fields);
    }
    if random.chance(35) {
        share_runs(random, &mut draft.fields);
    }
    let percent = random.pick(&[40, 60, 80, 100]);
    let sheets: Vec<&mut Field> =
        draft.fields.iter_mut().filter(|field| field.tag == TAG_SHEET).collect();
    let always = random.below(sheets.len());
    let mut windows = Vec::new();
    for (place, sheet) in sheets.into_iter().enumerate() {
        if place == always || random.chance(percent) {
            let window = any_window(random, &windows);
            set_window(sheet, window);
            windows.push(window);
        }
    }
}

/// Sheets with the same marks before some of the runs.
fn split_sheets(random: &mut Random, fields: &mut Vec<Field>) {
    let mut sheets = fields.iter().filter(|field| field.tag == TAG_SHEET).count();
    let mut place = 1;
    while place < fields.len() && sheets < MOST_SHEETS {
        let after_run = fields[place].tag == TAG_RUN && fields[place - 1].tag == TAG_RUN;
        if after_run && random.chance(40) {
            let sheet = fields[..place].iter().rev().find(|field| field.tag == TAG_SHEET);
            let sheet = sheet.expect("a run stands after a sheet").clone();
            fields.insert(place, sheet);
            sheets += 1;
        }
        place += 1;
    }
}

/// Before a sheet another one with its marks, and some of the book's runs anew.
fn share_runs(random: &mut Random, fields: &mut Vec<Field>) {
    let is_sheet = |place: &usize| fields[*place].tag == TAG_SHEET;
    let sheets: Vec<usize> = (0..fields.len()).filter(is_sheet).collect();
    let runs: Vec<Field> = fields.iter().filter(|field| field.tag == TAG_RUN).cloned().collect();
    let count = random.between(1, 3);
    if runs.is_empty() || runs.len() + count > MOST_RUNS || sheets.len() == MOST_SHEETS {
        return;
    }
    let place = random.pick(&sheets);
    let mut more = vec![fields[place].clone()];
    more.extend((0..count).map(|_| random.pick(&runs)));
    fields.splice(place..place, more);
}

/// The sheet's field in the long form, its marks as they are.
pub fn set_window(sheet: &mut Field, window: Window) {
    *sheet = Field::new(TAG_SHEET, &[&sheet.body[..2], &window.bytes()].concat());
}

/// Every sheet gets a window of any sort.
pub fn all_with_windows(random: &mut Random, draft: Draft) -> Draft {
    with_all_windows(draft, |earlier| any_window(random, earlier))
}

/// Every sheet gets a window that has the date's day.
pub fn all_in_season(random: &mut Random, draft: Draft, date: Date) -> Draft {
    let day = date.day_of_year().expect("the date is good");
    with_all_windows(draft, |earlier| loop {
        let window = any_window(random, earlier);
        if window.has(day) {
            return window;
        }
    })
}

fn with_all_windows(mut draft: Draft, mut next: impl FnMut(&[Window]) -> Window) -> Draft {
    let mut windows = Vec::new();
    for sheet in draft.fields.iter_mut().filter(|field| field.tag == TAG_SHEET) {
        let window = next(&windows);
        set_window(sheet, window);
        windows.push(window);
    }
    draft
}

/// A date for a batch of a book with these windows; a few are bad.
pub fn any_date(random: &mut Random, windows: &[Window]) -> Date {
    if random.chance(3) {
        bad_date(random, windows)
    } else {
        good_date(random, windows)
    }
}

/// Mostly an edge of some window, a day before it or a day after.
pub fn good_date(random: &mut Random, windows: &[Window]) -> Date {
    if windows.is_empty() || random.chance(12) {
        let day = any_day(random);
        return in_some_year(random, day);
    }
    let Window { first, last } = random.pick(windows);
    let edge = random.pick(&[first, last]);
    let day = match random.below(4) {
        0 => day_before(edge),
        1 => days_later(edge, 1),
        _ => edge,
    };
    in_some_year(random, day)
}

/// That day of a year; for 29 February in a common year the day before, the day
/// after, or another year.
fn in_some_year(random: &mut Random, day: Day) -> Date {
    loop {
        let year = any_year(random);
        let date = Date { day: day.day, month: day.month, year };
        if date.is_good() {
            return date;
        }
        if random.chance(40) {
            let beside = random.pick(&[day_before(day), days_later(day, 1)]);
            return Date { day: beside.day, month: beside.month, year };
        }
    }
}

/// One of the list, or a good date of which one part is spoilt.
pub fn bad_date(random: &mut Random, windows: &[Window]) -> Date {
    if random.chance(50) {
        return random.pick(&BAD_DATES);
    }
    let good = good_date(random, windows);
    let Day { day, month } = random.pick(&NO_DAYS);
    match random.below(5) {
        0 => Date { day, month, ..good },
        1 => Date { year: random.pick(&[0, 1, 255, 1896, 1899, 2200, 2204, 65_535]), ..good },
        2 => Date { month: random.pick(&[0, 13, 14, 255]), ..good },
        3 => Date { day: random.pick(&[0, 32, 33, 255]), ..good },
        _ => {
            let common = if dates::is_leap_year(good.year) { good.year - 1 } else { good.year };
            Date::new(29, 2, common)
        }
    }
}
