//! Cases that are chosen, not drawn: 01's settled sums, every boundary on both
//! sides, every violation of the order of fields, and the limits of length.

use crate::any_inputs;
use crate::binding::Batch;
use crate::book::{TAG_CHANGEOVER, TAG_COUNT, TAG_RUN, TAG_SHEET};
use crate::content_samples;
use crate::dates::{Date, Day};
use crate::draft::{Draft, Field};
use crate::generate;
use crate::inputs::{
    self, board_input, check_lineup_input, failed_bytes, plan_input, replay_input,
};
use crate::kinds::Kind;
use crate::named_runs;
use crate::pass_inputs;
use crate::random::Random;
use crate::seasons::{self, BAD_DATES, NO_DAYS};
use crate::table_inputs;

/// The chosen cases of a kind; the seed serves those that hold random books.
pub fn cases(kind: Kind, seed: u64) -> Vec<Vec<u8>> {
    let random = &mut Random::new(&[kind.word(), seed, u64::MAX]);
    match kind {
        Kind::ReadBook => read_book_cases(random),
        Kind::CheckLineup => check_lineup_cases(random),
        Kind::Replay => replay_cases(random),
        Kind::Plan => plan_cases(random),
        Kind::Any(call) => any_inputs::chosen(random, call),
        Kind::Board => board_cases(random),
        Kind::AnyTable => table_inputs::chosen(random),
        Kind::Passes => pass_inputs::chosen(random),
        Kind::Rewrite => content_samples::books(random),
        Kind::WriteBook => content_samples::inputs(random),
    }
}

/// The date of the cases that turn on none.
pub const DATE: Date = Date::new(1, 7, 2026);

/// A batch of that date.
pub fn batch(marks: u16) -> Batch {
    Batch { marks, date: DATE }
}

/// Book A of 01.
pub fn book_a() -> Draft {
    Draft::new(4)
        .changeover(0, 1, 100)
        .changeover(1, 2, 100)
        .changeover(2, 3, 100)
        .changeover(0, 2, 250)
        .changeover(2, 1, 50)
        .changeover(1, 3, 400)
        .sheet(0x0001)
        .run(&[0, 1, 2, 3])
        .sheet(0x0002)
        .run(&[0, 2, 3])
}

/// Book A with its two sheets in the other order.
pub fn book_a_other_order() -> Draft {
    let mut draft = book_a();
    draft.fields[7..].rotate_left(2);
    draft
}

/// 0 to 1, 1 to 3, 0 to 2, 2 to 3, all 100.
pub fn book_of_ties() -> Draft {
    Draft::new(4)
        .changeover(0, 1, 100)
        .changeover(1, 3, 100)
        .changeover(0, 2, 100)
        .changeover(2, 3, 100)
}

/// Book A whose vapour sheet, which needs 0002, has a window.
pub fn book_a_in(window: [u8; 4]) -> Draft {
    let mut draft = book_a();
    draft.fields[9] = Field::new(TAG_SHEET, &[&[0, 2], &window[..]].concat());
    draft
}

/// Book A whose vapour sheet holds from 1 May to 15 September.
pub fn book_a_season() -> Draft {
    book_a_in([1, 5, 15, 9])
}

/// Book A whose first sheet, which needs 0001, has the run X = 0 1 2 3 and holds from 1 May
/// to 15 September. The vapour sheet has the run Y = 0 2 3 and then X. The known runs of
/// marks 3 are X and Y while the first sheet holds, and otherwise Y and X.
pub fn book_of_a_shared_run() -> Draft {
    let mut draft = book_a().run(&[0, 1, 2, 3]);
    draft.fields[7] = Field::new(TAG_SHEET, &[0, 1, 1, 5, 15, 9]);
    draft
}

/// Batches on a date in its season and on one out of it.
pub fn batches_of_a_shared_run() -> Vec<Batch> {
    let dates = [Date::new(15, 7, 2026), Date::new(15, 12, 2026)];
    dates.iter().flat_map(|&date| (0..4).map(move |marks| Batch { marks, date })).collect()
}

/// A window of book A's vapour sheet, and dates on which it holds or not.
type Season = ([u8; 4], &'static [(Date, bool)]);

const fn on(day: u8, month: u8, year: u16) -> (Date, bool) {
    (Date::new(day, month, year), true)
}

const fn off(day: u8, month: u8, year: u16) -> (Date, bool) {
    (Date::new(day, month, year), false)
}

const SEASONS: [Season; 22] = [
    // Within a year, each edge and the days beside it, and far from both.
    (
        [1, 5, 15, 9],
        &[
            off(30, 4, 2026),
            on(1, 5, 2026),
            on(2, 5, 2026),
            on(14, 9, 2026),
            on(15, 9, 2026),
            off(16, 9, 2026),
            off(1, 1, 2026),
            off(31, 12, 2026),
            // In a month between, days before the first edge's and after the last one's.
            on(1, 6, 1900),
            on(20, 6, 2199),
            // In the edges' months, and in others with the same day.
            on(31, 5, 2000),
            on(1, 9, 2100),
            off(15, 4, 2000),
            off(1, 10, 2000),
        ],
    ),
    // Over the year's end.
    (
        [1, 10, 31, 3],
        &[
            off(30, 9, 2025),
            on(1, 10, 2025),
            on(31, 12, 2025),
            on(1, 1, 2026),
            on(31, 3, 2026),
            off(1, 4, 2026),
            off(1, 7, 2026),
            on(1, 1, 1900),
            on(31, 12, 2199),
            on(29, 2, 2000),
        ],
    ),
    // The two days around the year's end.
    ([31, 12, 1, 1], &[off(30, 12, 1999), on(31, 12, 1999), on(1, 1, 2000), off(2, 1, 2000)]),
    // One day: within a year, its first, its last.
    ([1, 7, 1, 7], &[off(30, 6, 2026), on(1, 7, 2026), off(2, 7, 2026), off(7, 1, 2026)]),
    ([1, 1, 1, 1], &[off(31, 12, 2025), on(1, 1, 2026), off(2, 1, 2026), on(1, 1, 1900)]),
    ([31, 12, 31, 12], &[off(30, 12, 2025), on(31, 12, 2199), off(1, 1, 2026)]),
    // 29 February alone: never in a common year.
    (
        [29, 2, 29, 2],
        &[
            off(28, 2, 2024),
            on(29, 2, 2024),
            off(1, 3, 2024),
            on(29, 2, 2000),
            off(28, 2, 1900),
            off(1, 3, 1900),
            off(28, 2, 2100),
            off(1, 3, 2100),
            off(1, 7, 2024),
        ],
    ),
    // From 29 February on: in a common year from 1 March.
    (
        [29, 2, 15, 3],
        &[
            off(28, 2, 2024),
            on(29, 2, 2024),
            on(1, 3, 2024),
            off(28, 2, 2023),
            on(1, 3, 2023),
            on(15, 3, 2023),
            off(16, 3, 2023),
        ],
    ),
    // To 29 February: in a common year to 28 February.
    (
        [1, 2, 29, 2],
        &[
            off(31, 1, 2100),
            on(1, 2, 2100),
            on(28, 2, 2100),
            off(1, 3, 2100),
            on(28, 2, 2096),
            on(29, 2, 2096),
            off(1, 3, 2096),
        ],
    ),
    // 28 February is before it, and 1 March after.
    ([15, 2, 28, 2], &[on(28, 2, 2024), off(29, 2, 2024), off(1, 3, 2024), on(28, 2, 1900)]),
    ([1, 3, 15, 3], &[off(28, 2, 2024), off(29, 2, 2024), on(1, 3, 2024), on(1, 3, 1900)]),
    // All days but 29 February, over the year's end.
    ([1, 3, 28, 2], &[on(28, 2, 2000), off(29, 2, 2000), on(1, 3, 2000), on(28, 2, 1900)]),
    // From 29 February over the year's end to it.
    ([29, 2, 28, 2], &[on(28, 2, 2000), on(29, 2, 2000), on(1, 3, 2000), on(28, 2, 2199)]),
    // The whole year: from its first day, from its second, from 1 March, from the middle.
    ([1, 1, 31, 12], &[on(1, 1, 1900), on(29, 2, 2000), on(31, 12, 2199), on(1, 7, 2026)]),
    ([2, 1, 1, 1], &[on(1, 1, 2026), on(2, 1, 2026), on(31, 12, 2026), on(29, 2, 2004)]),
    ([1, 3, 29, 2], &[on(28, 2, 2023), on(29, 2, 2024), on(1, 3, 2024), on(31, 12, 1900)]),
    ([16, 6, 15, 6], &[on(15, 6, 2026), on(16, 6, 2026), on(14, 6, 2026), on(17, 6, 2026)]),
    // All but a few days of one month.
    (
        [20, 6, 10, 6],
        &[
            on(10, 6, 2026),
            off(11, 6, 2026),
            off(15, 6, 2026),
            off(19, 6, 2026),
            on(20, 6, 2026),
            on(1, 1, 2026),
            on(31, 12, 2026),
        ],
    ),
    // A few days of one month.
    (
        [10, 6, 20, 6],
        &[
            off(9, 6, 2026),
            on(10, 6, 2026),
            on(20, 6, 2026),
            off(21, 6, 2026),
            off(15, 5, 2026),
            off(15, 7, 2026),
        ],
    ),
    // The month counts before the day: the last day's number is below the first one's.
    ([31, 1, 1, 2], &[off(30, 1, 2026), on(31, 1, 2026), on(1, 2, 2026), off(2, 2, 2026)]),
    // And the other way round, over the year's end.
    (
        [1, 2, 31, 1],
        &[on(31, 1, 2026), on(1, 2, 2026), on(15, 1, 2026), on(15, 8, 2026), on(29, 2, 2028)],
    ),
    // Day and month in each other's place would be another season.
    ([6, 5, 5, 6], &[off(5, 5, 2026), on(6, 5, 2026), on(5, 6, 2026), off(6, 6, 2026)]),
];

/// Book A with each of these windows, a batch with marks 3 on each date, and whether
/// the vapour sheet then binds.
pub fn seasons_of_book_a() -> Vec<(Draft, Batch, bool)> {
    let mut cases = Vec::new();
    for (window, dates) in SEASONS {
        for &(date, holds) in dates {
            cases.push((book_a_in(window), Batch { marks: 3, date }, holds));
        }
    }
    cases
}

/// Good dates at the limits of years, months and February. Book A has no window, and
/// so the same answers on each.
pub const GOOD_DATES: [Date; 19] = [
    Date::new(1, 1, 1900),
    Date::new(28, 2, 1900),
    Date::new(1, 3, 1900),
    Date::new(31, 12, 1900),
    Date::new(29, 2, 1904),
    Date::new(31, 12, 1999),
    Date::new(1, 1, 2000),
    Date::new(29, 2, 2000),
    Date::new(31, 12, 2000),
    Date::new(30, 4, 2023),
    Date::new(31, 7, 2023),
    Date::new(31, 8, 2023),
    Date::new(31, 10, 2023),
    Date::new(29, 2, 2024),
    Date::new(30, 11, 2026),
    Date::new(28, 2, 2100),
    Date::new(1, 3, 2100),
    Date::new(29, 2, 2196),
    Date::new(31, 12, 2199),
];

/// Batches with marks 3 on the dates that 15 is for.
pub fn bad_batches() -> Vec<Batch> {
    BAD_DATES.iter().map(|&date| Batch { marks: 3, date }).collect()
}

/// A batch with marks 3 on one of them, 30 February 2024.
pub fn bad_batch() -> Batch {
    Batch { marks: 3, date: Date::new(30, 2, 2024) }
}

/// Book A with a run more, in a sheet that binds every batch.
fn book_a_with(run: &[u8]) -> Draft {
    book_a().sheet(0).run(run)
}

/// The cheap way from 0 to 3 has to go round 1 2 twice, and 1 2 1 2 forbids that. The
/// sheet that needs 2 forbids nothing.
pub fn book_of_turns() -> Draft {
    Draft::new(4)
        .changeover(0, 1, 0)
        .changeover(1, 2, 0)
        .changeover(2, 1, 0)
        .changeover(1, 3, 0)
        .changeover(0, 3, 9)
        .sheet(0)
        .run(&[0, 1, 3])
        .run(&[0, 1, 2, 1, 3])
        .sheet(0x0001)
        .run(&[1, 2, 1, 2])
        .sheet(0x0002)
        .run(&[1, 1])
        .run(&[0, 1, 1, 2])
}

/// Books of 4 grades from 0 to 3.
pub fn books_with_runs_that_come_back() -> [Draft; 3] {
    [book_a_with(&[1, 2, 1]), book_a_with(&[1, 1]), book_of_turns()]
}

/// As many sheets as a book may have.
pub fn full_sheets() -> Draft {
    (0..16).fold(Draft::new(2), |draft, marks| draft.sheet(marks))
}

/// As many runs as a book may have, all in one sheet.
pub fn full_runs() -> Draft {
    let runs: Vec<Vec<u8>> = (0..256).map(|i| vec![(i % 3) as u8, ((i + 1) % 3) as u8]).collect();
    Draft::new(3).sheet(0).runs(&runs)
}

fn read_book_cases(random: &mut Random) -> Vec<Vec<u8>> {
    let mut cases = vec![Vec::new()];
    cases.extend(drafts_at_boundaries().iter().map(Draft::bytes));
    cases.extend(cuts(&book_a().bytes()));
    cases.extend(cuts(&book_a_season().bytes()));
    cases.extend(cuts(&full_sheets().sheet(0).bytes()));
    cases.extend(days_and_months());
    cases.extend(heads_after_good_fields());
    cases.extend(longest_books(random));
    cases
}

/// All proper beginnings of a book, and the whole.
pub(crate) fn cuts(bytes: &[u8]) -> Vec<Vec<u8>> {
    (0..=bytes.len()).map(|length| bytes[..length].to_vec()).collect()
}

pub(crate) fn drafts_at_boundaries() -> Vec<Draft> {
    let mut drafts: Vec<Draft> = vec![book_a(), book_a_other_order(), book_of_ties()];
    drafts.extend(books_with_runs_that_come_back());
    drafts.extend([0, 1, 2, 63, 64, 65, 128, 255].map(Draft::new));
    drafts.extend(changeover_boundaries());
    drafts.extend(run_boundaries());
    drafts.extend(length_boundaries());
    drafts.extend(order_violations());
    drafts.extend(limit_boundaries());
    drafts.extend(window_boundaries());
    drafts
}

fn changeover_boundaries() -> Vec<Draft> {
    let pair = |from, to| Draft::new(5).changeover(from, to, 7);
    let litres = |litres| Draft::new(5).changeover(0, 4, litres);
    let mut drafts =
        vec![pair(0, 4), pair(4, 0), pair(0, 5), pair(5, 0), pair(255, 0), pair(0, 255)];
    drafts.extend([pair(0, 0), pair(4, 4), pair(5, 5)]);
    drafts.extend(
        [0, 1, 255, 256, 65_536, 999_999, 1_000_000, 1_000_001, 0x0100_0000, u32::MAX].map(litres),
    );
    drafts.push(Draft::new(1).changeover(0, 0, 0));
    drafts.push(Draft::new(64).changeover(63, 62, 1).changeover(62, 63, 1));
    drafts.push(Draft::new(64).changeover(63, 64, 1));
    // A pair is ordered; a bad value of a repeated pair is 4.
    drafts.push(pair(0, 1).changeover(1, 0, 7));
    drafts.push(pair(0, 1).changeover(0, 1, 7));
    drafts.push(pair(0, 1).changeover(2, 3, 7).changeover(0, 1, 0));
    drafts.push(pair(0, 1).changeover(0, 1, 1_000_001));
    // A refused field gives no pair, and the first bad field decides.
    drafts.push(pair(0, 1).changeover(1, 2, 1_000_001).changeover(0, 1, 7));
    drafts.push(pair(0, 1).changeover(0, 1, 7).changeover(1, 2, 1_000_001));
    drafts
}

fn run_boundaries() -> Vec<Draft> {
    let run = |grades: &[u8]| Draft::new(9).sheet(0).run(grades);
    let mut drafts: Vec<Draft> =
        (0..=10).map(|length| run(&(0..length).collect::<Vec<u8>>())).collect();
    drafts.extend([run(&[8, 0]), run(&[9, 0]), run(&[0, 9]), run(&[0, 255]), run(&[0, 0])]);
    drafts.extend([
        run(&[0, 1, 0]),
        run(&[0, 1, 2, 3, 4, 5, 6, 0]),
        run(&[0, 1, 2, 3, 4, 5, 6, 6]),
    ]);
    // A length that runs lack comes before a bad grade.
    drafts.extend([run(&[9]), run(&[9; 9])]);
    drafts.push(Draft::new(64).sheet(0xffff).run(&[63, 62]));
    drafts.push(Draft::new(64).sheet(0xffff).run(&[63, 64]));
    drafts.push(Draft::new(1).sheet(0).run(&[0, 1]));
    drafts.push(Draft::new(1).sheet(0).run(&[0, 0]).run(&[0; 8]));
    // A run may be repeated, in its sheet and in another.
    drafts.push(run(&[1, 2]).run(&[1, 2]).sheet(0x8000).run(&[1, 2]).run(&[2, 1]));
    drafts
}

/// Each tag with each length near its own, the body as long as it says.
fn length_boundaries() -> Vec<Draft> {
    let mut drafts = Vec::new();
    for length in [0, 1, 2, 3, 4, 5, 6, 7, 8, 255, 256, 258] {
        let body = vec![1; length];
        drafts.push(Draft::default().field(TAG_COUNT, &body));
        for tag in [TAG_CHANGEOVER, TAG_SHEET] {
            drafts.push(Draft::new(3).field(tag, &body));
        }
        drafts.push(Draft::new(3).sheet(0).field(TAG_RUN, &body));
    }
    drafts
}

/// Every tag, known or not, in every place, with its right length and a wrong
/// one.
fn order_violations() -> Vec<Draft> {
    let places = [
        Draft::default(),
        Draft::new(3),
        Draft::new(3).changeover(0, 1, 1),
        Draft::new(3).changeover(0, 1, 1).sheet(1),
        Draft::new(3).changeover(0, 1, 1).sheet(1).run(&[0, 1]),
        Draft::new(3).changeover(0, 1, 1).sheet(1).run(&[0, 1]).sheet(2),
    ];
    let mut drafts = Vec::new();
    for place in places {
        for (tag, body) in [
            (0x00, vec![]),
            (TAG_COUNT, vec![3]),
            (TAG_CHANGEOVER, vec![1, 2, 0, 0, 0, 9]),
            (TAG_SHEET, vec![0, 1]),
            (TAG_SHEET, vec![0, 1, 1, 5, 15, 9]),
            (TAG_RUN, vec![1, 2, 0]),
            (0x05, vec![1]),
            (0x80, vec![1, 2]),
            (0xff, vec![1]),
        ] {
            drafts.push(place.clone().field(tag, &body));
            drafts.push(place.clone().field(tag, &[body, vec![0; 9]].concat()));
        }
    }
    drafts
}

/// The 16th and 17th sheet, the 256th and 257th run, with bad fields in their
/// places too: 3 and 4 come before 6.
fn limit_boundaries() -> Vec<Draft> {
    let sheets = full_sheets();
    let runs = full_runs();
    vec![
        sheets.clone(),
        sheets.clone().run(&[0, 1]),
        sheets.clone().sheet(0),
        sheets.clone().field(TAG_SHEET, &[0]),
        sheets.clone().run(&[0, 1]).sheet(0x0001),
        runs.clone(),
        runs.clone().sheet(1),
        runs.clone().run(&[0, 1]),
        runs.clone().sheet(1).run(&[2, 1, 0]),
        runs.clone().run(&[0, 3]),
        runs.clone().run(&[1, 1]),
        runs.clone().run(&[0]),
        runs.clone().field(TAG_CHANGEOVER, &[0, 1, 0, 0, 0, 0]),
    ]
}

/// Each edge of a window at the limits of days and months, and the other one good;
/// windows in the places of other fields' faults.
fn window_boundaries() -> Vec<Draft> {
    let sheet = |window| Draft::new(3).season(2, window);
    let good = [1, 5, 15, 9];
    let mut drafts = vec![sheet(good), sheet(good).run(&[0, 1])];
    // The last day of each month.
    let last_days = [31, 29, 31, 30, 31, 30, 31, 31, 30, 31, 30, 31]
        .iter()
        .zip(1..)
        .map(|(&day, month)| Day { day, month });
    for Day { day, month } in last_days.chain([Day::new(1, 1)]).chain(NO_DAYS) {
        drafts.push(sheet([day, month, 15, 9]));
        drafts.push(sheet([1, 5, day, month]));
    }
    // Both edges bad.
    drafts.push(sheet([31, 4, 31, 6]));
    // As many sheets as a book may have, each with another window.
    drafts.push(
        SEASONS
            .iter()
            .take(16)
            .fold(Draft::new(2), |draft, &(window, _)| draft.season(3, window).run(&[0, 1])),
    );
    drafts.push(sheet(good).sheet(2).season(0xffff, [29, 2, 29, 2]).run(&[0, 1]).sheet(0));
    // A bad window before and after another bad field: the first one decides.
    drafts.push(sheet([30, 2, 15, 9]).run(&[0, 3]));
    drafts.push(sheet(good).run(&[0, 3]).season(2, [30, 2, 15, 9]));
    drafts.push(sheet(good).season(2, [30, 2, 15, 9]).season(2, [0, 0, 15, 9]));
    // No changeover stands behind a sheet, with a window or not.
    drafts.push(sheet(good).changeover(0, 1, 5));
    drafts.push(sheet([30, 2, 15, 9]).changeover(0, 1, 5));
    // A 17th sheet: 14 with a bad window, 6 with a good one, 3 with a length of neither.
    let full = full_sheets();
    drafts.push(full.clone().season(2, [30, 2, 15, 9]));
    drafts.push(full.clone().season(2, [1, 5, 0, 9]));
    drafts.push(full.clone().season(2, good));
    drafts.push(full.clone().field(TAG_SHEET, &[0, 2, 30, 2, 15]));
    // A 17th sheet with a bad window behind a 257th run, and before one.
    drafts.push(full.clone().run(&[0, 1]).season(2, [1, 13, 15, 9]).run(&[0, 1]));
    let long = (0..16).fold(Draft::new(2), |draft, marks| draft.season(marks, good));
    drafts.extend([long.clone(), long.clone().sheet(0), long.clone().season(0, [32, 1, 1, 1])]);
    drafts.push(full_runs().season(2, good).run(&[0, 1]));
    drafts.push(full_runs().season(2, [29, 0, 15, 9]).run(&[0, 1]));
    drafts.push(full_runs().run(&[0, 1]).season(2, [29, 0, 15, 9]));
    // A length of 2 before six bytes: what follows is no field that may stand there.
    for window in [good, [3, 0, 2, 0], [4, 0, 2, 0]] {
        let mut draft = sheet(window);
        draft.fields[1].length = 2;
        drafts.push(draft);
    }
    drafts
}

/// Every day from 0 to 32 of every month from 0 to 13, as the first day of a window
/// and as the last.
fn days_and_months() -> Vec<Vec<u8>> {
    let mut cases = Vec::new();
    for month in 0..=13 {
        for day in 0..=32 {
            cases.push(Draft::new(1).season(0, [day, month, 31, 12]).bytes());
            cases.push(Draft::new(1).season(0, [1, 1, day, month]).bytes());
        }
    }
    cases
}

/// A good book, then a head with 1, 2 or 3 bytes, or with a body cut short or
/// a length that no tag has: 1, 2, 3 and 1 again in their order.
fn heads_after_good_fields() -> Vec<Vec<u8>> {
    let mut cases = Vec::new();
    for good in [Draft::default(), Draft::new(3), Draft::new(3).sheet(0)] {
        for tail in [
            &[0x01][..],
            &[0x02],
            &[0x05],
            &[0xff],
            &[0x02, 0],
            &[0x05, 0],
            &[0x05, 0, 0],
            &[0x05, 0, 9],
            &[0x01, 0, 1],
            &[0x02, 0, 6],
            &[0x02, 0, 6, 0, 1, 0, 0, 0],
            &[0x03, 0, 2],
            &[0x03, 0, 2, 0],
            // A window that ends too early, its first edge bad.
            &[0x03, 0, 6],
            &[0x03, 0, 6, 0, 2],
            &[0x03, 0, 6, 0, 2, 30, 2],
            &[0x03, 0, 6, 0, 2, 30, 2, 15],
            &[0x03, 0, 4, 0, 2, 30, 2],
            &[0x03, 6, 0, 0, 2, 1, 5, 15, 9],
            &[0x04, 0, 2, 9],
            &[0x04, 0, 8, 0, 1, 2, 0, 1, 2, 0],
            &[0x01, 0xff, 0xff],
            &[0x02, 0xff, 0xff],
            &[0x03, 0xff, 0xff, 1, 2],
            &[0x04, 0xff, 0xff, 1, 2],
            &[0x05, 0xff, 0xff],
            &[0x02, 6, 0],
        ] {
            cases.push([good.bytes(), tail.to_vec()].concat());
        }
    }
    cases
}

/// The longest book, with a byte more, a run more, a sheet more whose window is bad;
/// and the longest book without windows.
fn longest_books(random: &mut Random) -> Vec<Vec<u8>> {
    let without = generate::largest(random);
    let longest = seasons::all_with_windows(random, without.clone());
    let one_byte_more = [longest.bytes(), vec![TAG_SHEET]].concat();
    vec![
        longest.bytes(),
        one_byte_more,
        longest.clone().run(&[0, 1]).bytes(),
        longest.season(0, [31, 4, 1, 5]).bytes(),
        without.bytes(),
    ]
}

/// The longest book whose sheets all bind on the date of the samples.
fn longest_book(random: &mut Random) -> Draft {
    let largest = generate::largest(random);
    seasons::all_in_season(random, largest, DATE)
}

fn plan_cases(random: &mut Random) -> Vec<Vec<u8>> {
    let mut cases = plan_sums();
    let listing = plan_input(batch(3), 0, 3, &book_a().bytes());
    cases.extend(cuts(&listing));
    cases.extend(plan_dates());
    cases.extend(plan_refusals());
    cases.extend(long_plans());
    for _ in 0..25 {
        let typical = generate::typical(random).bytes();
        let (start, end) = (random.below(30) as u8, random.below(30) as u8);
        let marks = generate::batch_marks(random);
        cases.push(plan_input(batch(marks), start, end, &typical));
    }
    cases.push(plan_input(batch(0), 0, 63, &generate::largest(random).bytes()));
    // The longest input that is not refused, and one with a byte more.
    let longest = plan_input(batch(0), 0, 63, &longest_book(random).bytes());
    cases.extend([longest.clone(), [longest, vec![TAG_SHEET]].concat()]);
    cases
}

/// The books of 01's settled sums on plans, and books with runs that come back.
pub(crate) fn books_of_sums() -> Vec<Draft> {
    let with_short_way = book_of_ties().changeover(0, 3, 200);
    let mut books = vec![book_a(), book_a_other_order(), book_of_ties(), with_short_way];
    books.extend(books_with_runs_that_come_back());
    books
}

/// There, back, and from the end to itself.
fn plan_sums() -> Vec<Vec<u8>> {
    let mut cases = Vec::new();
    for book in books_of_sums() {
        for marks in 0..4 {
            cases.push(plan_input(batch(marks), 0, 3, &book.bytes()));
            cases.push(plan_input(batch(marks), 3, 0, &book.bytes()));
            cases.push(plan_input(batch(marks), 3, 3, &book.bytes()));
        }
    }
    cases
}

/// Book A's sums on other dates, and with each window of the vapour sheet: where that
/// holds, marks 3 have 450 litres, and otherwise 350, as marks 1. And a run of two sheets
/// of which one has a window.
fn plan_dates() -> Vec<Vec<u8>> {
    let mut cases = Vec::new();
    for date in GOOD_DATES {
        for marks in 0..4 {
            cases.push(plan_input(Batch { marks, date }, 0, 3, &book_a().bytes()));
        }
    }
    for (book, batch, _) in seasons_of_book_a() {
        cases.push(plan_input(batch, 0, 3, &book.bytes()));
    }
    // Without its mark the sheet binds on no date.
    for (day, month) in [(1, 5), (16, 9)] {
        for marks in 0..3 {
            let batch = Batch { marks, date: Date::new(day, month, 2026) };
            cases.push(plan_input(batch, 0, 3, &book_a_season().bytes()));
        }
    }
    let shared = book_of_a_shared_run().bytes();
    cases.extend(batches_of_a_shared_run().iter().map(|&batch| plan_input(batch, 0, 3, &shared)));
    cases
}

/// Start and end beside the count, and that after the book's own refusals; bad dates
/// after both.
fn plan_refusals() -> Vec<Vec<u8>> {
    let mut cases = Vec::new();
    for (start, end) in [(3, 3), (4, 0), (0, 4), (255, 0), (0, 255), (4, 4), (255, 255)] {
        for batch in [batch(3), bad_batch()] {
            cases.push(plan_input(batch, start, end, &book_a().bytes()));
            cases.push(plan_input(batch, start, end, &book_a().run(&[0, 4]).bytes()));
        }
    }
    for batch in bad_batches() {
        cases.push(plan_input(batch, 0, 3, &book_a().bytes()));
        // A start equal to the end makes a bad date no better, nor does a sheet with a window.
        cases.push(plan_input(batch, 3, 3, &book_a_season().bytes()));
    }
    for draft in drafts_at_boundaries() {
        cases.push(plan_input(batch(0xffff), 0, 1, &draft.bytes()));
    }
    // A bad window, a bad start and a bad date: 14, then 7, then 15.
    let bad_window = book_a_in([31, 4, 15, 9]).bytes();
    for (batch, start) in [(batch(3), 0), (batch(3), 4), (bad_batch(), 0), (bad_batch(), 4)] {
        cases.push(plan_input(batch, start, 3, &bad_window));
    }
    cases
}

/// Spokes of three wheels with 247 runs: the longest plan of the samples.
pub const WHEELS: [u8; 3] = [15, 14, 14];

fn long_plans() -> Vec<Vec<u8>> {
    let mut cases = Vec::new();
    for litres in [0, 1, 1_000_000] {
        cases.push(plan_input(batch(0), 0, 63, &generate::line(64, true, litres).bytes()));
        cases.push(plan_input(batch(0), 63, 0, &generate::line(64, false, litres).bytes()));
        cases.push(plan_input(batch(0), 0, 63, &generate::line(64, false, litres).bytes()));
    }
    for spokes in [&WHEELS[..], &[3], &[9, 8]] {
        let book = generate::wheels(spokes, None).bytes();
        cases.push(plan_input(batch(0), 0, generate::wheels_end(spokes), &book));
    }
    cases.push(winding_input(&[11, 10]));
    cases
}

/// All pairs are changeovers, but only the long way along wheels is cheap.
fn winding_input(spokes: &[u8]) -> Vec<u8> {
    let book = generate::wheels(spokes, Some(1_000_000)).bytes();
    plan_input(batch(0), 0, generate::wheels_end(spokes), &book)
}

fn board_cases(random: &mut Random) -> Vec<Vec<u8>> {
    let mut cases = board_sums();
    cases.extend(cuts(&board_input(batch(3), 0, &book_a().bytes())));
    cases.extend(board_dates());
    for draft in drafts_at_boundaries() {
        cases.push(board_input(batch(0xffff), 1, &draft.bytes()));
    }
    cases.extend(long_boards());
    for _ in 0..12 {
        let typical = generate::typical(random).bytes();
        let start = random.below(30) as u8;
        cases.push(board_input(batch(generate::batch_marks(random)), start, &typical));
    }
    cases.push(board_input(batch(0), 63, &generate::largest(random).bytes()));
    // The longest input that is not refused, and one with a byte more.
    let longest = board_input(batch(0), 63, &longest_book(random).bytes());
    cases.extend([longest.clone(), [longest, vec![TAG_SHEET]].concat()]);
    cases
}

/// The books of the sums from every start, and from some that are not below the
/// count, which is after the book's own refusals.
fn board_sums() -> Vec<Vec<u8>> {
    let mut cases = Vec::new();
    for book in books_of_sums() {
        for start in [0, 1, 2, 3, 4, 5, 64, 255] {
            for marks in 0..4 {
                cases.push(board_input(batch(marks), start, &book.bytes()));
            }
            let bad_run = book.clone().sheet(0).run(&[0, 4]);
            cases.push(board_input(batch(3), start, &bad_run.bytes()));
        }
    }
    cases
}

/// Book A on other dates, with each window of the vapour sheet, and on bad dates: 15
/// after the book's own refusals and after 7.
fn board_dates() -> Vec<Vec<u8>> {
    let book = book_a().bytes();
    let mut cases: Vec<Vec<u8>> =
        GOOD_DATES.iter().map(|&date| board_input(Batch { marks: 3, date }, 0, &book)).collect();
    for (book, batch, _) in seasons_of_book_a() {
        cases.push(board_input(batch, 0, &book.bytes()));
    }
    cases.extend(bad_batches().into_iter().map(|batch| board_input(batch, 0, &book)));
    let bad_window = book_a_in([1, 5, 31, 9]).bytes();
    for (batch, start) in [(batch(3), 0), (batch(3), 4), (bad_batch(), 0), (bad_batch(), 4)] {
        cases.push(board_input(batch, start, &book));
        cases.push(board_input(batch, start, &bad_window));
    }
    cases
}

/// Ends that are far away, and ends that nothing leads to.
fn long_boards() -> Vec<Vec<u8>> {
    let mut cases = Vec::new();
    for litres in [0, 1_000_000] {
        for start in [0, 31, 63] {
            cases.push(board_input(batch(0), start, &generate::line(64, true, litres).bytes()));
            cases.push(board_input(batch(0), start, &generate::line(64, false, litres).bytes()));
        }
    }
    for spokes in [&WHEELS[..], &[3], &[9, 8]] {
        cases.push(board_input(batch(0), 0, &generate::wheels(spokes, None).bytes()));
        cases.push(board_input(batch(0), spokes[0], &generate::wheels(spokes, None).bytes()));
    }
    let winding = generate::wheels(&[11, 10], Some(1_000_000));
    cases.push(board_input(batch(0), 0, &winding.bytes()));
    cases
}

fn check_lineup_cases(random: &mut Random) -> Vec<Vec<u8>> {
    let mut cases = Vec::new();
    let book = overlapping_runs().bytes();
    for lineup in lineups_to_check() {
        for marks in [0, 1, 2, 3, 0xffff] {
            cases.push(check_lineup_input(batch(marks), &lineup, &book));
        }
    }
    for lineup in returning_lineups() {
        for marks in 0..4 {
            cases.push(check_lineup_input(batch(marks), &lineup, &returning_runs().bytes()));
        }
    }
    let lineup: &[u8] = &[0, 1, 2, 1, 2, 3];
    let whole = check_lineup_input(batch(3), lineup, &book_a().bytes());
    cases.extend((0..20).map(|length| whole[..length].to_vec()));
    cases.push(whole);
    cases.extend(check_lineup_dates());
    for draft in drafts_at_boundaries() {
        cases.push(check_lineup_input(batch(0), &[0], &draft.bytes()));
    }
    let largest = generate::largest(random).bytes();
    for length in [1_599, 1_600, 1_601] {
        let there_and_back: Vec<u8> = (0..length).map(|i| i as u8 % 2).collect();
        for marks in [0, 1] {
            cases.push(check_lineup_input(batch(marks), &there_and_back, &two_grades().bytes()));
        }
    }
    let all_grades: Vec<u8> = (0..64).collect();
    cases.push(check_lineup_input(batch(0), &all_grades, &largest));
    cases.push(check_lineup_input(batch(0), &all_grades, &longest_book(random).bytes()));
    cases
}

/// The run of the vapour sheet is found while that holds. A bad date is 15 after the
/// book's own refusals, and before 10.
fn check_lineup_dates() -> Vec<Vec<u8>> {
    let mut cases = Vec::new();
    for (book, batch, _) in seasons_of_book_a() {
        cases.push(check_lineup_input(batch, &[0, 2, 3], &book.bytes()));
    }
    for date in GOOD_DATES {
        cases.push(check_lineup_input(Batch { marks: 3, date }, &[0, 2, 3], &book_a().bytes()));
    }
    for batch in bad_batches() {
        cases.push(check_lineup_input(batch, &[0, 2, 3], &book_a().bytes()));
    }
    for batch in [batch(3), bad_batch()] {
        for lineup in [&[][..], &[0, 3], &[0, 1, 2, 3]] {
            cases.push(check_lineup_input(batch, lineup, &book_a().bytes()));
            cases.push(check_lineup_input(batch, lineup, &book_a_in([0, 5, 15, 9]).bytes()));
        }
    }
    cases
}

fn two_grades() -> Draft {
    Draft::new(2).changeover(0, 1, 0).changeover(1, 0, 1_000_000).sheet(1).run(&[1, 0])
}

/// Runs inside others, runs with a common end, and one that begins inside
/// another's false start. The shorter of two with one end is listed last.
fn overlapping_runs() -> Draft {
    let litres =
        generate::table(6, &generate::random_changeovers(&mut Random::new(&[6]), 6, 30, &[1]));
    Draft::new(6)
        .changeovers(&litres.list())
        .sheet(1)
        .run(&[0, 1, 2, 3])
        .run(&[1, 2, 4])
        .run(&[3, 4, 5, 0])
        .sheet(2)
        .run(&[2, 3])
        .run(&[1, 2, 3])
        .run(&[5, 0])
        .sheet(0)
        .run(&[5, 4, 3, 2, 1, 0])
        .run(&[4, 3])
}

/// Runs that overlap themselves, so that one begins inside its own false start,
/// and runs that never occur.
fn returning_runs() -> Draft {
    let mut draft = Draft::new(3);
    for (from, to) in [(0, 1), (1, 0), (1, 2), (2, 1), (2, 0), (0, 2)] {
        draft = draft.changeover(from, to, 1);
    }
    draft
        .sheet(1)
        .run(&[0, 1, 0, 2])
        .run(&[1, 2, 1, 2, 0])
        .sheet(2)
        .run(&[1, 0, 1, 0, 1])
        .run(&[1, 1])
        .run(&[0, 1, 1, 2])
        .run(&[2, 1, 2])
}

fn returning_lineups() -> Vec<Vec<u8>> {
    let lists: [&[u8]; 9] = [
        &[0, 1, 0, 2],
        &[0, 1, 0, 1, 0, 2],
        &[1, 0, 1, 0, 1],
        &[0, 1, 0, 1, 0, 1, 0, 2],
        &[1, 2, 1, 2, 1, 2, 0],
        &[2, 1, 2, 0],
        &[0, 1, 2, 0, 1, 2],
        &[1, 0, 1, 0, 2, 0, 1],
        &[0, 1, 1, 2],
    ];
    lists.iter().map(|list| list.to_vec()).collect()
}

fn lineups_to_check() -> Vec<Vec<u8>> {
    let lists: [&[u8]; 20] = [
        &[],
        &[0],
        &[5],
        &[6],
        &[0, 0],
        &[0, 6],
        &[0, 1],
        &[5, 0],
        &[0, 1, 2, 3],
        &[0, 1, 2, 4],
        &[0, 1, 0, 1, 2, 3],
        &[0, 1, 2, 1, 2, 3],
        &[0, 1, 2, 0, 1, 2, 4],
        &[1, 2, 3, 4, 5, 0],
        &[3, 4, 5, 3, 4, 5, 0],
        &[2, 1, 0, 5, 4, 3, 2, 1, 0],
        &[5, 4, 3, 2, 1, 0],
        &[0, 2, 4, 1, 3, 5, 1, 4],
        &[4, 3, 4, 3, 4, 3],
        &[0, 1, 2, 3, 255],
    ];
    lists.iter().map(|list| list.to_vec()).collect()
}

fn replay_cases(random: &mut Random) -> Vec<Vec<u8>> {
    let mut cases = replay_sums();
    cases.extend(replay_runs_that_come_back());
    cases.extend(replay_dates());
    cases.extend(replay_refused_begins());
    cases.extend(replay_refused_reports());
    cases.extend(replay_ends_of_lists());
    for _ in 0..6 {
        cases.push(inputs::replay_past_256(random));
    }
    cases.extend(named_runs::series());
    cases
}

fn after_begin(marks: u16, start: u8, end: u8, reports: &[Vec<u8>]) -> Vec<u8> {
    let mut input = replay_input(batch(marks), start, end, &book_a().bytes());
    input.extend(reports.concat());
    input
}

/// Trials on book A with each window of the vapour sheet. Where that does not hold, its
/// run 0 2 3 is the line-up, and the lab may name it; where it holds, naming it is 12.
/// On bad dates no trials begin, and the reports are passed over.
fn replay_dates() -> Vec<Vec<u8>> {
    let reports = [failed_bytes(&[0, 2, 3]), failed_bytes(&[1, 2, 3]), vec![0]].concat();
    let replay = |batch, start, book: &Draft| {
        [replay_input(batch, start, 3, &book.bytes()), reports.clone()].concat()
    };
    let mut cases: Vec<Vec<u8>> =
        seasons_of_book_a().iter().map(|(book, batch, _)| replay(*batch, 0, book)).collect();
    cases.extend(GOOD_DATES.map(|date| replay(Batch { marks: 3, date }, 0, &book_a())));
    cases.extend(bad_batches().into_iter().map(|batch| replay(batch, 0, &book_a())));
    let bad_window = book_a_in([1, 0, 15, 9]);
    for (batch, start) in [(batch(3), 0), (batch(3), 4), (bad_batch(), 0), (bad_batch(), 4)] {
        cases.push(replay(batch, start, &book_a()));
        cases.push(replay(batch, start, &bad_window));
    }
    cases
}

/// 01's settled sums on trials.
fn replay_sums() -> Vec<Vec<u8>> {
    let passed = vec![0];
    let (first, second) = (failed_bytes(&[1, 2, 3]), failed_bytes(&[1, 3]));
    vec![
        after_begin(3, 0, 3, &[]),
        after_begin(3, 0, 3, std::slice::from_ref(&first)),
        after_begin(3, 0, 3, &[first.clone(), second.clone()]),
        after_begin(3, 0, 3, &[first.clone(), second, first.clone(), passed.clone()]),
        after_begin(3, 0, 3, &[first.clone(), passed.clone(), first, passed.clone()]),
        after_begin(3, 3, 0, std::slice::from_ref(&passed)),
        after_begin(3, 3, 3, &[failed_bytes(&[3]), passed.clone(), passed]),
    ]
}

/// Named runs that come back: on book A 1 2 1, then 1 3, then 2 1 2, which leaves
/// none; all of its line-up; and on the book of turns runs that overlap themselves.
fn replay_runs_that_come_back() -> Vec<Vec<u8>> {
    let passed = vec![0];
    let named = [&[1, 2, 1][..], &[1, 3], &[2, 1, 2]].map(failed_bytes);
    let mut cases: Vec<Vec<u8>> = (1..=named.len())
        .map(|count| {
            after_begin(3, 0, 3, &[&named[..count], std::slice::from_ref(&passed)].concat())
        })
        .collect();
    cases.push(after_begin(3, 0, 3, &[failed_bytes(&[0, 1, 2, 1, 2, 3]), passed.clone()]));
    for named in [&[1, 2, 1, 2][..], &[1, 2, 1, 2, 1], &[0, 1, 2, 1], &[0, 1, 2, 1, 2, 1, 3]] {
        let input = replay_input(batch(0), 0, 3, &book_of_turns().bytes());
        cases.push([input, failed_bytes(named), passed.clone()].concat());
    }
    for draft in books_with_runs_that_come_back() {
        cases.push([replay_input(batch(3), 0, 3, &draft.bytes()), passed.clone()].concat());
    }
    cases
}

fn replay_refused_begins() -> Vec<Vec<u8>> {
    let whole = after_begin(3, 0, 3, &[vec![0]]);
    let mut cases: Vec<Vec<u8>> = (0..16).map(|length| whole[..length].to_vec()).collect();
    // The book's length is one over what there is, and far over.
    cases.push(whole[..whole.len() - 2].to_vec());
    cases.push([&whole[..8], &[0xff; 4], &whole[12..]].concat());
    for (start, end) in [(4, 0), (0, 4), (255, 255)] {
        cases.push(after_begin(3, start, end, &[vec![0]]));
    }
    for draft in drafts_at_boundaries() {
        let mut input = replay_input(batch(0), 0, 64, &draft.bytes());
        input.push(0);
        cases.push(input);
    }
    cases
}

/// Lists that refusals 16, 17 and 12 are for, then a report that is accepted.
fn replay_refused_reports() -> Vec<Vec<u8>> {
    let named: [&[u8]; 13] = [
        &[],
        &[0],
        &[2, 1, 2, 1],
        &[2, 2],
        &[0, 1, 1, 2],
        &[0, 1, 2, 1, 2, 3, 0, 1, 2],
        &[0, 1, 2, 3],
        &[0, 2, 3],
        &[3, 2],
        &[1, 3],
        &[2, 4],
        &[255, 0],
        &[0, 3],
    ];
    let mut cases = Vec::new();
    for list in named {
        cases.push(after_begin(3, 0, 3, &[failed_bytes(list), failed_bytes(&[2, 1]), vec![0]]));
        cases.push(after_begin(3, 0, 3, &[failed_bytes(list), vec![0], failed_bytes(list)]));
    }
    cases.push(after_begin(3, 0, 3, &[failed_bytes(&[0; 255]), vec![0]]));
    cases
}

/// Reports that are cut short and first bytes that are no report.
fn replay_ends_of_lists() -> Vec<Vec<u8>> {
    let tails: [&[u8]; 9] = [
        &[1],
        &[1, 0],
        &[1, 3],
        &[1, 3, 1],
        &[1, 3, 1, 2],
        &[1, 255, 0],
        &[2],
        &[2, 0],
        &[255, 0, 0],
    ];
    let mut cases = Vec::new();
    for tail in tails {
        cases.push(after_begin(3, 0, 3, &[tail.to_vec()]));
        cases.push(after_begin(3, 0, 3, &[failed_bytes(&[1, 2, 3]), tail.to_vec()]));
    }
    cases
}

/// The inputs of `plan` that the speed script counts instructions on.
pub const SPEED_INPUTS: [&str; 6] =
    ["typical", "largest", "chain", "upward", "downward", "winding"];

pub fn speed_input(name: &str, seed: u64) -> Option<Vec<u8>> {
    let random = &mut Random::new(&[seed]);
    let input = match name {
        "typical" => plan_input(batch(0xffff), 0, 29, &typical_with_windows(random).bytes()),
        "largest" => plan_input(batch(0), 0, 63, &longest_book(random).bytes()),
        "chain" => plan_input(
            batch(0),
            0,
            generate::wheels_end(&WHEELS),
            &generate::wheels(&WHEELS, None).bytes(),
        ),
        "upward" => plan_input(batch(0), 0, 63, &generate::line(64, true, 1).bytes()),
        "downward" => plan_input(batch(0), 63, 0, &generate::line(64, false, 1).bytes()),
        "winding" => winding_input(&WHEELS),
        _ => return None,
    };
    Some(input)
}

/// A typical book in which every second sheet has a window.
fn typical_with_windows(random: &mut Random) -> Draft {
    let mut draft = generate::typical(random);
    let sheets = draft.fields.iter_mut().filter(|field| field.tag == TAG_SHEET);
    for sheet in sheets.step_by(2) {
        seasons::set_window(sheet, seasons::any_window(random, &[]));
    }
    draft
}
