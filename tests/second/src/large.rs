//! Inputs of `plan`, `board`, `rewrite` and `write_book` at the limits of length.

use crate::binding::Batch;
use crate::book::{Run, LONGEST_BOOK, LONGEST_RUN, MOST_RUNS, MOST_SHEETS, SHORTEST_RUN};
use crate::changeovers::{Changeover, MOST_GRADES};
use crate::content_inputs::{self, content_of, given_sheet};
use crate::contents::{self, WriteCase, MOST_AREA};
use crate::damage::damaged;
use crate::dates::Day;
use crate::draft::Draft;
use crate::generate;
use crate::inputs::{self, board_input, plan_input};
use crate::programs::MOST_INPUT;
use crate::random::Random;
use crate::samples;
use crate::seasons::{self, NO_DAYS};
use crate::writing::{Content, GivenSheet};

/// The bytes of the longest inputs that are not refused.
pub const LONGEST_INPUT: usize = 8 + LONGEST_BOOK;
pub const LONGEST_BOARD: usize = 7 + LONGEST_BOOK;

/// A plan over one of the largest books.
pub fn largest_plan(random: &mut Random) -> Vec<u8> {
    let (draft, batch) = longest_book(random);
    let start = random.below(MOST_GRADES);
    let end = (start + random.between(1, MOST_GRADES - 1)) % MOST_GRADES;
    plan_input(batch, start as u8, end as u8, &draft.bytes())
}

/// A board over one of the largest books.
pub fn largest_board(random: &mut Random) -> Vec<u8> {
    let (draft, batch) = longest_book(random);
    let start = random.below(MOST_GRADES) as u8;
    board_input(batch, start, &draft.bytes())
}

/// One of the largest books with a window in every sheet, and a batch of a good date.
/// Two thirds of them have all sheets bind it.
fn longest_book(random: &mut Random) -> (Draft, Batch) {
    let draft = largest_book(random);
    if random.below(3) > 0 {
        let date = seasons::good_date(random, &[]);
        let draft = seasons::all_in_season(random, draft, date);
        return (draft, Batch { marks: generate::batch_marks(random), date });
    }
    let draft = seasons::all_with_windows(random, draft);
    let batch = inputs::good_batch(random, &draft);
    (draft, batch)
}

pub(crate) fn largest_book(random: &mut Random) -> Draft {
    if random.chance(25) {
        generate::largest(random)
    } else {
        largest_winding(random)
    }
}

/// A largest book whose plans go far: of its changeovers few are cheap, and its
/// runs stand along these.
pub(crate) fn largest_winding(random: &mut Random) -> Draft {
    let grades = MOST_GRADES as u8;
    let cheap_litres = random.pick(&[vec![0], vec![1], vec![0, 1, 2], vec![1, 2, 3, 1_000]]);
    let dear_litres = random.pick(&[vec![1_000_000], vec![999_999, 1_000_000], vec![5_000]]);
    let mut items =
        generate::random_changeovers(random, MOST_GRADES, generate::pairs(MOST_GRADES), &[0]);
    let more = random.between(1, 3);
    let mut cheap: Vec<Changeover> = Vec::new();
    for item in &mut items {
        let next = (item.from + 1) % grades == item.to;
        let is_cheap = next || random.below(2 * MOST_GRADES) < more;
        item.litres = random.pick(if is_cheap { &cheap_litres } else { &dear_litres });
        if is_cheap {
            cheap.push(*item);
        }
    }
    let mut runs: Vec<Run> = Vec::new();
    while runs.len() < 256 {
        let way = generate::random_way(random, &cheap);
        if way.len() == LONGEST_RUN && !runs.contains(&way) {
            runs.push(way);
        }
    }
    generate::sheets_of_16(Draft::new(grades).changeovers(&items), &runs)
}

/// How long a long input is: the longest that is not refused, the bytes that are
/// read, and more, in their turn.
fn long(longest: usize, index: u64) -> usize {
    let lengths =
        [longest, MOST_INPUT, MOST_INPUT + 1, longest + 1, 2 * MOST_INPUT, MOST_INPUT - 1];
    lengths[(index % lengths.len() as u64) as usize]
}

/// An input of one of these lengths: mostly a largest book, and behind it whatever
/// fills the length.
pub fn long_plan(random: &mut Random, index: u64) -> Vec<u8> {
    let length = long(LONGEST_INPUT, index);
    let input = match random.below(8) {
        _ if length == LONGEST_INPUT => largest_plan(random),
        0 => plan_input(samples::batch(0), 0, 1, &generate::tiny(random).bytes()),
        1 => {
            let draft = generate::largest(random);
            let draft = seasons::all_with_windows(random, draft);
            plan_input(samples::batch(0), 0, 1, &damaged(random, &draft))
        }
        _ => largest_plan(random),
    };
    filled(random, input, length)
}

/// The same for boards.
pub fn long_board(random: &mut Random, index: u64) -> Vec<u8> {
    let length = long(LONGEST_BOARD, index);
    let input = match random.below(8) {
        0 if length != LONGEST_BOARD => {
            board_input(samples::batch(0), 0, &generate::tiny(random).bytes())
        }
        _ => largest_board(random),
    };
    filled(random, input, length)
}

/// The same for books by themselves.
pub fn long_book(random: &mut Random, index: u64) -> Vec<u8> {
    let length = long(LONGEST_BOOK, index);
    let draft = largest_book(random);
    let draft = seasons::all_with_windows(random, draft);
    let book = match random.below(8) {
        _ if length == LONGEST_BOOK => draft.bytes(),
        0 => generate::tiny(random).bytes(),
        1 => damaged(random, &draft),
        _ => draft.bytes(),
    };
    filled(random, book, length)
}

/// How many changeovers an input of `write_book` may say that it has, and runs of a sheet.
const MOST_SAID: usize = 65_535;

/// Inputs of `write_book` in turn: with as many changeovers as it can say, as many runs in a
/// sheet, and as many sheets; of just the bytes that are read; longer, but with all that it
/// says among these; and with less than it says among them. Each sort has two forms, in turn.
pub fn long_content(random: &mut Random, index: u64) -> Vec<u8> {
    let read = contents::LONGEST_INPUT;
    let more = random.pick(&[read + 1, read + 2, 2 * read]);
    match (index % 6, index / 6 % 2 == 0) {
        (0, late) => with_any_area(random, |random| most_changeovers(random, late)),
        (1, late) => with_any_area(random, |random| most_runs(random, late)),
        (2, late) => with_any_area(random, |random| most_sheets(random, late)),
        (3, true) => of_length(random, read),
        (3, false) => filled_content(random, read),
        (4, true) => filled_content(random, more),
        (4, false) => {
            let input = of_length(random, read);
            filled(random, input, more)
        }
        // The area's length is cut off, or a part of it.
        (_, true) => {
            let length = read + random.between(1, 4);
            of_length(random, length)
        }
        (_, false) => {
            let length = random.between(read + 5, 2 * read);
            of_length(random, length)
        }
    }
}

fn with_any_area(random: &mut Random, content: impl Fn(&mut Random) -> Content) -> Vec<u8> {
    let content = content(random);
    let area = random.pick(&[0, LONGEST_BOOK as u32, MOST_AREA as u32, u32::MAX]);
    WriteCase { content, area }.bytes()
}

/// The content of a longest book, its changeovers in any order.
fn longest_content(random: &mut Random) -> Content {
    let draft = content_inputs::longest(random);
    let mut content = content_of(&draft).expect("a good draft has a content");
    random.shuffle(&mut content.changeovers);
    content
}

/// The first bad changeover is the last that can be, the 4,033rd, or any before it.
fn most_changeovers(random: &mut Random, late: bool) -> Content {
    let mut content = longest_content(random);
    let all = content.changeovers.len();
    content.changeovers = content.changeovers.into_iter().cycle().take(MOST_SAID).collect();
    random.shuffle(&mut content.changeovers[all..]);
    let place = if late { all } else { random.below(all) };
    let item = &mut content.changeovers[place];
    match random.below(if late { 4 } else { 3 }) {
        0 => item.litres = random.pick(&[1_000_001, u32::MAX]),
        1 => item.from = random.pick(&[64, 255]),
        2 => item.to = item.from,
        // A pair that was given before.
        _ => {}
    }
    content
}

/// The first bad run is the 257th of all, or any before it.
fn most_runs(random: &mut Random, late: bool) -> Content {
    let mut content = longest_content(random);
    content.sheets.truncate(random.below(MOST_SHEETS));
    let before: usize = content.sheets.iter().map(|sheet| sheet.runs.len()).sum();
    let mut runs: Vec<Run> = (0..MOST_SAID).map(|_| good_run(random)).collect();
    let place = MOST_RUNS - before;
    if !late {
        runs[random.below(place)] = bad_run(random);
    } else if random.chance(50) {
        runs[place] = bad_run(random);
    }
    content.sheets.push(GivenSheet { runs, ..given_sheet([0, 1], None) });
    content
}

/// The first bad sheet is the 17th, or any before it.
fn most_sheets(random: &mut Random, late: bool) -> Content {
    let sheets = (0..=254).map(|marks| {
        let window = seasons::any_window(random, &[]).bytes();
        let window = random.pick(&[None, Some(window)]);
        // The good ones may have all runs of a book.
        let runs = (0..random.between(0, 16)).map(|_| good_run(random)).collect();
        GivenSheet { runs, ..given_sheet([0, marks], window) }
    });
    let mut content = Content { sheets: sheets.collect(), ..longest_content(random) };
    if !late {
        let place = random.below(MOST_SHEETS);
        content.sheets[place].window = Some(bad_window(random));
    } else if random.chance(50) {
        content.sheets[MOST_SHEETS].window = Some(bad_window(random));
    }
    content
}

/// One edge is a day that no year has.
fn bad_window(random: &mut Random) -> [u8; 4] {
    let Day { day, month } = random.pick(&NO_DAYS);
    random.pick(&[[day, month, 15, 9], [1, 5, day, month]])
}

fn good_run(random: &mut Random) -> Run {
    let length = random.between(SHORTEST_RUN, LONGEST_RUN);
    (0..length).map(|_| random.below(MOST_GRADES) as u8).collect()
}

fn bad_run(random: &mut Random) -> Run {
    random.pick(&[vec![], vec![0], vec![0; 9], vec![0, 64], vec![255; 8], vec![0; 255]])
}

/// A content of so many bytes with its area: a longest one, and in its last sheet more runs,
/// of all lengths, of which the first is bad.
fn of_length(random: &mut Random, length: usize) -> Vec<u8> {
    let content = longest_content(random);
    let mut case = WriteCase { content, area: LONGEST_BOOK as u32 };
    let mut left = length - case.bytes().len();
    let runs = &mut case.content.sheets[MOST_SHEETS - 1].runs;
    while left > 0 {
        // A run has its length before its grades.
        let grades = random.below(left.min(256));
        runs.push(vec![random.below(MOST_GRADES) as u8; grades]);
        left -= 1 + grades;
    }
    case.bytes()
}

/// A longest content, which is written, or the one with an area that is a byte too short, and
/// behind it whatever fills the length.
fn filled_content(random: &mut Random, length: usize) -> Vec<u8> {
    let content = longest_content(random);
    let area = LONGEST_BOOK as u32 - u32::from(random.chance(25));
    filled(random, WriteCase { content, area }.bytes(), length)
}

fn filled(random: &mut Random, mut input: Vec<u8>, length: usize) -> Vec<u8> {
    let filling: Vec<u8> = random.pick(&[
        vec![0],
        vec![255],
        vec![3, 0, 2, 0, 0],
        vec![4, 0, 2, 0, 1],
        vec![2, 0, 6, 0, 1, 0, 0, 0, 1],
        vec![1, 0, 1, 64],
    ]);
    let more = length.saturating_sub(input.len());
    input.extend(filling.iter().cycle().take(more));
    input.truncate(length);
    input
}
