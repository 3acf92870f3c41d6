//! Random inputs of `rewrite` and `write_book`: books and contents of all shapes, their
//! changeovers in any order; contents with a fault or several at all sorts of places, areas
//! about as long as the book needs, and inputs that are cut short or go on.

use crate::book::{
    Run, LONGEST_BOOK, LONGEST_RUN, MOST_RUNS, MOST_SHEETS, SHORTEST_RUN, TAG_CHANGEOVER,
    TAG_COUNT, TAG_RUN, TAG_SHEET,
};
use crate::changeovers::{MOST_GRADES, MOST_LITRES};
use crate::contents::{WriteCase, LONGEST_INPUT, MOST_AREA};
use crate::dates::Day;
use crate::draft::{Draft, Field};
use crate::generate::{self, Size};
use crate::inputs;
use crate::random::Random;
use crate::seasons::{self, NO_DAYS};
use crate::writing::{Content, GivenChangeover, GivenSheet};

/// The input of `rewrite`.
pub fn book(random: &mut Random) -> Vec<u8> {
    let draft = any_draft(random);
    let mut book = inputs::book_bytes(random, &draft, 25);
    inputs::other_length(random, &mut book);
    book
}

/// The input of `write_book`.
pub fn case(random: &mut Random) -> Vec<u8> {
    let mut content = content_of(&any_draft(random)).expect("a good draft has a content");
    for _ in 0..random.pick(&[0, 0, 0, 0, 1, 1, 1, 1, 1, 2, 2, 3]) {
        spoil(random, &mut content);
    }
    if random.below(200) == 0 {
        lengthen(random, &mut content);
    }
    let area = any_area(random, needed(&content));
    let mut input = WriteCase { content, area }.bytes_with(random.pick(&[1, 1, 2, 128, 255]));
    other_end(random, &mut input);
    input
}

/// What the fields say, in their order. Nothing if 01 has another order, or none of its tags
/// such a length, but for runs up to 255 grades.
pub fn content_of(draft: &Draft) -> Option<Content> {
    let (count, others) = draft.fields.split_first()?;
    let grades = match (count.tag, &*count.body) {
        (TAG_COUNT, [grades]) => u16::from(*grades),
        _ => return None,
    };
    let mut content = Content { grades, changeovers: Vec::new(), sheets: Vec::new() };
    for field in others {
        add_field(&mut content, field)?;
    }
    Some(content)
}

fn add_field(content: &mut Content, field: &Field) -> Option<()> {
    if usize::from(field.length) != field.body.len() {
        return None;
    }
    match (field.tag, &*field.body) {
        (TAG_CHANGEOVER, &[from, to, a, b, c, d]) if content.sheets.is_empty() => {
            let (from, to) = (from.into(), to.into());
            let litres = u32::from_be_bytes([a, b, c, d]);
            content.changeovers.push(GivenChangeover { from, to, litres });
        }
        (TAG_SHEET, &[high, low]) => content.sheets.push(given_sheet([high, low], None)),
        (TAG_SHEET, &[high, low, a, b, c, d]) => {
            content.sheets.push(given_sheet([high, low], Some([a, b, c, d])));
        }
        (TAG_RUN, run) if run.len() <= 255 => content.sheets.last_mut()?.runs.push(run.to_vec()),
        _ => return None,
    }
    Some(())
}

pub(crate) fn given_sheet(marks: [u8; 2], window: Option<[u8; 4]>) -> GivenSheet {
    GivenSheet { marks: u16::from_be_bytes(marks), window, runs: Vec::new() }
}

/// The bytes of the book of a content, or those that a bad one's would have.
pub fn needed(content: &Content) -> usize {
    let sheet = |sheet: &GivenSheet| {
        let runs: usize = sheet.runs.iter().map(|run| 3 + run.len()).sum();
        runs + if sheet.window.is_none() { 5 } else { 9 }
    };
    4 + 9 * content.changeovers.len() + content.sheets.iter().map(sheet).sum::<usize>()
}

/// A book that keeps the rules; its changeovers are in any order.
fn any_draft(random: &mut Random) -> Draft {
    let mut draft = match random.below(600) {
        0 | 1 => longest(random),
        2..=24 => full(random),
        25..=60 => sparse(random),
        61..=220 => any_size(random),
        _ => inputs::any_scene(random).draft,
    };
    reorder(random, &mut draft);
    draft
}

/// 64 grades, all changeovers, 16 sheets with windows, 256 runs of 8.
pub fn longest(random: &mut Random) -> Draft {
    let draft = generate::largest(random);
    seasons::all_with_windows(random, draft)
}

/// As many sheets or runs as there may be, or one less.
fn full(random: &mut Random) -> Draft {
    let sheets = random.pick(&[1, 2, MOST_SHEETS - 1, MOST_SHEETS, MOST_SHEETS]);
    let runs = random.pick(&[0, MOST_RUNS - 1, MOST_RUNS, MOST_RUNS]);
    of_size(random, sheets, runs)
}

/// Nothing but a count, but sheets, or but changeovers.
fn sparse(random: &mut Random) -> Draft {
    let grades = random.between(1, MOST_GRADES);
    match random.below(3) {
        0 => Draft::new(grades as u8),
        1 => {
            let sheets = random.between(1, MOST_SHEETS);
            let draft = Draft::new(grades as u8);
            (0..sheets).fold(draft, |draft, _| draft.sheet(random.word() as u16))
        }
        _ => of_size(random, 0, 0),
    }
}

fn any_size(random: &mut Random) -> Draft {
    let (sheets, runs) = (random.between(0, MOST_SHEETS), random.between(0, 24));
    of_size(random, sheets, runs)
}

/// So many sheets and runs, over any count of grades, with a few changeovers.
fn of_size(random: &mut Random, sheets: usize, runs: usize) -> Draft {
    let grades = random.between(1, MOST_GRADES);
    let changeovers = random.between(0, generate::pairs(grades).min(24));
    let size = Size { grades, changeovers, sheets, runs };
    let mut draft = generate::book_of_size(random, size);
    seasons::with_seasons(random, &mut draft);
    draft
}

/// Mostly any order; or rising, falling, by to and then from, by litres, or rising but for
/// two neighbours.
fn reorder(random: &mut Random, draft: &mut Draft) {
    let is_one = |field: &&Field| field.tag == TAG_CHANGEOVER;
    let count = draft.fields.iter().filter(is_one).count();
    let fields = &mut draft.fields[1..=count];
    let from_and_to = |field: &Field| (field.body[0], field.body[1]);
    match random.below(12) {
        0 => fields.sort_by_key(from_and_to),
        1 => fields.sort_by_key(|field| std::cmp::Reverse(from_and_to(field))),
        2 => fields.sort_by_key(|field| (field.body[1], field.body[0])),
        3 => fields.sort_by_key(|field| field.body[2..].to_vec()),
        4 if count > 1 => {
            fields.sort_by_key(from_and_to);
            let place = random.below(count - 1);
            fields.swap(place, place + 1);
        }
        _ => random.shuffle(fields),
    }
}

/// The first place, the last, or any.
fn place(random: &mut Random, length: usize) -> usize {
    let any = random.below(length);
    random.pick(&[0, length - 1, any, any])
}

/// A fault, or what looks like one.
fn spoil(random: &mut Random, content: &mut Content) {
    match random.below(100) {
        0..=6 => {
            let less = content.grades.saturating_sub(1);
            content.grades = random.pick(&[0, 0, 65, 65, 66, 128, 255, 64, less]);
        }
        7..=46 => spoil_changeovers(random, content),
        47..=66 => spoil_sheets(random, content),
        _ => spoil_runs(random, content),
    }
}

/// A grade that is not below the count, most of the time.
fn bad_grade(random: &mut Random, grades: u16) -> u16 {
    let any = random.byte().into();
    random.pick(&[grades, grades, 64, grades | 128, 255, any])
}

fn spoil_changeovers(random: &mut Random, content: &mut Content) {
    let bad = bad_grade(random, content.grades);
    let list = &mut content.changeovers;
    if list.is_empty() {
        list.push(GivenChangeover { from: 1, to: 0, litres: 5 });
    }
    let place = place(random, list.len());
    match random.below(12) {
        0 => list[place].from = bad,
        1 => list[place].to = bad,
        2 => list[place].to = list[place].from,
        3 | 4 => spoil_litres(random, &mut list[place]),
        5 => {
            // Given again as bad as it is.
            spoil_litres(random, &mut list[place]);
            let again = list[place];
            insert_behind(random, list, place, again);
        }
        6 | 7 => {
            let GivenChangeover { from, to, litres } = list[place];
            let reverse = GivenChangeover { from: to, to: from, litres };
            insert_behind(random, list, place, reverse);
        }
        _ => {
            let mut again = list[place];
            match random.below(6) {
                0 => {}
                1 => spoil_litres(random, &mut again),
                _ => again.litres = random.pick(&[0, 1, 7, MOST_LITRES]),
            }
            insert_behind(random, list, place, again);
        }
    }
}

fn spoil_litres(random: &mut Random, item: &mut GivenChangeover) {
    let more = MOST_LITRES + 1;
    item.litres = random.pick(&[MOST_LITRES, more, more, more, 1 << 24, u32::MAX]);
}

/// Just behind a place, as the last item, or anywhere between.
fn insert_behind<T: Clone>(random: &mut Random, list: &mut Vec<T>, place: usize, item: T) {
    let any = random.between(place + 1, list.len());
    let later = random.pick(&[place + 1, list.len(), any]);
    list.insert(later, item);
}

fn spoil_sheets(random: &mut Random, content: &mut Content) {
    if content.sheets.is_empty() || random.chance(25) {
        return sheets_past_the_last(random, &mut content.sheets);
    }
    let place = place(random, content.sheets.len());
    spoil_window(random, &mut content.sheets[place]);
}

/// One edge of the sheet's window, or each, becomes a day that no year has; sometimes any
/// day and month, or each in the other's place.
fn spoil_window(random: &mut Random, sheet: &mut GivenSheet) {
    let any = seasons::any_window(random, &[]).bytes();
    let window = sheet.window.get_or_insert(any);
    let which = random.below(8);
    if which == 7 {
        window.reverse();
        return;
    }
    for (at, spoilt) in [(0, which < 4), (2, which > 2)] {
        if spoilt {
            let Day { day, month } = random.pick(&NO_DAYS);
            window[at..at + 2].copy_from_slice(&[day, month]);
        }
    }
}

/// A 17th sheet, and sometimes an 18th, before the others or behind them; the 17th often
/// has a bad window, or a bad run.
fn sheets_past_the_last(random: &mut Random, sheets: &mut Vec<GivenSheet>) {
    let count = MOST_SHEETS + random.pick(&[1, 1, 1, 2]);
    let before = random.chance(30);
    for marks in sheets.len()..count {
        let window = seasons::any_window(random, &[]).bytes();
        let window = random.pick(&[None, None, Some(window)]);
        let sheet = given_sheet((marks as u16).to_be_bytes(), window);
        sheets.insert(if before { 0 } else { sheets.len() }, sheet);
    }
    let past = &mut sheets[MOST_SHEETS];
    match random.below(5) {
        0 | 1 => spoil_window(random, past),
        2 => past.runs.push(vec![255]),
        _ => {}
    }
}

fn spoil_runs(random: &mut Random, content: &mut Content) {
    if content.sheets.is_empty() {
        content.sheets.push(given_sheet([0, 0], None));
    }
    if random.chance(15) {
        return runs_past_the_last(random, content);
    }
    let run = any_run(random, &mut content.sheets);
    spoil_run(random, run, content.grades);
}

/// One of the runs, or a new one where there are none.
fn any_run<'a>(random: &mut Random, sheets: &'a mut [GivenSheet]) -> &'a mut Run {
    if sheets.iter().all(|sheet| sheet.runs.is_empty()) {
        let place = place(random, sheets.len());
        sheets[place].runs.push(vec![0; random.between(SHORTEST_RUN, LONGEST_RUN)]);
    }
    let mut runs: Vec<&mut Run> = sheets.iter_mut().flat_map(|sheet| &mut sheet.runs).collect();
    let place = place(random, runs.len());
    runs.swap_remove(place)
}

/// A bad length, a bad grade, or both.
fn spoil_run(random: &mut Random, run: &mut Run, grades: u16) {
    let which = random.below(10);
    if which < 6 {
        let length = random.pick(&[0, 1, 1, 9, 9, 10, 16, 255]);
        run.resize(length, run.last().copied().unwrap_or(0));
    }
    if which > 3 && !run.is_empty() {
        let place = place(random, run.len());
        run[place] = bad_grade(random, grades) as u8;
    }
}

/// A 257th run, and sometimes more, in one sheet or spread over all; the 257th is often bad.
fn runs_past_the_last(random: &mut Random, content: &mut Content) {
    let runs = |sheets: &[GivenSheet]| sheets.iter().map(|sheet| sheet.runs.len()).sum::<usize>();
    let sheets = &mut content.sheets;
    let spread = random.chance(50);
    let one = place(random, sheets.len());
    let count = MOST_RUNS + random.pick(&[1, 1, 1, 2]);
    while runs(sheets) < count {
        let sheet = if spread { random.below(sheets.len()) } else { one };
        let highest = content.grades.saturating_sub(1) as u8;
        sheets[sheet].runs.push(vec![0, highest]);
    }
    if random.chance(60) {
        let past = sheets.iter_mut().flat_map(|sheet| &mut sheet.runs).nth(MOST_RUNS);
        spoil_run(random, past.expect("there are more"), content.grades);
    }
}

/// So many items that the input is longer than the bytes of a frame.
fn lengthen(random: &mut Random, content: &mut Content) {
    if random.chance(70) {
        let litres: Vec<u32> = (0..=MOST_LITRES).step_by(997).collect();
        let all = generate::random_changeovers(random, MOST_GRADES, 4_032, &litres);
        let draft = Draft::new(MOST_GRADES as u8).changeovers(&all);
        let all = content_of(&draft).expect("changeovers are a content").changeovers;
        let count = random.pick(&[11_000, 40_000, 65_535]);
        content.changeovers = all.into_iter().cycle().take(count).collect();
    } else {
        let sheet = given_sheet([0, 0], None);
        let runs = vec![vec![0; 255]; random.between(257, 3_000)];
        content.sheets.insert(0, GivenSheet { runs, ..sheet });
    }
}

/// Mostly as long as the book, or a byte more or less.
fn any_area(random: &mut Random, needed: usize) -> u32 {
    let area = match random.below(24) {
        0..=7 => needed,
        8..=11 => needed - 1,
        12 | 13 => needed + 1,
        14 => needed + random.between(2, 300),
        15 => 0,
        16 => random.below(needed),
        17 | 18 => LONGEST_BOOK,
        19 => random.pick(&[LONGEST_BOOK - 1, LONGEST_BOOK + 1, MOST_AREA - 1]),
        20 => MOST_AREA,
        21 => MOST_AREA + 1,
        22 => random.pick(&[MOST_AREA + needed - 1, 1 << 24, 1 << 31]),
        _ => return u32::MAX,
    };
    area as u32
}

/// Now and then cut short at any byte or in the last number, or with a byte changed, or
/// with bytes behind its end.
fn other_end(random: &mut Random, input: &mut Vec<u8>) {
    match random.below(100) {
        0..=3 => input.truncate(random.below(input.len())),
        4 | 5 => input.truncate(input.len() - random.between(1, 4)),
        6..=8 => input.extend((0..random.between(1, 8)).map(|_| random.byte())),
        9 | 10 => {
            let place = random.below(input.len());
            input[place] = random.byte();
        }
        11 if random.chance(20) => {
            let length = random.pick(&[MOST_AREA + 1, 2 * MOST_AREA, LONGEST_INPUT]);
            input.resize(length.max(input.len()), random.byte());
        }
        _ => {}
    }
}
