//! Cases of single calls that fill a table: those of planning, with a table for
//! the line-up area.

use crate::any_inputs;
use crate::binding::RUNS_AREA;
use crate::board::{ENTRY, NO_END};
use crate::book;
use crate::calls::{Call, Case, MOST_AREA};
use crate::changeovers::MOST_GRADES;
use crate::faults::faults;
use crate::random::Random;
use crate::samples;
use crate::tables::{TableCase, MOST_TABLE};

/// The input of a call.
pub fn case(random: &mut Random) -> Vec<u8> {
    let call = any_inputs::any_case(random, Call::Plan);
    let table = any_table(random, &call.book);
    let mut bytes = with_table(&call, table).bytes();
    if random.chance(1) {
        bytes.truncate(random.below(bytes.len()));
    }
    bytes
}

/// What the call takes of a case of planning, and a table.
fn with_table(case: &Case, table: Vec<u32>) -> TableCase {
    let Case { record, runs, book, .. } = case.clone();
    TableCase { start: record.start, known: record.known, runs, table, book }
}

/// As many numbers as the book's grades need; as the most grades do where the
/// book is damaged.
fn needed(book: &[u8]) -> usize {
    ENTRY * book::read(book).map_or(MOST_GRADES, |book| book.grades())
}

/// Mostly as long as the book needs, or longer.
fn any_table(random: &mut Random, book: &[u8]) -> Vec<u32> {
    let needed = needed(book);
    let length = match random.below(20) {
        0 => 0,
        1 => needed / ENTRY,
        2 => needed - 1,
        3 => random.below(needed),
        4..=10 => needed,
        11..=13 => needed + 1,
        14..=15 => needed + ENTRY,
        _ => random.between(needed, MOST_TABLE),
    };
    let any = random.word() as u32;
    let value = random.pick(&[0, 1, 1 << 31, NO_END - 1, NO_END, any]);
    let mut table = vec![value; length];
    match random.below(4) {
        0 => table.iter_mut().for_each(|number| *number = random.word() as u32),
        1 => table.iter_mut().for_each(|number| *number = random.below(4) as u32),
        _ => {}
    }
    table
}

/// Book A with the runs of marks 3, from grade 0, into a table of just its size.
pub fn table_of_book_a() -> TableCase {
    let case = any_inputs::begun_on_book_a();
    let table = vec![7; needed(&case.book)];
    with_table(&case, table)
}

/// The chosen cases: on book A every start, with areas of just their size and
/// with larger ones no fault and each fault of planning, and each size of table.
pub fn chosen(random: &mut Random) -> Vec<Vec<u8>> {
    let exact = table_of_book_a();
    let larger = TableCase {
        runs: resized(&exact.runs, RUNS_AREA + 40),
        table: resized(&exact.table, exact.table.len() + 5),
        ..exact.clone()
    };
    let mut cases: Vec<TableCase> = Vec::new();
    for good in [&exact, &larger] {
        for start in [0, 1, 2, 3, 4, 5, 64, 255] {
            cases.push(TableCase { start, ..good.clone() });
        }
        for known in 0..4 {
            cases.push(TableCase { known, ..good.clone() });
        }
        cases.extend(spoilt(random, good));
    }
    cases.extend(tables_of_all_sizes(&exact));
    cases.extend(contents(random, &exact));
    cases.extend(orders_of_refusals(&exact));
    let mut inputs: Vec<Vec<u8>> = cases.iter().map(TableCase::bytes).collect();
    inputs.extend(cut_short(&exact));
    inputs
}

/// An area or table with more items, each as its last one, or with fewer.
fn resized<T: Copy + Default>(area: &[T], length: usize) -> Vec<T> {
    let mut area = area.to_vec();
    area.resize(length, area.last().copied().unwrap_or_default());
    area
}

/// Each fault of planning that is one here too: of the runs area and of start.
fn spoilt(random: &mut Random, good: &TableCase) -> Vec<TableCase> {
    let planning = any_inputs::begun_on_book_a();
    let planning = Case { runs: good.runs.clone(), ..planning };
    let faults = faults().into_iter().filter(|fault| fault.part.concerns(Call::Plan));
    let spoilt = faults.map(|fault| {
        let mut case = planning.clone();
        (fault.spoil)(random, &mut case);
        with_table(&case, good.table.clone())
    });
    spoilt.filter(|case| case != good).collect()
}

/// From no number to a few more than needed, and as long as a table may be, with
/// a runs area that is long enough and with one that is not.
fn tables_of_all_sizes(good: &TableCase) -> Vec<TableCase> {
    let needed = good.table.len();
    let lengths = (0..needed + 5).chain([MOST_TABLE - 1, MOST_TABLE, MOST_TABLE + 1, 65_535]);
    let mut cases: Vec<TableCase> = lengths
        .map(|length| TableCase { table: resized(&good.table, length), ..good.clone() })
        .collect();
    for runs in [0, RUNS_AREA - 1, MOST_AREA, MOST_AREA + 1, 65_535] {
        for length in [needed - 1, needed] {
            let table = resized(&good.table, length);
            cases.push(TableCase { runs: resized(&good.runs, runs), table, ..good.clone() });
        }
    }
    cases
}

/// Numbers of every sort in the table before the call.
fn contents(random: &mut Random, good: &TableCase) -> Vec<TableCase> {
    let length = good.table.len() + 3;
    let mut tables: Vec<Vec<u32>> =
        [0, 1, 255, 256, 1 << 31, NO_END - 1, NO_END].map(|value| vec![value; length]).to_vec();
    tables.push((0..length).map(|_| random.word() as u32).collect());
    tables.push((0..length as u32).map(|place| place << 24 | place << 8).collect());
    // What the call leaves there, and one number of it changed.
    let ends = [0, 0, 100, 1, 200, 2, 450, 5, 9, 9, 9];
    tables.extend((0..=length).map(|place| {
        let mut table = ends.to_vec();
        if let Some(number) = table.get_mut(place) {
            *number ^= 1 << 16;
        }
        table
    }));
    tables.into_iter().map(|table| TableCase { table, ..good.clone() }).collect()
}

/// 1 to 6 and 14 before 8, 8 before 7, 7 before 9.
fn orders_of_refusals(good: &TableCase) -> Vec<TableCase> {
    let known = TableCase { known: 300, ..good.clone() };
    let start = TableCase { start: 4, ..known.clone() };
    let table = TableCase { table: resized(&good.table, good.table.len() - 1), ..start.clone() };
    let runs = TableCase { runs: resized(&good.runs, RUNS_AREA - 1), ..start.clone() };
    let both = TableCase { runs: runs.runs.clone(), ..table.clone() };
    let book = TableCase { book: good.book[..good.book.len() - 1].to_vec(), ..both.clone() };
    let empty = TableCase { book: Vec::new(), runs: Vec::new(), table: Vec::new(), ..both.clone() };
    let count = TableCase { book: vec![1, 0, 1, 65], ..both.clone() };
    let bad_window = samples::book_a_in([1, 5, 31, 9]).bytes();
    let window = TableCase { book: bad_window.clone(), ..good.clone() };
    let window_and_both = TableCase { book: bad_window, ..both.clone() };
    vec![known, start, table, runs, both, book, empty, count, window, window_and_both]
}

/// Beginnings of an input whose table is given in part.
fn cut_short(good: &TableCase) -> Vec<Vec<u8>> {
    let table = good.table.iter().enumerate().map(|(place, _)| place as u32).collect();
    let whole = TableCase { table, ..good.clone() }.bytes();
    let book_from = whole.len() - good.book.len();
    let lengths = (0..=book_from + 4).chain([whole.len()]);
    lengths.map(|length| whole[..length].to_vec()).collect()
}
