//! Binding and the runs area: 01, "Binding", and refusal 9 for known runs. Sheets
//! bind by the date too, with refusal 15: 02, order 4.

use crate::book::{self, Book, Run, Sheet};
use crate::dates::{Date, Day};
use crate::refusal::Refusal;
use std::collections::BTreeSet;

pub const MOST_KNOWN: usize = 256;
pub const ENTRY: usize = 9;
pub const RUNS_AREA: usize = MOST_KNOWN * ENTRY;

/// What a batch has: its marks and its date.
#[derive(Clone, Copy, Debug, PartialEq, Eq)]
pub struct Batch {
    pub marks: u16,
    pub date: Date,
}

/// Binds a batch: writes its known runs into the area and gives their count.
pub fn bind(bytes: &[u8], batch: Batch, area: &mut [u8]) -> Result<usize, Refusal> {
    let book = book::read(bytes)?;
    if area.len() < RUNS_AREA {
        return Err(Refusal::plain(8));
    }
    let known = known_runs(&book, batch)?;
    write_area(&known, area);
    Ok(known.len())
}

/// The distinct runs of the binding sheets in order of first appearance, or refusal
/// 15 for a bad date.
pub fn known_runs(book: &Book, batch: Batch) -> Result<Vec<Run>, Refusal> {
    let day = batch.date.day_of_year().ok_or(Refusal::plain(15))?;
    let mut seen = BTreeSet::new();
    let binding = book.sheets.iter().filter(|sheet| binds(sheet, batch.marks, day));
    Ok(binding.flat_map(|sheet| &sheet.runs).filter(|run| seen.insert(*run)).cloned().collect())
}

/// A sheet binds when every mark that it needs is among the batch's, and the day
/// lies in its window, if it has one.
fn binds(sheet: &Sheet, marks: u16, day: Day) -> bool {
    sheet.marks & !marks == 0 && sheet.window.map_or(true, |window| window.has(day))
}

/// Writes all 256 entries, unused bytes as 0, and nothing after them.
pub fn write_area(known: &[Run], area: &mut [u8]) {
    area[..RUNS_AREA].fill(0);
    for (place, run) in known.iter().enumerate() {
        write_entry(place, run, area);
    }
}

/// Writes one entry; its unused bytes are 0 already.
pub fn write_entry(place: usize, run: &[u8], area: &mut [u8]) {
    let entry = &mut area[place * ENTRY..(place + 1) * ENTRY];
    entry[0] = run.len() as u8;
    entry[1..=run.len()].copy_from_slice(run);
}

/// The known runs that an area of the right size holds, or refusal 9.
pub fn read_area(area: &[u8], count: usize, grades: usize) -> Result<Vec<Run>, Refusal> {
    if count > MOST_KNOWN {
        return Err(Refusal::plain(9));
    }
    let (used, unused) = area[..RUNS_AREA].split_at(count * ENTRY);
    let mut seen = BTreeSet::new();
    let mut known = Vec::with_capacity(count);
    for entry in used.chunks(ENTRY) {
        let run = read_entry(entry, grades).ok_or(Refusal::plain(9))?;
        if !seen.insert(entry) {
            return Err(Refusal::plain(9));
        }
        known.push(run);
    }
    if !all_zero(unused) {
        return Err(Refusal::plain(9));
    }
    Ok(known)
}

fn read_entry(entry: &[u8], grades: usize) -> Option<Run> {
    let length = usize::from(entry[0]);
    if length >= ENTRY {
        return None;
    }
    let (run, unused) = entry[1..].split_at(length);
    (book::is_run(run, grades) && all_zero(unused)).then(|| run.to_vec())
}

fn all_zero(bytes: &[u8]) -> bool {
    bytes.iter().all(|&byte| byte == 0)
}
