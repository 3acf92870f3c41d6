//! The book and its reader: 01, "The book" and refusals 1 to 6. A run may come
//! back to a grade, and have neighbours equal: 02, order 2. A sheet may have a
//! window, with refusal 14: 02, order 4.

use crate::changeovers::{Changeover, Changeovers};
use crate::dates::Window;
use crate::refusal::Refusal;

pub const MOST_SHEETS: usize = 16;
pub const MOST_RUNS: usize = 256;
pub const SHORTEST_RUN: usize = 2;
pub const LONGEST_RUN: usize = 8;

/// The bytes of the longest book.
pub const LONGEST_BOOK: usize = 39_252;

pub const TAG_COUNT: u8 = 0x01;
pub const TAG_CHANGEOVER: u8 = 0x02;
pub const TAG_SHEET: u8 = 0x03;
pub const TAG_RUN: u8 = 0x04;

const HEAD: usize = 3;

pub type Run = Vec<u8>;

#[derive(Clone, Debug, PartialEq, Eq)]
pub struct Sheet {
    /// The marks that the sheet needs.
    pub marks: u16,
    /// The days on which it holds; none if it holds all the year.
    pub window: Option<Window>,
    pub runs: Vec<Run>,
}

#[derive(Clone, Debug, PartialEq, Eq)]
pub struct Book {
    pub changeovers: Changeovers,
    pub sheets: Vec<Sheet>,
}

impl Book {
    /// Nothing but a count of grades; refusal 4 for a bad one.
    pub fn new(grades: usize) -> Result<Book, u8> {
        Ok(Book { changeovers: Changeovers::new(grades)?, sheets: Vec::new() })
    }

    pub fn grades(&self) -> usize {
        self.changeovers.grades()
    }

    /// The runs of all sheets, repeated ones counted each time.
    pub fn runs(&self) -> usize {
        self.sheets.iter().map(|sheet| sheet.runs.len()).sum()
    }

    pub fn add_sheet(&mut self, sheet: Sheet) -> Result<(), u8> {
        if self.sheets.len() == MOST_SHEETS {
            return Err(6);
        }
        self.sheets.push(sheet);
        Ok(())
    }

    /// A run of the last sheet, its length good.
    pub fn add_run(&mut self, run: &[u8]) -> Result<(), u8> {
        if !run_has_good_grades(run, self.grades()) {
            return Err(4);
        }
        if self.runs() == MOST_RUNS {
            return Err(6);
        }
        if let Some(sheet) = self.sheets.last_mut() {
            sheet.runs.push(run.to_vec());
        }
        Ok(())
    }
}

/// Reads a book; the first bad field decides.
pub fn read(bytes: &[u8]) -> Result<Book, Refusal> {
    let mut book = None;
    let mut at = 0;
    // At least one field is read, so the empty book is refusal 1 at 0.
    while at < bytes.len() || book.is_none() {
        let used = read_field(&bytes[at..], &mut book).map_err(|number| Refusal::at(number, at))?;
        at += used;
    }
    book.ok_or(Refusal::at(1, 0))
}

/// Reads the first field of `rest` into the book and gives the bytes that it
/// takes, or the number of its refusal. The tests stand in 01's order: 1 for
/// the head, 2, 3, 1 for the body, then 4 or 14, 5 and 6 for what the field says.
fn read_field(rest: &[u8], book: &mut Option<Book>) -> Result<usize, u8> {
    if rest.len() < HEAD {
        return Err(1);
    }
    let tag = rest[0];
    if !tag_may_stand(tag, book.as_ref()) {
        return Err(2);
    }
    let length = usize::from(u16::from_be_bytes([rest[1], rest[2]]));
    if !tag_has_length(tag, length) {
        return Err(3);
    }
    if rest.len() - HEAD < length {
        return Err(1);
    }
    let body = &rest[HEAD..HEAD + length];
    match book {
        None => *book = Some(Book::new(body[0].into())?),
        Some(book) => extend_book(book, tag, body)?,
    }
    Ok(HEAD + length)
}

/// Whether the order of fields lets this tag stand here.
fn tag_may_stand(tag: u8, book: Option<&Book>) -> bool {
    match (tag, book) {
        (TAG_COUNT, None) => true,
        (TAG_CHANGEOVER, Some(book)) => book.sheets.is_empty(),
        (TAG_SHEET, Some(_)) => true,
        (TAG_RUN, Some(book)) => !book.sheets.is_empty(),
        _ => false,
    }
}

fn tag_has_length(tag: u8, length: usize) -> bool {
    match tag {
        TAG_COUNT => length == 1,
        TAG_CHANGEOVER => length == 6,
        TAG_SHEET => length == 2 || length == 6,
        _ => (SHORTEST_RUN..=LONGEST_RUN).contains(&length),
    }
}

fn extend_book(book: &mut Book, tag: u8, body: &[u8]) -> Result<(), u8> {
    match tag {
        TAG_CHANGEOVER => book.changeovers.add(changeover(body)),
        TAG_SHEET => book.add_sheet(sheet(body)?),
        _ => book.add_run(body),
    }
}

fn changeover(body: &[u8]) -> Changeover {
    let litres = u32::from_be_bytes([body[2], body[3], body[4], body[5]]);
    Changeover { from: body[0], to: body[1], litres }
}

/// A sheet without its runs, in the short form or the long one. A bad window is 14,
/// also where a sheet more is 6.
fn sheet(body: &[u8]) -> Result<Sheet, u8> {
    let window = match body {
        [_, _, first_day, first_month, last_day, last_month] => {
            let bytes = [*first_day, *first_month, *last_day, *last_month];
            Some(Window::read(bytes).ok_or(14)?)
        }
        _ => None,
    };
    Ok(Sheet { marks: u16::from_be_bytes([body[0], body[1]]), window, runs: Vec::new() })
}

pub fn run_has_good_length(run: &[u8]) -> bool {
    tag_has_length(TAG_RUN, run.len())
}

pub fn run_has_good_grades(run: &[u8], grades: usize) -> bool {
    run.iter().all(|&grade| usize::from(grade) < grades)
}

/// Whether the book's rules for runs would take this list of grades.
pub fn is_run(run: &[u8], grades: usize) -> bool {
    run_has_good_length(run) && run_has_good_grades(run, grades)
}
