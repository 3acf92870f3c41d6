//! The programs as functions from standard input to standard output.

use crate::binding::{self, Batch, RUNS_AREA};
use crate::board;
use crate::book::{self, LONGEST_BOOK};
use crate::check;
use crate::dates::Date;
use crate::passes;
use crate::plan::{self, LINEUP_AREA};
use crate::refusal::Refusal;
use crate::text;
use crate::trials::{self, Record};
use crate::writing::{self, Content};

/// The most bytes of its input that `plan`, `board`, `passes`, `read_book` and `rewrite`
/// look at.
pub const MOST_INPUT: usize = 65_536;

/// Input that is shorter than its own fixed part or its lengths say.
pub(crate) const CUT_SHORT: Refusal = Refusal { number: 1, at: Some(0) };

/// 01's program `plan`: marks, start, end, the date, then a book.
pub fn plan(input: &[u8]) -> String {
    plan_text(first_bytes(input)).unwrap_or_else(text::refusal)
}

fn plan_text(input: &[u8]) -> Result<String, Refusal> {
    let mut input = Input(input);
    let marks = input.word()?;
    let (start, end) = (input.byte()?, input.byte()?);
    let date = input.date()?;
    let book = book::read(input.0)?;
    if !book.changeovers.has_grade(start) || !book.changeovers.has_grade(end) {
        return Err(Refusal::plain(7));
    }
    let runs = binding::known_runs(&book, Batch { marks, date })?;
    Ok(text::plan(plan::best(&book.changeovers, &runs, start, end).as_ref()))
}

/// 02's board: marks, start, the date, then a book.
pub fn board(input: &[u8]) -> String {
    board_text(first_bytes(input)).unwrap_or_else(text::refusal)
}

fn board_text(input: &[u8]) -> Result<String, Refusal> {
    let mut input = Input(input);
    let marks = input.word()?;
    let start = input.byte()?;
    let date = input.date()?;
    let book = book::read(input.0)?;
    if !book.changeovers.has_grade(start) {
        return Err(Refusal::plain(7));
    }
    let runs = binding::known_runs(&book, Batch { marks, date })?;
    Ok(text::board(&board::ends(&book.changeovers, &runs, start)))
}

/// 02's passes: one book.
pub fn passes(input: &[u8]) -> String {
    match book::read(first_bytes(input)) {
        Ok(book) => text::passes(&passes::counts(&book.changeovers)),
        Err(refused) => text::refusal(refused),
    }
}

/// `check_lineup`: marks, the date, the line-up's length in two bytes, the line-up,
/// the book.
pub fn check_lineup(input: &[u8]) -> String {
    check_text(input).unwrap_or_else(text::refusal)
}

fn check_text(input: &[u8]) -> Result<String, Refusal> {
    let mut input = Input(input);
    let marks = input.word()?;
    let date = input.date()?;
    let length = usize::from(input.word()?);
    let lineup = input.take(length)?;
    let book = input.0;
    let mut runs_area = [0; RUNS_AREA];
    let count = binding::bind(book, Batch { marks, date }, &mut runs_area)?;
    check::check(book, &runs_area, count, lineup).map(text::check)
}

/// `replay`: marks, start, end, the date, the book's length in four bytes, the
/// book, then reports.
pub fn replay(input: &[u8]) -> String {
    replay_text(input).unwrap_or_else(text::refusal)
}

fn replay_text(input: &[u8]) -> Result<String, Refusal> {
    let (mut trials, _, reports) = read_replay(input)?;
    let mut text = trials.text();
    for report in reports {
        text += &trials.report(report);
    }
    Ok(text)
}

/// The trials of an input of `replay`, just begun, their batch, and the reports to make.
pub fn read_replay(input: &[u8]) -> Result<(Trials<'_>, Batch, Vec<Report<'_>>), Refusal> {
    let mut input = Input(input);
    let marks = input.word()?;
    let (start, end) = (input.byte()?, input.byte()?);
    let date = input.date()?;
    let length = input.double_word()? as usize;
    let book = input.take(length)?;
    let batch = Batch { marks, date };
    let trials = Trials::begin(book, batch, start, end)?;
    let reports = std::iter::from_fn(|| input.report().ok()).collect();
    Ok((trials, batch, reports))
}

/// `read_book`: one book.
pub fn read_book(input: &[u8]) -> String {
    match book::read(first_bytes(input)) {
        Ok(book) => text::book(&book),
        Err(refused) => text::refusal(refused),
    }
}

/// 02's `rewrite`: the book that is written from the content of one book.
pub fn rewrite(input: &[u8]) -> Result<Vec<u8>, Refusal> {
    let content = Content::of_book(&book::read(first_bytes(input))?);
    let mut area = vec![0; LONGEST_BOOK];
    let length = writing::write(&content, &mut area).expect("a book that reads can be written");
    area.truncate(length);
    Ok(area)
}

fn first_bytes(input: &[u8]) -> &[u8] {
    &input[..input.len().min(MOST_INPUT)]
}

#[derive(Clone, Copy, Debug, PartialEq, Eq)]
pub enum Report<'a> {
    Passed,
    Failed(&'a [u8]),
}

/// Trials with areas of their own, each of exactly its size.
#[derive(Clone)]
pub struct Trials<'a> {
    pub book: &'a [u8],
    pub record: Record,
    pub runs_area: [u8; RUNS_AREA],
    pub lineup_area: [u8; LINEUP_AREA],
}

impl<'a> Trials<'a> {
    pub fn begin(book: &'a [u8], batch: Batch, start: u8, end: u8) -> Result<Trials<'a>, Refusal> {
        let mut runs_area = [0; RUNS_AREA];
        let mut lineup_area = [0; LINEUP_AREA];
        let record = trials::begin(book, batch, start, end, &mut runs_area, &mut lineup_area)?;
        Ok(Trials { book, record, runs_area, lineup_area })
    }

    /// Makes a report and gives what `replay` prints for it.
    pub fn report(&mut self, report: Report) -> String {
        match self.try_report(report) {
            Ok(()) => self.text(),
            Err(refused) => text::refusal(refused),
        }
    }

    pub fn try_report(&mut self, report: Report) -> Result<(), Refusal> {
        let Trials { book, record, runs_area, lineup_area } = self;
        *record = match report {
            Report::Passed => trials::report_passed(book, *record, runs_area, lineup_area)?,
            Report::Failed(named) => {
                trials::report_failed(book, *record, runs_area, lineup_area, named)?
            }
        };
        Ok(())
    }

    /// The line-up that the record speaks of, empty in stage 2.
    pub fn lineup(&self) -> &[u8] {
        &self.lineup_area[..self.record.length as usize]
    }

    pub fn text(&self) -> String {
        text::record(&self.record, &self.lineup_area)
    }
}

/// What is left of the input.
pub(crate) struct Input<'a>(pub(crate) &'a [u8]);

impl<'a> Input<'a> {
    pub(crate) fn take(&mut self, length: usize) -> Result<&'a [u8], Refusal> {
        if self.0.len() < length {
            return Err(CUT_SHORT);
        }
        let (taken, rest) = self.0.split_at(length);
        self.0 = rest;
        Ok(taken)
    }

    pub(crate) fn byte(&mut self) -> Result<u8, Refusal> {
        Ok(self.take(1)?[0])
    }

    pub(crate) fn word(&mut self) -> Result<u16, Refusal> {
        let bytes = self.take(2)?;
        Ok(u16::from_be_bytes([bytes[0], bytes[1]]))
    }

    /// Day, month, and the year in two bytes.
    pub(crate) fn date(&mut self) -> Result<Date, Refusal> {
        Ok(Date { day: self.byte()?, month: self.byte()?, year: self.word()? })
    }

    pub(crate) fn double_word(&mut self) -> Result<u32, Refusal> {
        let bytes = self.take(4)?;
        Ok(u32::from_be_bytes([bytes[0], bytes[1], bytes[2], bytes[3]]))
    }

    /// Eight bytes, high byte first.
    pub(crate) fn number(&mut self) -> Result<u64, Refusal> {
        Ok(self.take(8)?.iter().fold(0, |number, &byte| number << 8 | u64::from(byte)))
    }

    /// The next report. A report that is cut short, or begins with neither 0
    /// nor 1, ends the list, as the end of input does.
    fn report(&mut self) -> Result<Report<'a>, Refusal> {
        match self.byte()? {
            0 => Ok(Report::Passed),
            1 => {
                let length = usize::from(self.byte()?);
                Ok(Report::Failed(self.take(length)?))
            }
            _ => Err(CUT_SHORT),
        }
    }
}
