//! Single calls with any record, and areas of any length and content: their
//! input, and what the kinds `any_...` print.

use crate::binding::{self, Batch};
use crate::check;
use crate::plan::{self, Answer, Known};
use crate::programs::{Input, CUT_SHORT};
use crate::refusal::Refusal;
use crate::text;
use crate::trials::{self, Record};
use std::fmt::Display;

/// As many bytes as an area of a case may have.
pub const MOST_AREA: usize = 4_096;

#[derive(Clone, Copy, Debug, PartialEq, Eq)]
pub enum Call {
    Bind,
    Check,
    Plan,
    Begin,
    Passed,
    Failed,
}

/// All that a call may take; each takes what 01 and 02 say. The count of known runs,
/// start and end are the record's, and the list is the line-up to check or the
/// named run.
#[derive(Clone, Debug, PartialEq, Eq)]
pub struct Case {
    pub record: Record,
    pub batch: Batch,
    pub runs: Vec<u8>,
    pub lineup: Vec<u8>,
    pub list: Vec<u8>,
    pub book: Vec<u8>,
}

impl Case {
    pub fn bytes(&self) -> Vec<u8> {
        let record = &self.record;
        let (runs, lineup) = (given(&self.runs), given(&self.lineup));
        let mut bytes = record.stage.to_be_bytes().to_vec();
        bytes.extend([record.start, record.end]);
        for number in [
            record.known,
            record.known_at_start,
            record.failed,
            record.passed,
            record.litres,
            record.length,
        ] {
            bytes.extend(number.to_be_bytes());
        }
        bytes.extend(self.batch.marks.to_be_bytes());
        for (area, given) in [(&self.runs, runs), (&self.lineup, lineup)] {
            bytes.extend(lengths(area, given));
            bytes.push(area.last().copied().unwrap_or(0));
        }
        bytes.extend((self.list.len() as u16).to_be_bytes());
        bytes.extend(self.batch.date.bytes());
        bytes.extend([runs, lineup, &self.list, &self.book].concat());
        bytes
    }

    pub fn read(input: &[u8]) -> Result<Case, Refusal> {
        let mut input = Input(input);
        let record = Record {
            stage: input.number()?,
            start: input.byte()?,
            end: input.byte()?,
            known: input.number()?,
            known_at_start: input.number()?,
            failed: input.number()?,
            passed: input.number()?,
            litres: input.number()?,
            length: input.number()?,
        };
        let marks = input.word()?;
        let runs = AreaHead::read(&mut input)?;
        let lineup = AreaHead::read(&mut input)?;
        let list = usize::from(input.word()?);
        let date = input.date()?;
        Ok(Case {
            record,
            batch: Batch { marks, date },
            runs: runs.area(&mut input)?,
            lineup: lineup.area(&mut input)?,
            list: input.take(list)?.to_vec(),
            book: input.0.to_vec(),
        })
    }

    /// Makes the call: what it prints, and then each byte that it changed.
    pub fn make(&self, call: Call) -> String {
        let (mut runs, mut lineup) = (self.runs.clone(), self.lineup.clone());
        let answer = self.answer(call, &mut runs, &mut lineup);
        let answer = answer.unwrap_or_else(|refused| self.refused(call, refused));
        answer + &changes("RUNS", &self.runs, &runs) + &changes("LINEUP", &self.lineup, &lineup)
    }

    fn answer(&self, call: Call, runs: &mut [u8], lineup: &mut [u8]) -> Result<String, Refusal> {
        let Case { record, batch, list, book, .. } = self;
        let Record { start, end, .. } = *record;
        let count = usize::try_from(record.known).unwrap_or(usize::MAX);
        match call {
            Call::Bind => binding::bind(book, *batch, runs).map(|count| format!("KNOWN {count}\n")),
            Call::Check => check::check(book, runs, count, list).map(text::check),
            Call::Plan => {
                let answer = plan::plan(book, Known { area: runs, count }, start, end, lineup)?;
                Ok(planned(answer, lineup))
            }
            Call::Begin => trials::begin(book, *batch, start, end, runs, lineup)
                .map(|record| text::record(&record, lineup)),
            Call::Passed => trials::report_passed(book, *record, runs, lineup)
                .map(|record| text::record(&record, lineup)),
            Call::Failed => trials::report_failed(book, *record, runs, lineup, list)
                .map(|record| text::record(&record, lineup)),
        }
    }

    /// A refused report hands the record back as it came.
    fn refused(&self, call: Call, refused: Refusal) -> String {
        match call {
            Call::Passed | Call::Failed => text::refusal(refused) + &text::fields(&self.record),
            _ => text::refusal(refused),
        }
    }
}

/// What a kind prints for an input.
pub fn run(call: Call, input: &[u8]) -> String {
    Case::read(input).map_or_else(text::refusal, |case| case.make(call))
}

fn planned(answer: Option<Answer>, lineup: &[u8]) -> String {
    match answer {
        None => text::plan(None),
        Some(Answer { litres, changes }) => {
            text::plan(Some(&plan::Plan { litres, lineup: lineup[..=changes].to_vec() }))
        }
    }
}

/// A line for each item of an area that changed.
pub(crate) fn changes<T: PartialEq + Display>(name: &str, before: &[T], after: &[T]) -> String {
    let places = before.iter().zip(after).enumerate();
    places
        .filter(|(_, (was, is))| was != is)
        .map(|(place, (was, is))| format!("{name} {place} {was} {is}\n"))
        .collect()
}

/// An area without the items at its end that are all equal.
pub(crate) fn given<T: PartialEq>(area: &[T]) -> &[T] {
    let last = area.last();
    let more = area.iter().rev().take_while(|&item| Some(item) == last).count();
    &area[..area.len() - more]
}

/// How many items of an area are given, and how many more it has.
pub(crate) fn lengths<T>(area: &[T], given: &[T]) -> Vec<u8> {
    let more = area.len() - given.len();
    [given.len() as u16, more as u16].iter().flat_map(|length| length.to_be_bytes()).collect()
}

/// How an input tells an area: so many bytes that it gives, and after them so
/// many of one value.
pub(crate) struct AreaHead {
    given: usize,
    more: usize,
    value: u8,
}

impl AreaHead {
    pub(crate) fn read(input: &mut Input) -> Result<AreaHead, Refusal> {
        let (given, more) = (usize::from(input.word()?), usize::from(input.word()?));
        let value = input.byte()?;
        if given + more > MOST_AREA {
            return Err(CUT_SHORT);
        }
        Ok(AreaHead { given, more, value })
    }

    pub(crate) fn area(&self, input: &mut Input) -> Result<Vec<u8>, Refusal> {
        let mut area = input.take(self.given)?.to_vec();
        area.resize(self.given + self.more, self.value);
        Ok(area)
    }
}
