//! Trials: 01, "Trials", with refusals 8, 7, 15, 9, 11, 16, 17, 12 and 13. 16 and 17 are
//! those of 02, order 5.

use crate::binding::{self, Batch, MOST_KNOWN, RUNS_AREA};
use crate::book::{self, Book, Run, LONGEST_RUN, SHORTEST_RUN};
use crate::check;
use crate::plan::{self, Plan, LINEUP_AREA};
use crate::refusal::Refusal;

pub const STANDS: u64 = 0;
pub const PASSED: u64 = 1;
pub const NONE: u64 = 2;

#[derive(Clone, Copy, Debug, PartialEq, Eq)]
pub struct Record {
    pub stage: u64,
    pub start: u8,
    pub end: u8,
    pub known: u64,
    pub known_at_start: u64,
    pub failed: u64,
    pub passed: u64,
    pub litres: u64,
    pub length: u64,
}

/// Begins trials: binds, plans, and hands back the first record.
pub fn begin(
    bytes: &[u8],
    batch: Batch,
    start: u8,
    end: u8,
    runs_area: &mut [u8],
    lineup_area: &mut [u8],
) -> Result<Record, Refusal> {
    let book = book::read(bytes)?;
    judge_areas(runs_area, lineup_area)?;
    if !book.changeovers.has_grade(start) || !book.changeovers.has_grade(end) {
        return Err(Refusal::plain(7));
    }
    let runs = binding::known_runs(&book, batch)?;
    binding::write_area(&runs, runs_area);
    let known = runs.len() as u64;
    let begun = Record {
        stage: STANDS,
        start,
        end,
        known,
        known_at_start: known,
        failed: 0,
        passed: 0,
        litres: 0,
        length: 0,
    };
    Ok(begun.with_plan(plan::best(&book.changeovers, &runs, start, end), lineup_area))
}

/// Reports that the standing line-up passed.
pub fn report_passed(
    bytes: &[u8],
    record: Record,
    runs_area: &[u8],
    lineup_area: &[u8],
) -> Result<Record, Refusal> {
    judge_report(bytes, &record, runs_area, lineup_area)?;
    Ok(Record { stage: PASSED, passed: 1, ..record })
}

/// Reports that the standing line-up failed, naming a run of it.
pub fn report_failed(
    bytes: &[u8],
    record: Record,
    runs_area: &mut [u8],
    lineup_area: &mut [u8],
    named: &[u8],
) -> Result<Record, Refusal> {
    let (book, mut runs) = judge_report(bytes, &record, runs_area, lineup_area)?;
    judge_named(named, &book, &lineup_area[..record.length as usize])?;
    if runs.len() == MOST_KNOWN {
        return Err(Refusal::plain(13));
    }
    binding::write_entry(runs.len(), named, runs_area);
    runs.push(named.to_vec());
    let grown = Record { known: record.known + 1, failed: record.failed + 1, ..record };
    let anew = plan::best(&book.changeovers, &runs, record.start, record.end);
    Ok(grown.with_plan(anew, lineup_area))
}

impl Record {
    /// The record with a new plan, which it writes to the area, or with none.
    fn with_plan(self, plan: Option<Plan>, lineup_area: &mut [u8]) -> Record {
        match plan {
            None => Record { stage: NONE, litres: 0, length: 0, ..self },
            Some(plan) => {
                plan::write_lineup(&plan, lineup_area);
                let length = plan.lineup.len() as u64;
                Record { stage: STANDS, litres: plan.litres, length, ..self }
            }
        }
    }

    pub fn trials(&self) -> u64 {
        self.failed + self.passed
    }
}

/// What every report is refused for: 1 to 6, 8, 9, then 11.
fn judge_report(
    bytes: &[u8],
    record: &Record,
    runs_area: &[u8],
    lineup_area: &[u8],
) -> Result<(Book, Vec<Run>), Refusal> {
    let book = book::read(bytes)?;
    judge_areas(runs_area, lineup_area)?;
    let count = usize::try_from(record.known).unwrap_or(usize::MAX);
    let runs = binding::read_area(runs_area, count, book.grades())?;
    if !record_holds(record, &book, &runs, lineup_area) {
        return Err(Refusal::plain(9));
    }
    if record.stage != STANDS {
        return Err(Refusal::plain(11));
    }
    Ok((book, runs))
}

/// What a named run is refused for: 16, 17, then 12.
fn judge_named(named: &[u8], book: &Book, lineup: &[u8]) -> Result<(), Refusal> {
    if !(SHORTEST_RUN..=LONGEST_RUN).contains(&named.len()) {
        return Err(Refusal::plain(16));
    }
    if !book::run_has_good_grades(named, book.grades()) {
        return Err(Refusal::plain(17));
    }
    if !check::stands_in(named, lineup) {
        return Err(Refusal::plain(12));
    }
    Ok(())
}

fn judge_areas(runs_area: &[u8], lineup_area: &[u8]) -> Result<(), Refusal> {
    if runs_area.len() < RUNS_AREA || lineup_area.len() < LINEUP_AREA {
        return Err(Refusal::plain(8));
    }
    Ok(())
}

/// Refusal 9 for a record, once the known runs are in order.
fn record_holds(record: &Record, book: &Book, runs: &[Run], lineup_area: &[u8]) -> bool {
    let grades = &book.changeovers;
    record.stage <= NONE
        && grades.has_grade(record.start)
        && grades.has_grade(record.end)
        && record.known_at_start.checked_add(record.failed) == Some(record.known)
        && record.passed == u64::from(record.stage == PASSED)
        && record.length <= LINEUP_AREA as u64
        && if record.stage == NONE {
            record.length == 0 && record.litres == 0
        } else {
            lineup_holds(record, book, runs, &lineup_area[..record.length as usize])
        }
}

/// A line-up from start to end, clear of the known runs, with those litres. It
/// need not be the least.
fn lineup_holds(record: &Record, book: &Book, runs: &[Run], lineup: &[u8]) -> bool {
    lineup.first() == Some(&record.start)
        && lineup.last() == Some(&record.end)
        && book.changeovers.lineup_litres(lineup) == Some(record.litres)
        && check::first_run(lineup, runs).is_none()
}
