//! Every end from one start: 02, order 1. The planner has no working-out of its
//! own for it: each entry is what a single plan to that grade says.

use crate::binding::{self, RUNS_AREA};
use crate::book::{self, Run};
use crate::changeovers::Changeovers;
use crate::plan::{self, Answer, Known};
use crate::refusal::Refusal;

/// The numbers of an entry: litres, then changeovers.
pub const ENTRY: usize = 2;

/// Stands in both numbers of an entry for none.
pub const NO_END: u32 = u32::MAX;

/// For each grade what the plan from the start to it says, in rising order. The
/// start is below the count.
pub fn ends(changeovers: &Changeovers, runs: &[Run], start: u8) -> Vec<Option<Answer>> {
    let answer = |end: u8| -> Option<Answer> {
        let plan = plan::best(changeovers, runs, start, end)?;
        Some(Answer { litres: plan.litres, changes: plan.changes() })
    };
    (0..changeovers.grades() as u8).map(answer).collect()
}

/// Fills the front of a lent table with an entry a grade and gives the count of
/// grades. The numbers after them keep what they had.
pub fn fill(bytes: &[u8], known: Known, start: u8, table: &mut [u32]) -> Result<usize, Refusal> {
    let book = book::read(bytes)?;
    let grades = book.grades();
    if known.area.len() < RUNS_AREA || table.len() < ENTRY * grades {
        return Err(Refusal::plain(8));
    }
    if !book.changeovers.has_grade(start) {
        return Err(Refusal::plain(7));
    }
    let runs = binding::read_area(known.area, known.count, grades)?;
    let ends = ends(&book.changeovers, &runs, start);
    for (place, end) in table.chunks_exact_mut(ENTRY).zip(ends) {
        place.copy_from_slice(&entry(end));
    }
    Ok(grades)
}

/// A plan has fewer than 1,600 changeovers of at most 1,000,000 litres, so both
/// numbers lie below that of none.
fn entry(end: Option<Answer>) -> [u32; ENTRY] {
    match end {
        None => [NO_END; ENTRY],
        Some(Answer { litres, changes }) => [litres as u32, changes as u32],
    }
}
