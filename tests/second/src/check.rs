//! The check of a line-up: 01, "Checking a line-up".

use crate::binding::{self, RUNS_AREA};
use crate::book::{self, Run};
use crate::plan::LINEUP_AREA;
use crate::refusal::Refusal;

/// A known run in a line-up: the index of its first grade, and its length.
#[derive(Clone, Copy, Debug, PartialEq, Eq)]
pub struct Found {
    pub place: usize,
    pub length: usize,
}

/// Checks a line-up: nothing if it is clear. The runs area is judged by 8, the
/// line-up itself is a list and no area.
pub fn check(
    bytes: &[u8],
    area: &[u8],
    count: usize,
    lineup: &[u8],
) -> Result<Option<Found>, Refusal> {
    let book = book::read(bytes)?;
    if area.len() < RUNS_AREA {
        return Err(Refusal::plain(8));
    }
    let known = binding::read_area(area, count, book.grades())?;
    let acceptable =
        lineup.len() <= LINEUP_AREA && book.changeovers.lineup_litres(lineup).is_some();
    if !acceptable {
        return Err(Refusal::plain(10));
    }
    Ok(first_run(lineup, &known))
}

/// The run that ends earliest; of runs with that end, the shortest.
pub fn first_run(lineup: &[u8], known: &[Run]) -> Option<Found> {
    for end in 1..=lineup.len() {
        let ending_here = known.iter().filter(|run| lineup[..end].ends_with(run));
        if let Some(length) = ending_here.map(Vec::len).min() {
            return Some(Found { place: end - length, length });
        }
    }
    None
}

/// Whether the list stands in the line-up as consecutive grades.
pub fn stands_in(run: &[u8], lineup: &[u8]) -> bool {
    !run.is_empty() && lineup.windows(run.len()).any(|part| part == run)
}
