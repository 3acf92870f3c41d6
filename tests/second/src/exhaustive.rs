//! Two planners for tiny books that know nothing of automata: one lists every
//! line-up up to a length, the other follows real line-ups best first. They
//! are slow and plain, and the package's tests hold the planner against them.

use crate::book::Run;
use crate::changeovers::Changeovers;
use crate::plan::Plan;
use std::cmp::Reverse;
use std::collections::{BinaryHeap, HashSet};

/// What a plan is chosen by, as one value that compares as 01 says: litres,
/// changeovers, then the first differing grade. Lists of equal length compare
/// by their first difference.
type Rank = (u64, usize, Vec<u8>);

/// A grade that would follow a line-up, and the litres then.
struct Follower {
    litres: u64,
    lineup: Vec<u8>,
}

/// The line-ups one grade longer that avoid the runs, if this one does.
fn followers(litres: u64, lineup: &[u8], changeovers: &Changeovers, runs: &[Run]) -> Vec<Follower> {
    let last = lineup[lineup.len() - 1];
    let mut list = Vec::new();
    for grade in 0..changeovers.grades() as u8 {
        let step = match changeovers.litres(last, grade) {
            Some(step) => step,
            None => continue,
        };
        let mut longer = lineup.to_vec();
        longer.push(grade);
        if !runs.iter().any(|run| longer.ends_with(run)) {
            list.push(Follower { litres: litres + u64::from(step), lineup: longer });
        }
    }
    list
}

/// The best of all line-ups of at most `most` grades, by looking at each one;
/// nothing if there is none among them. Gives up, with an error, when more
/// than `budget` line-ups would have to be looked at.
pub fn best_of_all(
    changeovers: &Changeovers,
    runs: &[Run],
    start: u8,
    end: u8,
    most: usize,
    budget: usize,
) -> Result<Option<Plan>, TooMany> {
    let mut best: Option<Rank> = None;
    let mut open = vec![(0, vec![start])];
    let mut seen = 0;
    while let Some((litres, lineup)) = open.pop() {
        seen += 1;
        if seen > budget {
            return Err(TooMany);
        }
        if lineup.len() < most {
            for next in followers(litres, &lineup, changeovers, runs) {
                open.push((next.litres, next.lineup));
            }
        }
        if lineup[lineup.len() - 1] == end {
            let rank = (litres, lineup.len(), lineup);
            if best.as_ref().map_or(true, |so_far| rank < *so_far) {
                best = Some(rank);
            }
        }
    }
    Ok(best.map(|(litres, _, lineup)| Plan { litres, lineup }))
}

/// More line-ups than the budget allows.
#[derive(Debug)]
pub struct TooMany;

/// The best line-up of any length, best first.
pub fn best_first(changeovers: &Changeovers, runs: &[Run], start: u8, end: u8) -> Option<Plan> {
    let mut found = None;
    follow(changeovers, runs, start, |litres, lineup| {
        if lineup.last() == Some(&end) {
            found = Some(Plan { litres, lineup: lineup.to_vec() });
        }
        found.is_none()
    });
    found
}

/// For each grade the best line-up to it, in one go: the first that comes there.
pub fn ends_first(changeovers: &Changeovers, runs: &[Run], start: u8) -> Vec<Option<Plan>> {
    let mut found: Vec<Option<Plan>> = vec![None; changeovers.grades()];
    follow(changeovers, runs, start, |litres, lineup| {
        let last = usize::from(lineup[lineup.len() - 1]);
        found[last].get_or_insert_with(|| Plan { litres, lineup: lineup.to_vec() });
        found.contains(&None)
    });
    found
}

/// Follows the line-ups from the start best first, as long as the visitor says. A
/// line-up is dropped if a better one with the same last grades was followed
/// before, as many grades as a run may have before its last: the two can be
/// continued in the same ways.
fn follow(
    changeovers: &Changeovers,
    runs: &[Run],
    start: u8,
    mut visit: impl FnMut(u64, &[u8]) -> bool,
) {
    let memory = runs.iter().map(|run| run.len() - 1).max().unwrap_or(1);
    let mut queue: BinaryHeap<Reverse<Rank>> = BinaryHeap::new();
    let mut followed = HashSet::new();
    queue.push(Reverse((0, 1, vec![start])));
    while let Some(Reverse((litres, length, lineup))) = queue.pop() {
        if !visit(litres, &lineup) {
            return;
        }
        let remembered = lineup[length.saturating_sub(memory)..].to_vec();
        if followed.insert(remembered) {
            for next in followers(litres, &lineup, changeovers, runs) {
                queue.push(Reverse((next.litres, length + 1, next.lineup)));
            }
        }
    }
}

/// The bound of 01 on a plan's grades, for these runs: a plan never comes back
/// to the same longest ending that is a single grade or begins a run.
pub fn most_grades(grades: usize, runs: &[Run]) -> usize {
    grades + runs.iter().map(|run| run.len() - 2).sum::<usize>()
}
