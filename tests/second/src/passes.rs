//! Passes over the whole book: 02, order 3. Distances without known runs from
//! all grades to an end, each pass worked out from the table that the one before
//! it left, and how many passes that takes.

use crate::board;
use crate::changeovers::{Changeover, Changeovers};

/// Litres, then changeovers; none if no way is found yet.
pub type Distance = Option<(u64, usize)>;

/// The passes to each end in rising order, and the most changeovers of a plan
/// between any two grades.
#[derive(Clone, Debug, PartialEq, Eq)]
pub struct Counts {
    pub passes: Vec<usize>,
    pub most: usize,
}

impl Counts {
    /// 02's bound: at most one pass more than the most changeovers.
    pub fn is_over(&self, passes: usize) -> bool {
        passes > self.most + 1
    }
}

pub fn counts(changeovers: &Changeovers) -> Counts {
    let ends = 0..changeovers.grades() as u8;
    let passes = ends.map(|end| tables(changeovers, end).len() - 1).collect();
    Counts { passes, most: most_changes(changeovers) }
}

/// The table before the first pass, and after each up to the one that changes no
/// entry. Before the first it has 0 at the end and none at the other grades.
pub fn tables(changeovers: &Changeovers, end: u8) -> Vec<Vec<Distance>> {
    let items = changeovers.list();
    let mut table = vec![None; changeovers.grades()];
    table[usize::from(end)] = Some((0, 0));
    let mut tables = Vec::new();
    loop {
        let next = pass(&items, &table);
        let settled = next == table;
        tables.push(table);
        table = next;
        if settled {
            tables.push(table);
            return tables;
        }
    }
}

/// Each entry the least of its old one and, over the grade's changeovers, the other
/// grade's old one with that changeover before it.
fn pass(items: &[Changeover], table: &[Distance]) -> Vec<Distance> {
    let mut next = table.to_vec();
    for item in items {
        if let Some((litres, changes)) = table[usize::from(item.to)] {
            let through = (litres + u64::from(item.litres), changes + 1);
            let entry = &mut next[usize::from(item.from)];
            if entry.map_or(true, |least| through < least) {
                *entry = Some(through);
            }
        }
    }
    next
}

/// By single plans without known runs, over the pairs that have one.
fn most_changes(changeovers: &Changeovers) -> usize {
    let starts = 0..changeovers.grades() as u8;
    let plans = starts.flat_map(|start| board::ends(changeovers, &[], start)).flatten();
    plans.map(|plan| plan.changes).max().unwrap_or(0)
}
