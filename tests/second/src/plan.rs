//! Planning: 01, "Planning" and the list form of "After the trials' needs".
//!
//! The states of an Aho-Corasick automaton over the known runs, joined with
//! the changeovers, make a graph whose ways are just the line-ups that avoid
//! every known run. Dijkstra's search from the end gives each state its least
//! cost (litres, then changeovers) to the end. The walk from the start then
//! takes the lowest grade that stays on a least way.

use crate::binding::{self, RUNS_AREA};
use crate::book::{self, Run};
use crate::changeovers::{Changeover, Changeovers};
use crate::refusal::Refusal;
use std::cmp::Reverse;
use std::collections::BinaryHeap;

/// The most grades of a plan, and the size of the line-up area.
pub const LINEUP_AREA: usize = 1_600;

#[derive(Clone, Debug, PartialEq, Eq)]
pub struct Plan {
    pub litres: u64,
    pub lineup: Vec<u8>,
}

impl Plan {
    pub fn changes(&self) -> usize {
        self.lineup.len() - 1
    }
}

/// The answer of planning: the line-up itself stands in the line-up area.
#[derive(Clone, Copy, Debug, PartialEq, Eq)]
pub struct Answer {
    pub litres: u64,
    pub changes: usize,
}

/// The known runs as a call takes them: area and count.
#[derive(Clone, Copy)]
pub struct Known<'a> {
    pub area: &'a [u8],
    pub count: usize,
}

/// Plans from a book. No answer is 01's none.
pub fn plan(
    bytes: &[u8],
    known: Known,
    start: u8,
    end: u8,
    lineup_area: &mut [u8],
) -> Result<Option<Answer>, Refusal> {
    let book = book::read(bytes)?;
    plan_over(&book.changeovers, known, start, end, lineup_area)
}

/// Plans from a count of grades and a list of changeovers.
pub fn plan_list(
    grades: usize,
    items: &[Changeover],
    known: Known,
    start: u8,
    end: u8,
    lineup_area: &mut [u8],
) -> Result<Option<Answer>, Refusal> {
    let mut changeovers = Changeovers::new(grades).map_err(|number| Refusal::at(number, 0))?;
    for (index, &item) in items.iter().enumerate() {
        changeovers.add(item).map_err(|number| Refusal::at(number, index))?;
    }
    plan_over(&changeovers, known, start, end, lineup_area)
}

/// What both forms of planning share: refusals 8, 7, 9, then the plan.
fn plan_over(
    changeovers: &Changeovers,
    known: Known,
    start: u8,
    end: u8,
    lineup_area: &mut [u8],
) -> Result<Option<Answer>, Refusal> {
    if lineup_area.len() < LINEUP_AREA || known.area.len() < RUNS_AREA {
        return Err(Refusal::plain(8));
    }
    if !changeovers.has_grade(start) || !changeovers.has_grade(end) {
        return Err(Refusal::plain(7));
    }
    let runs = binding::read_area(known.area, known.count, changeovers.grades())?;
    Ok(best(changeovers, &runs, start, end).map(|plan| {
        write_lineup(&plan, lineup_area);
        Answer { litres: plan.litres, changes: plan.changes() }
    }))
}

/// Writes the plan's grades; the bytes after them keep what they had.
pub fn write_lineup(plan: &Plan, lineup_area: &mut [u8]) {
    lineup_area[..plan.lineup.len()].copy_from_slice(&plan.lineup);
}

/// The best line-up from start to end, both below the count, that avoids every
/// run. The runs need not be simple, nor their pairs changeovers.
pub fn best(changeovers: &Changeovers, runs: &[Run], start: u8, end: u8) -> Option<Plan> {
    let automaton = Automaton::new(changeovers.grades(), runs);
    let costs = costs_to(end, &automaton, changeovers);
    let first = automaton.of_grade(start);
    if costs[first] == UNREACHED {
        return None;
    }
    let lineup = walk(first, end, &costs, &automaton, changeovers);
    Some(Plan { litres: costs[first] / LITRE, lineup })
}

/// A cost in one number: litres first, then changeovers, of which a least way
/// has fewer than 1,600.
const CHANGE: u64 = 1;
const LITRE: u64 = 1 << 12;
const UNREACHED: u64 = u64::MAX;

/// The least cost from every state to the end grade.
fn costs_to(end: u8, automaton: &Automaton, changeovers: &Changeovers) -> Vec<u64> {
    let steps = StepsInto::new(automaton, changeovers);
    let mut costs = vec![UNREACHED; automaton.states()];
    let mut queue = BinaryHeap::new();
    for state in automaton.live_states().filter(|&state| automaton.last[state] == end) {
        costs[state] = 0;
        queue.push(Reverse((0, state as u16)));
    }
    while let Some(Reverse((cost, state))) = queue.pop() {
        if cost > costs[usize::from(state)] {
            continue;
        }
        for &(before, step) in steps.leading_to(usize::from(state)) {
            let through = cost + step;
            if through < costs[usize::from(before)] {
                costs[usize::from(before)] = through;
                queue.push(Reverse((through, before)));
            }
        }
    }
    costs
}

/// From the first state to the end, the lowest grade on a least way each time.
/// Every step lowers the cost by at least one changeover, so the walk ends.
fn walk(
    first: usize,
    end: u8,
    costs: &[u64],
    automaton: &Automaton,
    changeovers: &Changeovers,
) -> Vec<u8> {
    let mut state = first;
    let mut lineup = vec![automaton.last[state]];
    while automaton.last[state] != end {
        let usable = |&grade: &u8| -> bool {
            let next = automaton.step(state, grade);
            // The first test keeps the addition in bounds.
            costs[next] < costs[state]
                && step_cost(automaton, changeovers, state, grade)
                    .map_or(false, |step| costs[next] + step == costs[state])
        };
        let grade = (0..automaton.grades as u8).find(usable);
        let grade = grade.expect("a state with a cost has a step on a least way");
        state = automaton.step(state, grade);
        lineup.push(grade);
    }
    lineup
}

/// The cost of following a state by a grade: nothing if that is no changeover
/// or completes a run.
fn step_cost(
    automaton: &Automaton,
    changeovers: &Changeovers,
    state: usize,
    grade: u8,
) -> Option<u64> {
    let litres = changeovers.litres(automaton.last[state], grade)?;
    let allowed = !automaton.dead[automaton.step(state, grade)];
    allowed.then(|| u64::from(litres) * LITRE + CHANGE)
}

/// The steps between live states, grouped by the state that they lead into.
struct StepsInto {
    starts: Vec<usize>,
    steps: Vec<(u16, u64)>,
}

impl StepsInto {
    fn new(automaton: &Automaton, changeovers: &Changeovers) -> StepsInto {
        let mut starts = vec![0; automaton.states() + 1];
        each_step(automaton, changeovers, |_, next, _| starts[next + 1] += 1);
        for i in 1..starts.len() {
            starts[i] += starts[i - 1];
        }
        let mut free = starts.clone();
        let mut steps = vec![(0, 0); starts[automaton.states()]];
        each_step(automaton, changeovers, |state, next, cost| {
            steps[free[next]] = (state as u16, cost);
            free[next] += 1;
        });
        StepsInto { starts, steps }
    }

    fn leading_to(&self, state: usize) -> &[(u16, u64)] {
        &self.steps[self.starts[state]..self.starts[state + 1]]
    }
}

fn each_step(
    automaton: &Automaton,
    changeovers: &Changeovers,
    mut act: impl FnMut(usize, usize, u64),
) {
    for state in automaton.live_states() {
        for grade in 0..automaton.grades as u8 {
            if let Some(cost) = step_cost(automaton, changeovers, state, grade) {
                act(state, automaton.step(state, grade), cost);
            }
        }
    }
}

/// The Aho-Corasick automaton of the runs. State 0 is the empty list; states 1
/// to the count are the single grades, whether a run begins with them or not;
/// the others are the longer beginnings of runs.
struct Automaton {
    grades: usize,
    /// The state after a state and a grade, a row of grades for each state.
    next: Vec<u16>,
    /// The last grade of each state.
    last: Vec<u8>,
    /// States whose list ends with a whole run.
    dead: Vec<bool>,
}

/// Stands in `next` for a child that the trie lacks; state 0 is nobody's child.
const NO_CHILD: u16 = 0;

impl Automaton {
    fn new(grades: usize, runs: &[Run]) -> Automaton {
        let mut automaton =
            Automaton { grades, next: Vec::new(), last: Vec::new(), dead: Vec::new() };
        automaton.add_state(0);
        for grade in 0..grades as u8 {
            automaton.child(0, grade);
        }
        for run in runs {
            let state = run.iter().fold(0, |state, &grade| automaton.child(state, grade));
            automaton.dead[state] = true;
        }
        automaton.join_failures();
        automaton
    }

    fn add_state(&mut self, last: u8) -> usize {
        self.next.resize(self.next.len() + self.grades, NO_CHILD);
        self.last.push(last);
        self.dead.push(false);
        self.last.len() - 1
    }

    fn child(&mut self, state: usize, grade: u8) -> usize {
        if self.step(state, grade) == usize::from(NO_CHILD) {
            let child = self.add_state(grade);
            self.next[state * self.grades + usize::from(grade)] = child as u16;
        }
        self.step(state, grade)
    }

    /// Completes the trie, shorter lists first: where a child is missing, the
    /// step is that of the longest shorter ending that is a state.
    fn join_failures(&mut self) {
        let mut order: Vec<usize> = (1..=self.grades).collect();
        let mut failure = vec![0; self.states()];
        let mut done = 0;
        while done < order.len() {
            let state = order[done];
            done += 1;
            self.dead[state] |= self.dead[failure[state]];
            for grade in 0..self.grades {
                let shorter = self.next[failure[state] * self.grades + grade];
                let cell = &mut self.next[state * self.grades + grade];
                if *cell == NO_CHILD {
                    *cell = shorter;
                } else {
                    failure[usize::from(*cell)] = usize::from(shorter);
                    order.push(usize::from(*cell));
                }
            }
        }
    }

    fn states(&self) -> usize {
        self.last.len()
    }

    fn of_grade(&self, grade: u8) -> usize {
        self.step(0, grade)
    }

    fn step(&self, state: usize, grade: u8) -> usize {
        usize::from(self.next[state * self.grades + usize::from(grade)])
    }

    /// The states that end with no whole run.
    fn live_states(&self) -> impl Iterator<Item = usize> + '_ {
        (1..self.states()).filter(|&state| !self.dead[state])
    }
}
