//! Random books that keep 01's rules, deterministic by the random numbers.

use crate::binding::{self, Batch};
use crate::book::{self, Book, Run, LONGEST_RUN, SHORTEST_RUN};
use crate::changeovers::{Changeover, Changeovers, MOST_LITRES};
use crate::draft::Draft;
use crate::plan;
use crate::random::Random;
use std::collections::BTreeSet;

/// How many of each a random book has.
#[derive(Clone, Copy, Debug)]
pub struct Size {
    pub grades: usize,
    pub changeovers: usize,
    pub sheets: usize,
    pub runs: usize,
}

/// A few grades, dense with changeovers and overlapping runs.
pub fn tiny(random: &mut Random) -> Draft {
    let grades = random.pick(&[1, 2, 3, 3, 4, 4, 4, 5, 5, 5, 5]);
    let sheets = random.pick(&[0, 1, 1, 2, 2, 3]);
    let runs = random.pick(&[0, 1, 2, 3, 4, 6, 9, 14]);
    let changeovers = some_pairs(random, grades);
    book_of_size(random, Size { grades, changeovers, sheets, runs })
}

/// More grades than a tiny book, with runs enough to matter.
pub fn small(random: &mut Random) -> Draft {
    let grades = random.between(4, 12);
    let changeovers = random.between(grades, 3 * grades).min(pairs(grades));
    let sheets = random.between(1, 5);
    let runs = random.between(0, 25);
    book_of_size(random, Size { grades, changeovers, sheets, runs })
}

/// 30 grades with 300 changeovers and 20 runs.
pub fn typical(random: &mut Random) -> Draft {
    book_of_size(random, Size { grades: 30, changeovers: 300, sheets: 4, runs: 20 })
}

/// A book with as many fields as it may have: 64 grades, all 4,032 changeovers, 16
/// sheets and 256 runs of 8. Litres are any, and the runs all differ. The sheets have
/// no windows; with a window each, the book is the longest.
pub fn largest(random: &mut Random) -> Draft {
    let litres: Vec<u32> = (0..=MOST_LITRES).step_by(997).collect();
    let items = random_changeovers(random, 64, pairs(64), &litres);
    let mut runs: Vec<Run> = Vec::new();
    while runs.len() < 256 {
        let run = any_grades(random, 64, LONGEST_RUN);
        if !runs.contains(&run) {
            runs.push(run);
        }
    }
    sheets_of_16(Draft::new(64).changeovers(&items), &runs)
}

/// All runs in sheets of 16 that bind every batch, on every date.
pub fn sheets_of_16(draft: Draft, runs: &[Run]) -> Draft {
    runs.chunks(16).fold(draft, |draft, part| draft.sheet(0).runs(part))
}

pub fn pairs(grades: usize) -> usize {
    grades * (grades - 1)
}

fn every_pair(grades: u8) -> Vec<(u8, u8)> {
    let tos = |from: u8| (0..grades).filter(move |&to| to != from);
    (0..grades).flat_map(|from| tos(from).map(move |to| (from, to))).collect()
}

/// Any number of the pairs; often few, so that plans go round.
fn some_pairs(random: &mut Random, grades: usize) -> usize {
    let all = pairs(grades);
    match random.below(4) {
        0 => random.between(0, all),
        1 => all,
        _ => random.between(grades, 2 * grades).min(all),
    }
}

pub fn book_of_size(random: &mut Random, size: Size) -> Draft {
    let litres = litres_to_pick(random);
    let items = random_changeovers(random, size.grades, size.changeovers, &litres);
    let draft = Draft::new(size.grades as u8).changeovers(&items);
    let runs = random_runs(random, size.grades, &items, size.runs);
    in_sheets(random, draft, &runs, size.sheets)
}

/// The litres of a book come from a short list, so that ties are many.
fn litres_to_pick(random: &mut Random) -> Vec<u32> {
    match random.below(8) {
        0 => vec![0],
        1 => vec![1],
        2 => vec![0, 1],
        3 => vec![100, 100, 100, 200],
        4 => vec![0, 0, 1, 2, 3],
        5 => vec![1, 1, 10, 100],
        6 => vec![0, 1, MOST_LITRES - 1, MOST_LITRES],
        _ => (0..50).map(|_| random.below(MOST_LITRES as usize + 1) as u32).collect(),
    }
}

/// So many different pairs, in any order.
pub fn random_changeovers(
    random: &mut Random,
    grades: usize,
    count: usize,
    litres: &[u32],
) -> Vec<Changeover> {
    let mut pairs = every_pair(grades as u8);
    random.shuffle(&mut pairs);
    pairs.truncate(count);
    let item = |(from, to)| Changeover { from, to, litres: random.pick(litres) };
    pairs.into_iter().map(item).collect()
}

/// Spreads the runs over the sheets in order; without a sheet there are none.
fn in_sheets(random: &mut Random, mut draft: Draft, runs: &[Run], sheets: usize) -> Draft {
    let mut left = runs;
    for sheet in 0..sheets {
        let here = if sheet + 1 == sheets { left.len() } else { random.below(left.len() + 1) };
        let (mine, rest) = left.split_at(here);
        draft = draft.sheet(sheet_marks(random)).runs(mine);
        left = rest;
    }
    draft
}

fn sheet_marks(random: &mut Random) -> u16 {
    random.pick(&[0, 0, 1, 1, 2, 2, 3, 4, 0x100, 0x8000, 0x8001])
}

/// Marks of a batch that bind some sheets and leave others out.
pub fn batch_marks(random: &mut Random) -> u16 {
    random.pick(&[0, 1, 2, 3, 3, 3, 7, 0x100, 0x8001, 0x8003, 0xfffe, 0xffff, 0xffff, 0xffff])
}

/// Runs that overlap: ways along changeovers, any lists, and lists that begin,
/// end, go on or repeat where an earlier one did.
pub fn random_runs(
    random: &mut Random,
    grades: usize,
    items: &[Changeover],
    count: usize,
) -> Vec<Run> {
    let mut runs: Vec<Run> = Vec::new();
    while runs.len() < count {
        let run = match random.below(6) {
            0 => random_list(random, grades),
            1 | 2 if !runs.is_empty() => related_run(random, grades, &runs),
            _ => random_way(random, items),
        };
        let good = book::is_run(&run, grades);
        runs.push(if good { run } else { random_list(random, grades) });
    }
    runs
}

/// Half of the lists have different grades, if there are enough.
fn random_list(random: &mut Random, grades: usize) -> Run {
    let length = random.between(SHORTEST_RUN, LONGEST_RUN.min(grades + 2));
    if length > grades || random.chance(50) {
        return any_grades(random, grades, length);
    }
    let mut list: Run = (0..grades as u8).collect();
    random.shuffle(&mut list);
    list.truncate(length);
    list
}

/// So many grades, different or not.
pub fn any_grades(random: &mut Random, grades: usize, length: usize) -> Run {
    (0..length).map(|_| random.below(grades) as u8).collect()
}

/// A way along changeovers, half of the time one that comes back to no grade;
/// may be too short.
pub fn random_way(random: &mut Random, items: &[Changeover]) -> Run {
    if items.is_empty() {
        return Vec::new();
    }
    let simple = random.chance(50);
    let length = random.between(SHORTEST_RUN, LONGEST_RUN);
    let first = random.pick(items);
    let mut way = vec![first.from, first.to];
    while way.len() < length {
        let last = way[way.len() - 1];
        let onward: Vec<u8> = items
            .iter()
            .filter(|item| item.from == last && !(simple && way.contains(&item.to)))
            .map(|item| item.to)
            .collect();
        if onward.is_empty() {
            break;
        }
        way.push(random.pick(&onward));
    }
    way
}

/// An earlier run with its first or last grade gone, another grade after it, a
/// grade doubled, its first grades over and over, or just as it was.
fn related_run(random: &mut Random, grades: usize, runs: &[Run]) -> Run {
    let mut run = random.pick(runs);
    let change = random.below(8);
    if change == 1 || change == 2 {
        run.remove(0);
    }
    if change == 2 || change == 3 {
        run.push(random.below(grades) as u8);
    }
    if change == 4 {
        run.pop();
    }
    match change {
        5 => doubled(random, run),
        6 | 7 => repeated(random, &run),
        _ => run,
    }
}

/// The run with neighbours equal, no longer than a run may be: it never occurs.
pub fn doubled(random: &mut Random, mut run: Run) -> Run {
    let place = random.below(run.len() - 1);
    run.insert(place, run[place]);
    run.truncate(LONGEST_RUN);
    run
}

/// One of the grades becomes one that is not below the count.
pub fn spoil_grade(random: &mut Random, run: &mut [u8], grades: u8) {
    let place = random.below(run.len().max(1));
    if let Some(grade) = run.get_mut(place) {
        *grade = random.pick(&[grades, grades, 64, *grade | 128, 255]);
    }
}

/// The run's first two or three grades over and over, as 0 1 0 1 or 1 0 1 0 1.
fn repeated(random: &mut Random, run: &[u8]) -> Run {
    let period = random.between(2, 3).min(run.len());
    let length = random.between(period + 1, LONGEST_RUN);
    run[..period].iter().copied().cycle().take(length).collect()
}

/// A book whose runs were each taken from the plan under the runs before, so
/// that its plan goes a long way round. It has fewer runs than asked for where
/// nothing is left to plan.
pub fn grown(random: &mut Random, size: Size, litres: &[u32], start: u8, end: u8) -> Draft {
    let items = random_changeovers(random, size.grades, size.changeovers, litres);
    let runs = grown_runs(random, &table(size.grades, &items), Vec::new(), size.runs, start, end);
    sheets_of_16(Draft::new(size.grades as u8).changeovers(&items), &runs)
}

/// The runs, and up to `count` more.
fn grown_runs(
    random: &mut Random,
    changeovers: &Changeovers,
    mut runs: Vec<Run>,
    count: usize,
    start: u8,
    end: u8,
) -> Vec<Run> {
    let most = runs.len() + count;
    let mut tries = 0;
    while runs.len() < most && tries < 3 * count {
        tries += 1;
        let best = plan::best(changeovers, &runs, start, end);
        match best.and_then(|best| part_of(random, &best.lineup)) {
            Some(run) if random.chance(5) => runs.push(doubled(random, run)),
            Some(run) => runs.push(run),
            None => break,
        }
        if plan::best(changeovers, &runs, start, end).is_none() && random.chance(95) {
            runs.pop();
        }
    }
    runs
}

/// A way from a start round a loop to an end.
struct Turns {
    start: u8,
    around: Vec<u8>,
    /// The place in the loop of the grade that the end follows.
    leave: usize,
    end: u8,
}

impl Turns {
    fn random(random: &mut Random, grades: usize, period: usize) -> Turns {
        let mut names: Vec<u8> = (0..grades as u8).collect();
        random.shuffle(&mut names);
        let around = names[2..2 + period].to_vec();
        Turns { start: names[0], around, leave: random.below(period), end: names[1] }
    }

    fn lineup(&self, rounds: usize) -> Run {
        let turns = self.around.len() * rounds + self.leave + 1;
        let around = self.around.iter().copied().cycle().take(turns);
        [self.start].into_iter().chain(around).chain([self.end]).collect()
    }

    fn pairs(&self) -> BTreeSet<(u8, u8)> {
        self.lineup(1).windows(2).map(|pair| (pair[0], pair[1])).collect()
    }

    /// The line-ups that leave the loop after fewer rounds, as far as they are runs.
    fn leaving(&self, rounds: usize) -> Vec<Run> {
        let lineups = (0..rounds).map(|fewer| self.lineup(fewer));
        lineups.filter(|run| run.len() <= LONGEST_RUN).collect()
    }

    /// A part of so many rounds that overlaps itself: two grades more than a round,
    /// or longer, if the rounds have them. Half of the time the end may be its last;
    /// then the grades before that overlap, and whoever begins the run anew after a
    /// false start misses it.
    fn overlapping(&self, random: &mut Random, rounds: usize) -> Option<Run> {
        let lineup = self.lineup(rounds);
        let inside = &lineup[1..lineup.len() - random.below(2)];
        let (shortest, longest) = (self.around.len() + 2, inside.len().min(LONGEST_RUN));
        if longest < shortest {
            return None;
        }
        let length = random.between(shortest, longest);
        let place = random.between(0, inside.len() - length);
        Some(inside[place..place + length].to_vec())
    }
}

/// A book whose plan goes round a loop of two or three grades, and the start and
/// end of that plan: runs forbid to leave the loop sooner. In half of those whose rounds
/// are long enough another run forbids them, or to leave then; more runs are taken
/// from the plans.
pub fn turning(random: &mut Random) -> (Draft, u8, u8) {
    let period = random.between(2, 3);
    let grades = random.between(period + 2, 8);
    let turns = Turns::random(random, grades, period);
    let items = turning_changeovers(random, grades, &turns);
    let mut runs = turns.leaving(random.pick(&[1, 2, 2, 3, 3]));
    let overlapping = turns.overlapping(random, runs.len());
    runs.extend(overlapping.filter(|_| random.chance(50)));
    let more = random.pick(&[0, 0, 0, 0, 1, 2, 6]);
    let Turns { start, end, .. } = turns;
    let mut runs = grown_runs(random, &table(grades, &items), runs, more, start, end);
    random.shuffle(&mut runs);
    (sheets_of_16(Draft::new(grades as u8).changeovers(&items), &runs), start, end)
}

/// Those of the turns are cheap, some others are dear, and one of these mostly leads
/// from start to end.
fn turning_changeovers(random: &mut Random, grades: usize, turns: &Turns) -> Vec<Changeover> {
    let cheap = random.pick(&[vec![0], vec![0], vec![1], vec![0, 1]]);
    let others = random.between(0, 2 * grades);
    let mut items = random_changeovers(random, grades, others, &[3, 20, 20, 21, MOST_LITRES]);
    let mut pairs = turns.pairs();
    items.retain(|item| !pairs.contains(&(item.from, item.to)));
    items.extend(pairs.iter().map(|&(from, to)| Changeover {
        from,
        to,
        litres: random.pick(&cheap),
    }));
    pairs.extend(items.iter().map(|item| (item.from, item.to)));
    if random.chance(75) && pairs.insert((turns.start, turns.end)) {
        items.push(Changeover { from: turns.start, to: turns.end, litres: 50 });
    }
    random.shuffle(&mut items);
    items
}

/// A random run that stands in a line-up, longer ones and ones that come back to
/// a grade more often.
pub fn part_of(random: &mut Random, lineup: &[u8]) -> Option<Run> {
    if lineup.len() < SHORTEST_RUN {
        return None;
    }
    let mut part = any_part(random, lineup);
    for _ in 0..random.below(4) {
        if !comes_back(&part) {
            part = any_part(random, lineup);
        }
    }
    Some(part)
}

pub fn comes_back(run: &[u8]) -> bool {
    (1..run.len()).any(|i| run[..i].contains(&run[i]))
}

fn any_part(random: &mut Random, lineup: &[u8]) -> Run {
    let place = random.below(lineup.len() - 1);
    let rest = &lineup[place..];
    let longest = rest.len().min(LONGEST_RUN);
    let length = random.between(SHORTEST_RUN, longest).max(random.between(SHORTEST_RUN, longest));
    rest[..length].to_vec()
}

pub fn table(grades: usize, items: &[Changeover]) -> Changeovers {
    let mut changeovers = Changeovers::new(grades).expect("generated counts of grades are 1 to 64");
    for &item in items {
        let added = changeovers.add(item);
        assert!(added.is_ok(), "generated changeovers keep the rules");
    }
    changeovers
}

/// Forced ways round. A line-up through a wheel has to visit its spokes in
/// order and walks the wheel's six shared rim grades between any two of them.
/// Each run is a spoke, the rim and a later spoke, and forbids to skip one.
#[derive(Clone, Copy)]
struct Wheel {
    /// The grade of the first spoke; the others follow, then the rim.
    first: u8,
    spokes: u8,
}

const RIM: u8 = LONGEST_RUN as u8 - 2;

impl Wheel {
    fn last_spoke(self) -> u8 {
        self.first + self.spokes - 1
    }

    fn after(self) -> u8 {
        self.first + self.spokes + RIM
    }

    fn rim(self) -> Vec<u8> {
        (self.first + self.spokes..self.after()).collect()
    }

    fn pairs(self) -> Vec<(u8, u8)> {
        let rim = self.rim();
        let mut pairs: Vec<(u8, u8)> = rim.windows(2).map(|pair| (pair[0], pair[1])).collect();
        for spoke in self.first..=self.last_spoke() {
            pairs.push((spoke, rim[0]));
            pairs.push((rim[rim.len() - 1], spoke));
        }
        pairs
    }

    fn runs(self) -> Vec<Run> {
        let mut runs = Vec::new();
        for spoke in self.first..=self.last_spoke() {
            for later in spoke + 2..=self.last_spoke() {
                runs.push([vec![spoke], self.rim(), vec![later]].concat());
            }
        }
        runs
    }
}

/// A row of wheels with so many spokes each, 1 litre a changeover. Its plan
/// from grade 0 to `wheels_end` walks every wheel. With `off` litres, every
/// other pair is a changeover too.
pub fn wheels(spokes: &[u8], off: Option<u32>) -> Draft {
    let row = row_of_wheels(spokes);
    let mut pairs: Vec<(u8, u8)> = row.iter().flat_map(|wheel| wheel.pairs()).collect();
    pairs.extend(row.windows(2).map(|two| (two[0].last_spoke(), two[1].first)));
    let mut items: Vec<Changeover> =
        pairs.iter().map(|&(from, to)| Changeover { from, to, litres: 1 }).collect();
    let grades = row.last().map_or(1, |wheel| wheel.after());
    if let Some(litres) = off {
        let others = every_pair(grades).into_iter().filter(|pair| !pairs.contains(pair));
        items.extend(others.map(|(from, to)| Changeover { from, to, litres }));
    }
    let runs: Vec<Run> = row.iter().flat_map(|wheel| wheel.runs()).collect();
    sheets_of_16(Draft::new(grades).changeovers(&items), &runs)
}

/// The grade at which the plan of a row of wheels ends.
pub fn wheels_end(spokes: &[u8]) -> u8 {
    row_of_wheels(spokes).last().map_or(0, |wheel| wheel.last_spoke())
}

fn row_of_wheels(spokes: &[u8]) -> Vec<Wheel> {
    let mut row = Vec::new();
    let mut first = 0;
    for &spokes in spokes {
        let wheel = Wheel { first, spokes };
        first = wheel.after();
        row.push(wheel);
    }
    row
}

/// A single way through all grades, from the highest to 0 or from 0 upward.
pub fn line(grades: u8, upward: bool, litres: u32) -> Draft {
    let mut draft = Draft::new(grades);
    for low in 0..grades - 1 {
        let (from, to) = if upward { (low, low + 1) } else { (low + 1, low) };
        draft = draft.changeover(from, to, litres);
    }
    draft
}

/// The same way, and from its end back to its start; two grades or more.
pub fn ring(grades: u8, upward: bool, litres: u32) -> Draft {
    let last = grades - 1;
    let (from, to) = if upward { (last, 0) } else { (0, last) };
    line(grades, upward, litres).changeover(from, to, litres)
}

/// A draft's book, for generators that go on from what it says.
pub fn read(draft: &Draft) -> Book {
    match book::read(&draft.bytes()) {
        Ok(book) => book,
        Err(refused) => unreachable!("a generated book is refused: {refused:?}"),
    }
}

/// The runs that bind a batch of a good date.
pub fn runs_of(book: &Book, batch: Batch) -> Vec<Run> {
    binding::known_runs(book, batch).expect("the date is good")
}

/// The plan of a draft under all of its runs that the batch binds.
pub fn plan_of(draft: &Draft, batch: Batch, start: u8, end: u8) -> Option<plan::Plan> {
    let book = read(draft);
    plan::best(&book.changeovers, &runs_of(&book, batch), start, end)
}
