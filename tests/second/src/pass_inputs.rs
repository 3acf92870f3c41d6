//! Books to count passes over: ways through many grades, ties in litres between
//! ways of different length, zero-litre loops, the largest books, and what the
//! other kinds have.

use crate::changeovers::{Changeover, MOST_GRADES, MOST_LITRES};
use crate::damage::damaged;
use crate::draft::Draft;
use crate::generate;
use crate::inputs;
use crate::large;
use crate::random::Random;
use crate::samples;
use crate::seasons;
use std::collections::BTreeMap;

/// The input of `passes`.
pub fn case(random: &mut Random) -> Vec<u8> {
    let draft = any_draft(random);
    let mut book = inputs::book_bytes(random, &draft, 10);
    inputs::other_length(random, &mut book);
    book
}

fn any_draft(random: &mut Random) -> Draft {
    match random.below(400) {
        0 => large::largest_book(random),
        1 => every_changeover(random, MOST_GRADES, &[0, 1, MOST_LITRES]),
        2..=15 => generate::typical(random),
        16..=105 => short_cuts(random),
        106..=145 => {
            let round = generate::ring(random.between(2, 20) as u8, true, random.below(3) as u32);
            renamed(random, &round)
        }
        146..=185 => {
            let way = generate::line(random.between(2, 20) as u8, true, random.below(3) as u32);
            renamed(random, &way)
        }
        _ => inputs::any_scene(random).draft,
    }
}

fn every_changeover(random: &mut Random, grades: usize, litres: &[u32]) -> Draft {
    let items = generate::random_changeovers(random, grades, generate::pairs(grades), litres);
    Draft::new(grades as u8).changeovers(&items)
}

/// The book's changeovers with other names of the grades, in any order.
fn renamed(random: &mut Random, draft: &Draft) -> Draft {
    let book = generate::read(draft);
    let mut names: Vec<u8> = (0..book.grades() as u8).collect();
    random.shuffle(&mut names);
    let mut items = book.changeovers.list();
    for item in &mut items {
        item.from = names[usize::from(item.from)];
        item.to = names[usize::from(item.to)];
    }
    random.shuffle(&mut items);
    Draft::new(book.grades() as u8).changeovers(&items)
}

/// A way through all grades, short cuts of which most lose just as many litres as
/// the way between, others one more or less, and ways back, often for nothing.
fn short_cuts(random: &mut Random) -> Draft {
    let grades = random.between(3, 20);
    let step = random.pick(&[0, 1, 1, 7]);
    let mut litres: BTreeMap<(u8, u8), u32> = BTreeMap::new();
    for _ in 0..random.between(1, 2 * grades) {
        let (one, other) = (random.below(grades) as u8, random.below(grades) as u8);
        let way = step * u32::from(other.saturating_sub(one));
        if one < other {
            let lost = random.pick(&[way, way, way, way + 1, way.saturating_sub(1)]);
            litres.insert((one, other), lost);
        } else if one > other {
            litres.insert((one, other), random.pick(&[0, 0, 1]));
        }
    }
    litres.extend((1..grades as u8).map(|to| ((to - 1, to), step)));
    let items = litres.iter().map(|(&(from, to), &litres)| Changeover { from, to, litres });
    let draft = Draft::new(grades as u8).changeovers(&items.collect::<Vec<Changeover>>());
    if random.chance(50) {
        renamed(random, &draft)
    } else {
        draft
    }
}

/// The chosen cases.
pub fn chosen(random: &mut Random) -> Vec<Vec<u8>> {
    let mut drafts = without_changeovers();
    drafts.extend(lines_and_rings());
    drafts.extend(ties());
    drafts.extend(loops_for_nothing());
    drafts.extend(samples::books_of_sums());
    drafts.extend(thirty_grades(random));
    drafts.extend(largest(random));
    drafts.extend(samples::drafts_at_boundaries());
    let mut cases: Vec<Vec<u8>> = drafts.iter().map(Draft::bytes).collect();
    cases.extend(samples::cuts(&samples::book_a().bytes()));
    for _ in 0..12 {
        let draft = generate::small(random);
        cases.push(damaged(random, &draft));
    }
    cases
}

fn without_changeovers() -> Vec<Draft> {
    let mut drafts: Vec<Draft> = [1, 2, 3, 30, 64].map(Draft::new).to_vec();
    drafts.push(Draft::new(1).sheet(0).run(&[0, 0]));
    drafts.push(Draft::new(4).sheet(0).run(&[0, 1, 2]).run(&[3, 2]));
    drafts
}

/// Upward and downward.
fn lines_and_rings() -> Vec<Draft> {
    let mut drafts = Vec::new();
    for grades in [2, 3, 4, 30, 64] {
        for upward in [true, false] {
            for litres in [0, 1, MOST_LITRES] {
                drafts.push(generate::line(grades, upward, litres));
                drafts.push(generate::ring(grades, upward, litres));
            }
        }
    }
    drafts
}

/// A short cut from the first grade of a way to each later one that loses just as
/// many litres, one less, and one more.
fn ties() -> Vec<Draft> {
    let mut drafts = Vec::new();
    for upward in [true, false] {
        for far in 2..6 {
            for lost in [far - 1, far, far + 1] {
                let (from, to) = if upward { (0, far) } else { (5, 5 - far) };
                drafts.push(generate::line(6, upward, 1).changeover(from, to, lost.into()));
            }
        }
    }
    // Every way between two grades loses the same: one changeover is the plan.
    let mut even = Draft::new(30);
    for from in 0..30 {
        for to in from + 1..30 {
            even = even.changeover(from, to, 5 * u32::from(to - from));
        }
    }
    drafts.push(even);
    drafts
}

/// Ways that could go round for ever without a litre.
fn loops_for_nothing() -> Vec<Draft> {
    let there_and_back = |draft: Draft, low: u8| {
        let high = low + 1;
        draft.changeover(low, high, 0).changeover(high, low, 0)
    };
    let mut drafts: Vec<Draft> = [2, 3, 8, 64]
        .iter()
        .map(|&grades| (0..grades - 1).fold(Draft::new(grades), there_and_back))
        .collect();
    for litres in [0, 1] {
        // A ring for nothing, a way into it and a way out of it.
        drafts.push(
            Draft::new(6)
                .changeover(0, 1, litres)
                .changeover(1, 2, 0)
                .changeover(2, 3, 0)
                .changeover(3, 1, 0)
                .changeover(3, 4, litres)
                .changeover(4, 5, 0),
        );
    }
    drafts
}

fn thirty_grades(random: &mut Random) -> Vec<Draft> {
    let mut drafts: Vec<Draft> = (0..8).map(|_| generate::typical(random)).collect();
    for litres in [&[0][..], &[1], &[0, 1], &[1, 10, 100, 1_000]] {
        drafts.push(every_changeover(random, 30, litres));
    }
    drafts
}

/// All changeovers that a book can have, without runs and with 256, in sheets without
/// windows and with them.
fn largest(random: &mut Random) -> Vec<Draft> {
    let any: Vec<u32> = (0..=MOST_LITRES).step_by(997).collect();
    let winding = large::largest_winding(random);
    vec![
        every_changeover(random, MOST_GRADES, &[0]),
        every_changeover(random, MOST_GRADES, &any),
        generate::largest(random),
        seasons::all_with_windows(random, winding),
    ]
}
