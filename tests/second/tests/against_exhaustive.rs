//! The planner against the exhaustive ones, on thousands of tiny books.

use second::book::Run;
use second::changeovers::Changeovers;
use second::check;
use second::exhaustive;
use second::generate::{self, Size};
use second::plan::{self, Plan, LINEUP_AREA};
use second::random::Random;
use second::samples::batch;

/// How often each kind of answer came up, so that a test can say that it saw
/// enough of each.
#[derive(Default)]
struct Tally {
    plans: usize,
    none: usize,
    comes_back: usize,
    long: usize,
}

impl Tally {
    fn add(&mut self, plan: &Option<Plan>) {
        match plan {
            Some(plan) => self.add_plan(plan),
            None => self.none += 1,
        }
    }

    fn add_plan(&mut self, plan: &Plan) {
        self.plans += 1;
        let mut grades = plan.lineup.clone();
        grades.sort_unstable();
        grades.dedup();
        self.comes_back += usize::from(grades.len() < plan.lineup.len());
        self.long += usize::from(plan.lineup.len() > 4);
    }
}

/// A plan is what it says: a line-up from start to end, clear, with its litres.
fn assert_holds(plan: &Plan, changeovers: &Changeovers, runs: &[Run], start: u8, end: u8) {
    assert_eq!(plan.lineup.first(), Some(&start));
    assert_eq!(plan.lineup.last(), Some(&end));
    assert_eq!(changeovers.lineup_litres(&plan.lineup), Some(plan.litres));
    assert!(runs.iter().all(|run| !check::stands_in(run, &plan.lineup)));
    assert!(plan.lineup.len() <= exhaustive::most_grades(changeovers.grades(), runs));
}

/// All starts and ends of a book against both exhaustive planners; the one
/// that lists all line-ups only where that takes few enough.
fn compare(changeovers: &Changeovers, runs: &[Run], tally: &mut Tally) -> usize {
    let most = exhaustive::most_grades(changeovers.grades(), runs) + 1;
    let mut listed = 0;
    for start in 0..changeovers.grades() as u8 {
        for end in 0..changeovers.grades() as u8 {
            let plan = plan::best(changeovers, runs, start, end);
            let context = format!("{:?} {runs:?} from {start} to {end}", changeovers.list());
            assert_eq!(plan, exhaustive::best_first(changeovers, runs, start, end), "{context}");
            if let Ok(all) = exhaustive::best_of_all(changeovers, runs, start, end, most, 3_000) {
                assert_eq!(plan, all, "{context}");
                listed += 1;
            }
            if let Some(plan) = &plan {
                assert_holds(plan, changeovers, runs, start, end);
            }
            tally.add(&plan);
        }
    }
    listed
}

/// 01's sums on book A hold for the exhaustive planners too.
#[test]
fn book_a() {
    let book = generate::read(&second::samples::book_a());
    for (marks, litres, lineup) in [
        (0, 300, &[0, 1, 2, 3][..]),
        (1, 350, &[0, 2, 3]),
        (2, 300, &[0, 1, 2, 3]),
        (3, 450, &[0, 1, 2, 1, 2, 3]),
    ] {
        let runs = generate::runs_of(&book, batch(marks));
        let plan = Some(Plan { litres, lineup: lineup.to_vec() });
        assert_eq!(exhaustive::best_first(&book.changeovers, &runs, 0, 3), plan);
        let all = exhaustive::best_of_all(&book.changeovers, &runs, 0, 3, 12, 100_000);
        assert_eq!(all.unwrap(), plan);
        assert_eq!(exhaustive::best_first(&book.changeovers, &runs, 3, 0), None);
    }
}

#[test]
fn tiny_books() {
    let mut tally = Tally::default();
    let mut listed = 0;
    for seed in 0..4_000 {
        let random = &mut Random::new(&[1, seed]);
        let book = generate::read(&generate::tiny(random));
        let runs = generate::runs_of(&book, batch(generate::batch_marks(random)));
        listed += compare(&book.changeovers, &runs, &mut tally);
    }
    assert!(listed > 20_000, "listed {listed}");
    assert!(tally.plans > 20_000 && tally.none > 5_000, "{} and {}", tally.plans, tally.none);
    assert!(tally.comes_back > 25 && tally.long > 150, "{} and {}", tally.comes_back, tally.long);
}

/// Books whose runs were taken from plans, with zero-litre loops and ties.
#[test]
fn grown_books() {
    let mut tally = Tally::default();
    for seed in 0..3_000 {
        let random = &mut Random::new(&[2, seed]);
        let grades = random.between(3, 7);
        let changeovers = random.between(grades, 3 * grades).min(generate::pairs(grades));
        let litres = random.pick(&[vec![0], vec![1], vec![0, 1], vec![0, 0, 5]]);
        let size = Size { grades, changeovers, sheets: 0, runs: random.between(2, 25) };
        let end = random.between(1, grades - 1) as u8;
        let book = generate::read(&generate::grown(random, size, &litres, 0, end));
        compare(&book.changeovers, &generate::runs_of(&book, batch(0)), &mut tally);
    }
    assert!(tally.comes_back > 250 && tally.long > 800, "{} and {}", tally.comes_back, tally.long);
}

/// Loops that the runs force the plan to go round, and runs that forbid it.
#[test]
fn turning_books() {
    let mut tally = Tally::default();
    for seed in 0..1_200 {
        let random = &mut Random::new(&[8, seed]);
        let book = generate::read(&generate::turning(random).0);
        compare(&book.changeovers, &generate::runs_of(&book, batch(0)), &mut tally);
    }
    assert!(tally.plans > 25_000 && tally.none > 10_000, "{} and {}", tally.plans, tally.none);
    assert!(
        tally.comes_back > 450 && tally.long > 1_800,
        "{} and {}",
        tally.comes_back,
        tally.long
    );
}

/// The planner does not rely on runs being simple.
#[test]
fn runs_that_name_a_grade_twice() {
    let mut tally = Tally::default();
    for seed in 0..3_000 {
        let random = &mut Random::new(&[4, seed]);
        let grades = random.between(2, 4);
        let count = random.between(grades, generate::pairs(grades));
        let items = generate::random_changeovers(random, grades, count, &[0, 1]);
        let changeovers = generate::table(grades, &items);
        let runs = lists_in_the_way(random, &changeovers);
        compare(&changeovers, &runs, &mut tally);
    }
    assert!(
        tally.comes_back > 100 && tally.none > 1_000,
        "{} and {}",
        tally.comes_back,
        tally.none
    );
}

/// Lists that each stand in the plan under those before, a grade named twice
/// or not, and a few that are any.
fn lists_in_the_way(random: &mut Random, changeovers: &Changeovers) -> Vec<Run> {
    let end = changeovers.grades() as u8 - 1;
    let mut runs: Vec<Run> =
        (0..random.below(3)).map(|_| any_list(random, changeovers.grades())).collect();
    for _ in 0..random.between(1, 12) {
        let plan = match plan::best(changeovers, &runs, 0, end) {
            Some(plan) => plan,
            None => break,
        };
        let length = random.between(2, 8).min(plan.lineup.len());
        let place = random.below(plan.lineup.len() - length + 1);
        let list = plan.lineup[place..place + length].to_vec();
        runs.push(list);
        if plan::best(changeovers, &runs, 0, end).is_none() && random.chance(80) {
            runs.pop();
        }
    }
    runs
}

fn any_list(random: &mut Random, grades: usize) -> Run {
    let length = random.between(2, 8);
    generate::any_grades(random, grades, length)
}

#[test]
fn start_equal_to_end_is_that_grade() {
    for seed in 0..300 {
        let random = &mut Random::new(&[5, seed]);
        let book = generate::read(&generate::small(random));
        let runs = generate::runs_of(&book, batch(0xffff));
        for grade in 0..book.grades() as u8 {
            let plan = plan::best(&book.changeovers, &runs, grade, grade);
            assert_eq!(plan, Some(Plan { litres: 0, lineup: vec![grade] }));
        }
    }
}

/// Larger books, against the planner that follows line-ups best first.
#[test]
fn small_and_typical_books() {
    for seed in 0..120 {
        let random = &mut Random::new(&[6, seed]);
        let draft =
            if seed % 12 == 0 { generate::typical(random) } else { generate::small(random) };
        let book = generate::read(&draft);
        let runs = generate::runs_of(&book, batch(0xffff));
        let (start, end) = (random.below(book.grades()) as u8, random.below(book.grades()) as u8);
        let plan = plan::best(&book.changeovers, &runs, start, end);
        assert_eq!(plan, exhaustive::best_first(&book.changeovers, &runs, start, end));
    }
}

/// Three wheels of 15, 14 and 14 spokes: 14, 13 and 13 turns of 7 changeovers
/// and a changeover between wheels, at 1 litre each.
#[test]
fn wheels_force_long_plans() {
    let spokes = second::samples::WHEELS;
    let draft = generate::wheels(&spokes, None);
    let plan = generate::plan_of(&draft, batch(0), 0, generate::wheels_end(&spokes)).unwrap();
    assert_eq!((plan.changes(), plan.litres), (40 * 7 + 2, 282));
    let book = generate::read(&draft);
    assert_holds(
        &plan,
        &book.changeovers,
        &generate::runs_of(&book, batch(0)),
        0,
        generate::wheels_end(&spokes),
    );
    let with_all_pairs = generate::wheels(&spokes, Some(1_000_000));
    assert_eq!(
        generate::plan_of(&with_all_pairs, batch(0), 0, generate::wheels_end(&spokes)),
        Some(plan)
    );
}

/// 64 grades and 256 runs of 8: the bound of 01 is 1,600.
#[test]
fn the_bound_on_a_plan() {
    let book = generate::read(&generate::largest(&mut Random::new(&[1])));
    let runs = generate::runs_of(&book, batch(0));
    assert_eq!(runs.len(), 256);
    assert_eq!(exhaustive::most_grades(64, &runs), LINEUP_AREA);
    let plan = plan::best(&book.changeovers, &runs, 0, 63).unwrap();
    assert_holds(&plan, &book.changeovers, &runs, 0, 63);
    assert_eq!(Some(plan), exhaustive::best_first(&book.changeovers, &runs, 0, 63));
}
