//! Passes over the whole book: sums by hand, the bound of 02's order 3 on all
//! stored and many random books, and that the bound is met, so that a pass more
//! would be seen.

use second::board;
use second::book::{self, Book};
use second::draft::Draft;
use second::exhaustive;
use second::frames;
use second::generate;
use second::inputs;
use second::kinds::Kind;
use second::passes::{self, Counts, Distance};
use second::programs;
use second::random::Random;
use second::samples;
use second::text;
use second::vectors;

/// What `passes` prints, as the passes to each end and the most changeovers.
fn printed(passes: &[usize], most: usize) -> String {
    let line = |(end, count)| format!("END {end} PASSES {count} MOST {most}\n");
    passes.iter().enumerate().map(line).collect()
}

fn passes_of(draft: &Draft) -> String {
    programs::passes(&draft.bytes())
}

#[test]
fn one_grade_and_no_changeovers() {
    assert_eq!(passes_of(&Draft::new(1)), "END 0 PASSES 1 MOST 0\n");
    assert_eq!(passes_of(&Draft::new(1).sheet(0).run(&[0, 0])), "END 0 PASSES 1 MOST 0\n");
    assert_eq!(
        passes_of(&Draft::new(3)),
        "END 0 PASSES 1 MOST 0\nEND 1 PASSES 1 MOST 0\nEND 2 PASSES 1 MOST 0\n"
    );
}

#[test]
fn lines_and_rings() {
    for litres in [0, 1, 1_000_000] {
        let line = |upward| passes_of(&generate::line(4, upward, litres));
        assert_eq!(line(true), printed(&[1, 2, 3, 4], 3));
        assert_eq!(line(false), printed(&[4, 3, 2, 1], 3));
        for upward in [true, false] {
            for grades in [2, 3, 64] {
                let ring = generate::ring(grades, upward, litres);
                let count = usize::from(grades);
                assert_eq!(passes_of(&ring), printed(&vec![count; count], count - 1));
            }
        }
    }
    // A way with names in no order: 2 0 3 1.
    let way = Draft::new(4).changeover(0, 3, 5).changeover(2, 0, 5).changeover(3, 1, 5);
    assert_eq!(passes_of(&way), printed(&[2, 4, 1, 3], 3));
}

/// Two ways from 0 to 2, by 1 for 2 litres and at once for 1, 2 or 3.
#[test]
fn ties_in_litres() {
    let two_ways = |litres| {
        generate::read(
            &Draft::new(3).changeover(0, 1, 1).changeover(1, 2, 1).changeover(0, 2, litres),
        )
        .changeovers
    };
    let counts = |litres| passes::counts(&two_ways(litres));
    assert_eq!(counts(1), Counts { passes: vec![1, 2, 2], most: 1 });
    // Of equal litres the one changeover stays.
    assert_eq!(counts(2), Counts { passes: vec![1, 2, 2], most: 1 });
    assert_eq!(counts(3), Counts { passes: vec![1, 2, 3], most: 2 });
    let before = vec![None, None, Some((0, 0))];
    let first = |litres| vec![Some((litres, 1)), Some((1, 1)), Some((0, 0))];
    assert_eq!(passes::tables(&two_ways(2), 2), [before.clone(), first(2), first(2)]);
    // The same with 1 and 2 in each other's place, so that the longer way is tried last.
    let tie = Draft::new(3).changeover(0, 1, 2).changeover(0, 2, 1).changeover(2, 1, 1);
    assert_eq!(passes_of(&tie), printed(&[1, 2, 2], 1));
    let second = vec![Some((2, 2)), Some((1, 1)), Some((0, 0))];
    assert_eq!(passes::tables(&two_ways(3), 2), [before, first(3), second.clone(), second]);
}

/// A loop for nothing keeps no pass going.
#[test]
fn loops_for_nothing() {
    let draft = Draft::new(3).changeover(0, 1, 0).changeover(1, 0, 0).changeover(1, 2, 0);
    assert_eq!(passes_of(&draft), printed(&[2, 2, 3], 2));
}

/// Sheets and runs play no part: 0 1 2 3 is the plan with the most changeovers.
#[test]
fn book_a() {
    let answer = printed(&[1, 2, 3, 4], 3);
    assert_eq!(passes_of(&samples::book_a()), answer);
    let mut without_sheets = samples::book_a();
    without_sheets.fields.truncate(7);
    assert_eq!(passes_of(&without_sheets), answer);
    assert_eq!(passes_of(&samples::book_a().sheet(0).run(&[0, 1]).run(&[2, 3])), answer);
}

#[test]
fn refused_books() {
    assert_eq!(programs::passes(&[]), "REFUSED 1 AT 0\n");
    assert_eq!(programs::passes(&[1, 0, 1, 65]), "REFUSED 4 AT 0\n");
    assert_eq!(passes_of(&samples::book_a().run(&[0, 4])), "REFUSED 4 AT 81\n");
    // What stands after the bytes that are read changes nothing.
    let mut long = samples::book_a().bytes();
    long.resize(65_536, 0);
    assert_eq!(programs::passes(&long), "REFUSED 2 AT 81\n");
    long.resize(70_000, 1);
    assert_eq!(programs::passes(&long), "REFUSED 2 AT 81\n");
}

/// Byte 13; 12 is still no kind.
#[test]
fn the_kind_in_a_frame() {
    let book = [1, 0, 1, 1];
    assert_eq!(frames::frame(Kind::Passes, &book), [0, 0, 0, 5, 13, 1, 0, 1, 1]);
    let stream = [frames::frame(Kind::Passes, &book), frames::framed(&[12, 1, 0, 1, 1])].concat();
    assert_eq!(frames::run(&stream), "END 0 PASSES 1 MOST 0\nUNKNOWN KIND\n");
}

/// The stored cases and random ones that are not refused.
fn books() -> Vec<Book> {
    let mut cases = vectors::cases(Kind::Passes, 1);
    cases.extend((0..2_000).map(|index| inputs::case(Kind::Passes, 2, index)));
    cases.iter().filter_map(|case| book::read(case).ok()).collect()
}

fn says_over(counts: &Counts) -> bool {
    text::over(&text::passes(counts)).is_some()
}

/// No end takes more passes than the most changeovers and one, and in every book
/// some end takes as many: whoever counts setting up as a pass is over.
#[test]
fn the_bound_holds_and_is_met() {
    let books = books();
    let mut far = 0;
    for book in &books {
        let counts = passes::counts(&book.changeovers);
        assert!(!says_over(&counts), "{counts:?}");
        assert_eq!(counts.passes.len(), book.grades());
        assert_eq!(counts.passes.iter().max(), Some(&(counts.most + 1)));
        let with_setting_up = counts.passes.iter().map(|passes| passes + 1).collect();
        assert!(says_over(&Counts { passes: with_setting_up, ..counts }));
        far += usize::from(counts.most >= 8);
    }
    assert!(books.len() > 2_000 && far > 300, "{} and {far}", books.len());
}

/// The line that is over, and only that.
#[test]
fn over_is_said_of_each_end() {
    let counts = Counts { passes: vec![4, 3, 5], most: 2 };
    let printed = text::passes(&counts);
    assert_eq!(
        printed,
        "END 0 PASSES 4 MOST 2 OVER\nEND 1 PASSES 3 MOST 2\nEND 2 PASSES 5 MOST 2 OVER\n"
    );
    assert_eq!(text::over(&printed), Some("END 0 PASSES 4 MOST 2 OVER"));
    assert_eq!(text::over("END 1 PASSES 3 MOST 2\nREFUSED 1 AT 0\n"), None);
}

/// Where a pass changes none, each distance is that of the plan, and each pass
/// before lowered litres somewhere or found a way: passes that are worked out from
/// the table before alone never lower changeovers at the same litres.
#[test]
fn the_last_table_has_the_plans() {
    let mut lowered = 0;
    for book in books().iter().filter(|book| book.grades() <= 20).step_by(2) {
        let grades = book.grades() as u8;
        let boards: Vec<Vec<Distance>> = (0..grades)
            .map(|start| {
                let ends = board::ends(&book.changeovers, &[], start);
                ends.iter().map(|end| end.map(|end| (end.litres, end.changes))).collect()
            })
            .collect();
        for end in 0..grades {
            let tables = passes::tables(&book.changeovers, end);
            let plans: Vec<Distance> = boards.iter().map(|ends| ends[usize::from(end)]).collect();
            assert_eq!(tables.last(), Some(&plans));
            for pair in tables[..tables.len() - 1].windows(2) {
                assert_ne!(pair[0], pair[1]);
                for (old, new) in pair[0].iter().zip(&pair[1]).filter(|(old, new)| old != new) {
                    let litres = |entry: &Distance| entry.map_or(u64::MAX, |(litres, _)| litres);
                    assert!(litres(new) < litres(old));
                    lowered += usize::from(old.is_some());
                }
            }
        }
    }
    assert!(lowered > 2_000, "{lowered}");
}

/// The most changeovers, by the planner that follows line-ups best first.
#[test]
fn the_most_changeovers_of_tiny_books() {
    for seed in 0..1_000 {
        let book = generate::read(&generate::tiny(&mut Random::new(&[31, seed])));
        let starts = 0..book.grades() as u8;
        let plans = starts
            .flat_map(|start| exhaustive::ends_first(&book.changeovers, &[], start))
            .flatten();
        let most = plans.map(|plan| plan.changes()).max();
        assert_eq!(Some(passes::counts(&book.changeovers).most), most);
    }
}

/// The stored cases hold what they should.
#[test]
fn stored_books() {
    let stored: Vec<Book> =
        vectors::cases(Kind::Passes, 1).iter().filter_map(|case| book::read(case).ok()).collect();
    let count = |holds: &dyn Fn(&Book) -> bool| stored.iter().filter(|book| holds(book)).count();
    assert!(count(&|book| book.grades() == 1) > 0);
    assert!(count(&|book| book.grades() == 30) > 20);
    let full = |book: &Book| book.grades() == 64 && book.changeovers.count() == 4_032;
    assert!(count(&|book| full(book) && book.runs() == 0) > 1);
    assert!(count(&|book| full(book) && book.runs() == 256) > 1);
    let most = |book: &Book| passes::counts(&book.changeovers).most;
    assert!(count(&|book| book.changeovers.count() > 0 && most(book) == 1) > 10);
    assert!(count(&|book| most(book) == 63) > 10);
    let refused = vectors::cases(Kind::Passes, 1).len() - stored.len();
    assert!(refused > 100, "{refused}");
}
