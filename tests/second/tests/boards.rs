//! Every end from one start: 02's sums, each entry against single plans and
//! against the exhaustive planner, the order of refusals, and every number of the
//! table.

use second::binding::{self, Batch, RUNS_AREA};
use second::board::{self, NO_END};
use second::draft::Draft;
use second::exhaustive;
use second::generate::{self, Size};
use second::inputs;
use second::kinds::Kind;
use second::plan::{self, Answer, Known, LINEUP_AREA};
use second::programs;
use second::random::Random;
use second::refusal::Refusal;
use second::samples::{self, batch};
use second::seasons;
use second::table_inputs::table_of_book_a;
use second::tables::{TableCase, MOST_TABLE};

fn board(marks: u16, start: u8, draft: &Draft) -> String {
    programs::board(&inputs::board_input(batch(marks), start, &draft.bytes()))
}

/// What stands in a table before it is filled.
const SIGN: u32 = 0x5a5a_5a5a;

/// What the operation leaves in a table of that many numbers.
fn filled(batch: Batch, start: u8, book: &[u8], numbers: usize) -> Result<Vec<u32>, Refusal> {
    let mut area = vec![0; RUNS_AREA];
    let count = binding::bind(book, batch, &mut area).unwrap();
    let mut table = vec![SIGN; numbers];
    board::fill(book, Known { area: &area, count }, start, &mut table).map(|_| table)
}

/// The sums of order 1: book A, marks 3.
#[test]
fn book_a_from_0_and_from_3() {
    let book = samples::book_a();
    assert_eq!(
        board(3, 0, &book),
        "0 LITRES 0 CHANGES 0\n1 LITRES 100 CHANGES 1\n2 LITRES 200 CHANGES 2\n3 LITRES 450 CHANGES 5\n"
    );
    assert_eq!(board(3, 3, &book), "0 NONE\n1 NONE\n2 NONE\n3 LITRES 0 CHANGES 0\n");
    let book = book.bytes();
    assert_eq!(filled(batch(3), 0, &book, 8), Ok(vec![0, 0, 100, 1, 200, 2, 450, 5]));
    let none = u32::MAX;
    assert_eq!(filled(batch(3), 3, &book, 8), Ok(vec![none, none, none, none, none, none, 0, 0]));
    // Numbers after the entries are untouched, an odd last one too.
    assert_eq!(filled(batch(3), 0, &book, 9), Ok(vec![0, 0, 100, 1, 200, 2, 450, 5, SIGN]));
    assert_eq!(filled(batch(3), 0, &book, 10), Ok(vec![0, 0, 100, 1, 200, 2, 450, 5, SIGN, SIGN]));
    for numbers in 0..8 {
        assert_eq!(filled(batch(3), 0, &book, numbers), Err(Refusal::plain(8)));
    }
}

/// 01's sums of plans are entries: 300, 350, 300 and 450 litres to grade 3.
#[test]
fn book_a_under_all_marks() {
    for (marks, last) in [
        (0, "3 LITRES 300 CHANGES 3"),
        (1, "3 LITRES 350 CHANGES 2"),
        (2, "3 LITRES 300 CHANGES 3"),
        (3, "3 LITRES 450 CHANGES 5"),
    ] {
        assert_eq!(board(marks, 0, &samples::book_a()).lines().nth(3), Some(last));
    }
    let short_way = samples::book_of_ties().changeover(0, 3, 200);
    assert_eq!(board(0, 0, &short_way).lines().nth(3), Some("3 LITRES 200 CHANGES 1"));
}

#[test]
fn the_board_refuses() {
    let book = samples::book_a().bytes();
    let input = inputs::board_input(batch(3), 0, &book);
    for length in 0..=10 {
        assert_eq!(programs::board(&input[..length]), "REFUSED 1 AT 0\n");
    }
    assert_eq!(programs::board(&input[..11]).lines().count(), 4);
    for start in [4, 5, 64, 255] {
        assert_eq!(board(3, start, &samples::book_a()), "REFUSED 7\n");
        assert_eq!(board(3, start, &samples::book_a().run(&[0, 4])), "REFUSED 4 AT 81\n");
    }
    let on_a_bad_date = |start, draft: &Draft| {
        programs::board(&inputs::board_input(samples::bad_batch(), start, &draft.bytes()))
    };
    assert_eq!(on_a_bad_date(0, &samples::book_a()), "REFUSED 15\n");
    assert_eq!(on_a_bad_date(4, &samples::book_a()), "REFUSED 7\n");
    assert_eq!(on_a_bad_date(4, &samples::book_a_in([1, 13, 1, 1])), "REFUSED 14 AT 70\n");
    assert_eq!(board(0, 0, &Draft::new(65)), "REFUSED 4 AT 0\n");
    assert_eq!(board(0, 0, &Draft::new(1)), "0 LITRES 0 CHANGES 0\n");
    assert_eq!(board(0, 1, &Draft::new(1)), "REFUSED 7\n");
    // What stands after the bytes that are read changes nothing.
    let mut long = input;
    long.resize(65_536, 0);
    let printed = programs::board(&long);
    assert_eq!(printed, "REFUSED 2 AT 81\n");
    long.resize(70_000, 1);
    assert_eq!(programs::board(&long), printed);
}

/// Each entry is what the operation of planning to that grade answers.
#[test]
fn entries_are_single_plans() {
    let mut area = vec![0; RUNS_AREA];
    for seed in 0..150 {
        let random = &mut Random::new(&[21, seed]);
        let mut draft =
            if seed % 30 == 0 { generate::typical(random) } else { generate::small(random) };
        seasons::with_seasons(random, &mut draft);
        let book = draft.bytes();
        let batch = inputs::good_batch(random, &draft);
        let count = binding::bind(&book, batch, &mut area).unwrap();
        let known = Known { area: &area, count };
        let grades = generate::read(&draft).grades();
        let start = random.below(grades) as u8;
        let table = filled(batch, start, &book, 2 * grades + 1).unwrap();
        for end in 0..grades {
            let mut lineup = [0; LINEUP_AREA];
            let entry = match plan::plan(&book, known, start, end as u8, &mut lineup).unwrap() {
                None => [NO_END; 2],
                Some(Answer { litres, changes }) => [litres as u32, changes as u32],
            };
            assert_eq!(table[2 * end..2 * end + 2], entry, "seed {seed} from {start} to {end}");
        }
        assert_eq!(table[2 * usize::from(start)..][..2], [0, 0]);
        assert_eq!(table[2 * grades], SIGN);
    }
}

/// The boards of a book from every start, against the planner that follows
/// line-ups best first and comes to every end in one go. Gives how many ends are
/// none, and how many lie beyond a line-up that comes back to a grade.
fn compare_with_exhaustive(draft: &Draft, marks: u16) -> (usize, usize) {
    let book = generate::read(draft);
    let runs = generate::runs_of(&book, batch(marks));
    let (mut none, mut comes_back) = (0, 0);
    for start in 0..book.grades() as u8 {
        let plans = exhaustive::ends_first(&book.changeovers, &runs, start);
        let ends: Vec<Option<Answer>> = plans
            .iter()
            .map(|plan| {
                plan.as_ref().map(|plan| Answer { litres: plan.litres, changes: plan.changes() })
            })
            .collect();
        let context = format!("{:?} {runs:?} from {start}", book.changeovers.list());
        assert_eq!(board::ends(&book.changeovers, &runs, start), ends, "{context}");
        for plan in plans {
            let mut lineup = plan.map_or(Vec::new(), |plan| plan.lineup);
            let length = lineup.len();
            lineup.sort_unstable();
            lineup.dedup();
            none += usize::from(length == 0);
            comes_back += usize::from(lineup.len() < length);
        }
    }
    (none, comes_back)
}

#[test]
fn boards_of_tiny_books() {
    let mut tally = (0, 0);
    for seed in 0..4_000 {
        let random = &mut Random::new(&[22, seed]);
        let draft = generate::tiny(random);
        let (none, comes_back) = compare_with_exhaustive(&draft, generate::batch_marks(random));
        tally = (tally.0 + none, tally.1 + comes_back);
    }
    assert!(tally.0 > 5_000 && tally.1 > 25, "{tally:?}");
}

/// Zero-litre loops, ties, and runs along the plans.
#[test]
fn boards_of_grown_books() {
    let mut tally = (0, 0);
    for seed in 0..2_000 {
        let random = &mut Random::new(&[23, seed]);
        let grades = random.between(3, 7);
        let changeovers = random.between(grades, 3 * grades).min(generate::pairs(grades));
        let litres = random.pick(&[vec![0], vec![1], vec![0, 1], vec![0, 0, 5]]);
        let size = Size { grades, changeovers, sheets: 0, runs: random.between(2, 25) };
        let end = random.between(1, grades - 1) as u8;
        let draft = generate::grown(random, size, &litres, 0, end);
        let (none, comes_back) = compare_with_exhaustive(&draft, 0);
        tally = (tally.0 + none, tally.1 + comes_back);
    }
    assert!(tally.0 > 3_000 && tally.1 > 250, "{tally:?}");
}

/// Loops that the runs force a plan to go round, and runs that forbid it.
#[test]
fn boards_of_turning_books() {
    let mut tally = (0, 0);
    for seed in 0..1_000 {
        let draft = generate::turning(&mut Random::new(&[24, seed])).0;
        let (none, comes_back) = compare_with_exhaustive(&draft, 0);
        tally = (tally.0 + none, tally.1 + comes_back);
    }
    assert!(tally.0 > 5_000 && tally.1 > 300, "{tally:?}");
}

/// All litres 1,000,000 and the way through all grades: far below 2 to the 32.
#[test]
fn the_farthest_end() {
    let printed = board(0, 0, &generate::line(64, true, 1_000_000));
    assert_eq!(printed.lines().last(), Some("63 LITRES 63000000 CHANGES 63"));
    let spokes = samples::WHEELS;
    let last = usize::from(generate::wheels_end(&spokes));
    let printed = board(0, 0, &generate::wheels(&spokes, None));
    let expected = format!("{last} LITRES 282 CHANGES 282");
    assert_eq!(printed.lines().nth(last), Some(&expected[..]));
}

/// What the call prints first, and the lines of the numbers that it changed.
fn made(case: &TableCase) -> (String, Vec<String>) {
    let printed = case.make();
    let mut lines = printed.lines().map(String::from);
    (lines.next().unwrap(), lines.collect())
}

#[test]
fn the_call_prints_what_changed() {
    let good = table_of_book_a();
    let changed = [
        "TABLE 0 7 0",
        "TABLE 1 7 0",
        "TABLE 2 7 100",
        "TABLE 3 7 1",
        "TABLE 4 7 200",
        "TABLE 5 7 2",
        "TABLE 6 7 450",
        "TABLE 7 7 5",
    ];
    let changed: Vec<String> = changed.iter().map(|line| line.to_string()).collect();
    assert_eq!(made(&good), (String::from("FILLED 4"), changed.clone()));
    let longer = TableCase { table: vec![7; 11], ..good.clone() };
    assert_eq!(made(&longer), (String::from("FILLED 4"), changed));
    let there = TableCase { table: vec![0, 0, 100, 1, 200, 2, 450, 6, 5], ..good };
    assert_eq!(made(&there).1, ["TABLE 7 6 5"]);
    let from_3 = TableCase { start: 3, table: vec![u32::MAX; 8], ..there };
    assert_eq!(made(&from_3).1, ["TABLE 6 4294967295 0", "TABLE 7 4294967295 0"]);
}

/// 1 to 6 before 8, 8 before 7, 7 before 9; no refusal changes a number.
#[test]
fn refusals_come_in_their_order() {
    let good = table_of_book_a();
    let mut case = good.clone();
    let refused = |case: &TableCase, line: &str| {
        assert_eq!(made(case), (line.to_string(), Vec::new()));
    };
    for known in [1, 3, 257, 1 << 32 | 2, u64::MAX] {
        case.known = known;
        refused(&case, "REFUSED 9");
    }
    for start in [4, 255] {
        case.start = start;
        refused(&case, "REFUSED 7");
    }
    // One number a grade is too few.
    for length in [0, 1, 4, 7] {
        refused(&TableCase { table: good.table[..length].to_vec(), ..case.clone() }, "REFUSED 8");
    }
    case.runs.pop();
    refused(&case, "REFUSED 8");
    case.table.pop();
    refused(&case, "REFUSED 8");
    case.book.pop();
    refused(&case, "REFUSED 1 AT 75");
    case.book = vec![1, 0, 1, 65];
    refused(&case, "REFUSED 4 AT 0");
}

/// On random cases: a refusal changes no number, and no number after the entries
/// changes.
#[test]
fn refusals_change_nothing() {
    let (mut filled, mut refused) = (0, 0);
    for index in 0..2_000 {
        let bytes = inputs::case(Kind::AnyTable, 11, index);
        let case = match TableCase::read(&bytes) {
            Ok(case) => case,
            Err(_) => continue,
        };
        let (answer, changed) = made(&case);
        match answer.strip_prefix("FILLED ") {
            None => {
                assert!(answer.starts_with("REFUSED ") && changed.is_empty(), "{answer}");
                refused += 1;
            }
            Some(grades) => {
                let grades: usize = grades.parse().unwrap();
                for line in changed {
                    let place: usize = line.split(' ').nth(1).unwrap().parse().unwrap();
                    assert!(place < 2 * grades, "{line}");
                }
                filled += 1;
            }
        }
    }
    assert!(filled > 500 && refused > 500, "{filled} and {refused}");
}

#[test]
fn cases_are_read_as_they_were_written() {
    for index in 0..400 {
        let bytes = inputs::case(Kind::AnyTable, 12, index);
        match TableCase::read(&bytes) {
            Ok(case) => assert_eq!(case.bytes(), bytes),
            Err(refused) => assert_eq!((refused.number, refused.at), (1, Some(0))),
        }
    }
    let good = TableCase { table: (0..8).collect(), ..table_of_book_a() };
    let whole = good.bytes();
    assert_eq!(whole[..9], [0, 0, 0, 0, 0, 0, 0, 0, 2]);
    // Two runs, the last byte of their entries that is not 0, and then zeros.
    assert_eq!(whole[9..14], [0, 13, 8, 243, 0]);
    assert_eq!(whole[14..22], [0, 7, 0, 1, 0, 0, 0, 7]);
    assert_eq!(TableCase::read(&whole), Ok(good.clone()));
    let book_from = whole.len() - good.book.len();
    for length in 0..book_from {
        assert!(TableCase::read(&whole[..length]).is_err());
    }
    assert!(TableCase::read(&whole[..book_from]).is_ok());
    for (numbers, taken) in [(MOST_TABLE, true), (MOST_TABLE + 1, false)] {
        let case = TableCase { table: vec![1; numbers], ..good.clone() };
        let expected = if taken { Ok(case.clone()) } else { Err(Refusal::at(1, 0)) };
        assert_eq!(TableCase::read(&case.bytes()), expected);
    }
}
