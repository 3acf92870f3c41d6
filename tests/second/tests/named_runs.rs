//! Order 5 of 02: what a named run is refused for, in its place among the refusals of a
//! failed report; and how many inputs, random and stored, show each mistake with it.

use second::any_inputs::case_of;
use second::binding;
use second::book::{self, Run};
use second::calls::{Call, Case};
use second::check;
use second::inputs;
use second::kinds::Kind;
use second::named_runs;
use second::programs::{self, Report};
use second::trials;
use second::vectors;
use std::collections::BTreeSet;
use std::ops::RangeInclusive;

/// The refusal of a failed report, none if it is accepted.
fn answer(case: &Case) -> Option<u8> {
    let (mut runs, mut lineup) = (case.runs.clone(), case.lineup.clone());
    let report = trials::report_failed(&case.book, case.record, &mut runs, &mut lineup, &case.list);
    report.err().map(|refused| refused.number)
}

#[test]
fn single_reports_have_their_answers() {
    let stored: BTreeSet<Vec<u8>> =
        vectors::cases(Kind::Any(Call::Failed), 1).into_iter().collect();
    let mut counts = [0; 18];
    for (case, expected) in named_runs::single_reports() {
        assert_eq!(answer(&case), expected, "{:?} {:?}", case.record, case.list);
        assert!(stored.contains(&case.bytes()));
        counts[usize::from(expected.unwrap_or(0))] += 1;
    }
    let least = [
        (0, 13),
        (1, 4),
        (14, 4),
        (8, 24),
        (9, 36),
        (11, 24),
        (12, 28),
        (13, 3),
        (16, 36),
        (17, 42),
    ];
    for (number, least) in least {
        assert!(counts[number] >= least, "{number}: {counts:?}");
    }
}

/// What a failed report may name, and whether it does.
type Corner = (&'static str, fn(&Case) -> bool);

const CORNERS: [Corner; 6] = [
    ("nothing", |case| case.list.is_empty()),
    ("nine grades with a bad one", |case| case.list.len() == 9 && !is_proper(case)),
    ("two grades with a bad one", |case| case.list.len() == 2 && !is_proper(case)),
    ("a known run", |case| known(case).contains(&case.list)),
    ("neighbours equal", |case| is_proper(case) && !changes(&case.list)),
    // In stage 2 the last line-up is still in the area.
    ("a run that stands", |case| changes(&case.list) && check::stands_in(&case.list, &case.lineup)),
];

fn grades(case: &Case) -> usize {
    book::read(&case.book).map_or(0, |book| book.grades())
}

fn is_proper(case: &Case) -> bool {
    book::run_has_good_grades(&case.list, grades(case))
}

fn changes(run: &[u8]) -> bool {
    run.windows(2).all(|pair| pair[0] != pair[1])
}

fn known(case: &Case) -> Vec<Run> {
    binding::read_area(&case.runs, case.record.known as usize, grades(case)).unwrap_or_default()
}

/// In single reports and in series each of them is 11 outside stage 0.
#[test]
fn corner_cases_are_11_outside_stage_0() {
    let single = named_runs::single_reports().into_iter().map(|(case, _)| case).collect();
    let in_series = |input: &Vec<u8>| failed_reports(Kind::Replay, input);
    let series = named_runs::series().iter().flat_map(in_series).collect();
    let cases: [Vec<Case>; 2] = [single, series];
    for (cases, stage) in
        cases.iter().flat_map(|cases| [(cases, trials::PASSED), (cases, trials::NONE)])
    {
        let is_over = |case: &&Case| case.record.stage == stage && answer(case) == Some(11);
        let over: Vec<&Case> = cases.iter().filter(is_over).collect();
        for (name, has_it) in CORNERS {
            assert!(over.iter().any(|case| has_it(case)), "{name} in stage {stage}");
        }
    }
}

/// What `replay` prints, without the lines of refusals.
fn accepted_lines(input: &[u8]) -> Vec<String> {
    let printed = programs::replay(input);
    let accepted = printed.lines().filter(|line| !line.starts_with("REFUSED "));
    accepted.map(str::to_string).collect()
}

/// The input of `replay` without the reports that are refused, and how many these are.
fn without_refused(input: &[u8]) -> Option<(Vec<u8>, usize)> {
    let (mut trials, batch, reports) = programs::read_replay(input).ok()?;
    let (start, end) = (trials.record.start, trials.record.end);
    let mut kept = inputs::replay_input(batch, start, end, trials.book);
    let mut refused = 0;
    for report in reports {
        match trials.try_report(report) {
            Ok(()) => kept.extend(inputs::report_bytes(report)),
            Err(_) => refused += 1,
        }
    }
    Some((kept, refused))
}

/// A refused report is as if not made, in the stored series and in random ones.
#[test]
fn refused_reports_are_as_if_not_made() {
    let random = (0..1_000).map(|index| inputs::case(Kind::Replay, 4, index));
    let mut refused_in_all = 0;
    for input in named_runs::series().into_iter().chain(random) {
        if let Some((kept, refused)) = without_refused(&input) {
            assert_eq!(accepted_lines(&input), accepted_lines(&kept));
            assert!(!programs::replay(&kept).contains("REFUSED"));
            refused_in_all += refused;
        }
    }
    assert!(refused_in_all > 1_500, "{refused_in_all}");
}

/// How many records each of the series that go on prints, the last one's stage, and whether
/// 13 comes before it.
const ENDINGS: [(usize, &str, bool); 8] = [
    (2, "STAGE 1 ", false),
    (3, "STAGE 1 ", false),
    (3, "STAGE 2 ", false),
    (4, "STAGE 2 ", false),
    (3, "STAGE 1 ", false),
    (3, "STAGE 2 ", false),
    (2, "STAGE 1 ", true),
    (3, "STAGE 1 ", true),
];

/// Each refusal stands between the first record and the last one.
#[test]
fn series_hold_each_refusal_between_accepted_reports() {
    let stored: BTreeSet<Vec<u8>> = vectors::cases(Kind::Replay, 1).into_iter().collect();
    assert!(named_runs::series().iter().all(|input| stored.contains(input)));
    let series = named_runs::series_between();
    assert_eq!(series.len(), ENDINGS.len());
    for (input, (records, stage, meets_13)) in series.iter().zip(ENDINGS) {
        assert!(stored.contains(input));
        let printed = programs::replay(input);
        let (before, last) = printed.rsplit_once("STAGE ").unwrap();
        assert_eq!(printed.matches("STAGE ").count(), records);
        assert!(format!("STAGE {last}").starts_with(stage), "{printed}");
        assert!([12, 16, 17].iter().all(|no| before.contains(&format!("REFUSED {no}\n"))));
        assert_eq!(before.contains("REFUSED 13\n"), meets_13);
    }
}

/// What a failed report is judged by once its book is read.
#[derive(Clone)]
struct Question {
    /// What any report is refused for then: 8, 9 or 11.
    before: Option<u8>,
    grades: usize,
    lineup_area: Vec<u8>,
    /// How many grades stand in it.
    standing: usize,
    known: u64,
    named: Vec<u8>,
}

impl Question {
    fn of(case: &Case) -> Option<Question> {
        let Case { record, runs, lineup, list, book, .. } = case;
        let grades = book::read(book).ok()?.grades();
        let before = trials::report_passed(book, *record, runs, lineup).err();
        let standing = if before.is_none() { record.length as usize } else { 0 };
        Some(Question {
            before: before.map(|refused| refused.number),
            grades,
            lineup_area: lineup.clone(),
            standing,
            known: record.known,
            named: list.clone(),
        })
    }

    fn judged(&self, tests: &[Test]) -> Option<u8> {
        tests.iter().find_map(|test| test(self))
    }

    fn has_length(&self, lengths: RangeInclusive<usize>) -> bool {
        lengths.contains(&self.named.len())
    }

    /// Whether one of these is not below the count.
    fn has_bad(&self, grades: &[u8]) -> bool {
        grades.iter().any(|&grade| usize::from(grade) >= self.grades)
    }

    fn stands(&self) -> bool {
        check::stands_in(&self.named, &self.lineup_area[..self.standing])
    }
}

/// What refuses a report, and for what.
type Test = fn(&Question) -> Option<u8>;

fn refused_if(refused: bool, number: u8) -> Option<u8> {
    refused.then_some(number)
}

fn area(question: &Question) -> Option<u8> {
    question.before.filter(|&number| number == 8)
}

fn record(question: &Question) -> Option<u8> {
    question.before.filter(|&number| number == 9)
}

fn over(question: &Question) -> Option<u8> {
    question.before.filter(|&number| number == 11)
}

fn length(question: &Question) -> Option<u8> {
    refused_if(!question.has_length(2..=8), 16)
}

fn grade(question: &Question) -> Option<u8> {
    refused_if(question.has_bad(&question.named), 17)
}

fn standing(question: &Question) -> Option<u8> {
    refused_if(!question.stands(), 12)
}

fn full(question: &Question) -> Option<u8> {
    refused_if(question.known == 256, 13)
}

const RIGHT: [Test; 7] = [area, record, over, length, grade, standing, full];

/// Another test for 8.
const fn by_area(test: Test) -> [Test; 7] {
    [test, record, over, length, grade, standing, full]
}

/// Another test for 9.
const fn by_record(test: Test) -> [Test; 7] {
    [area, test, over, length, grade, standing, full]
}

/// Another test for 11.
const fn by_stage(test: Test) -> [Test; 7] {
    [area, record, test, length, grade, standing, full]
}

/// Another test for 16.
const fn by_length(test: Test) -> [Test; 7] {
    [area, record, over, test, grade, standing, full]
}

/// Another test for 17.
const fn by_grade(test: Test) -> [Test; 7] {
    [area, record, over, length, test, standing, full]
}

/// Another test for 12.
const fn by_standing(test: Test) -> [Test; 7] {
    [area, record, over, length, grade, test, full]
}

/// Where the right test refuses and the wrong one does too, the wrong one answers.
fn sooner(question: &Question, wrong: Test, right: Test) -> Option<u8> {
    right(question).map(|number| wrong(question).unwrap_or(number))
}

/// Judges rightly, but another named run.
fn judged_as(question: &Question, named: Vec<u8>) -> Option<u8> {
    Question { named, ..question.clone() }.judged(&RIGHT)
}

fn length_modulo_256(question: &Question) -> Option<u8> {
    let length = question.named.len() % 256;
    judged_as(question, question.named[..length].to_vec())
}

fn grades_modulo_128(question: &Question) -> Option<u8> {
    judged_as(question, question.named.iter().map(|grade| grade % 128).collect())
}

/// Does not see the grade at this place.
fn passing_over<const PLACE: usize>(question: &Question) -> Option<u8> {
    let (before, from) = question.named.split_at(PLACE.min(question.named.len()));
    refused_if(question.has_bad(before) || question.has_bad(from.get(1..).unwrap_or(&[])), 17)
}

/// A judge that errs, with its name, and how many of the random single reports at least,
/// of the random series, of the stored single reports and of the stored series show it.
type Mistake = (&'static str, [Test; 7], [usize; 4]);

/// In a series the planner itself keeps the record and the areas, so that nothing is 8 or
/// 9, and a report names at most 255 grades.
const MISTAKES: [Mistake; 33] = [
    ("17 before 16", by_length(|q| sooner(q, grade, length)), [45, 25, 22, 32]),
    ("12 before 16", by_length(|q| sooner(q, standing, length)), [150, 100, 36, 73]),
    // A grade not below the count is in no line-up, so that nothing comes to 17.
    ("12 before 17, or for it", by_grade(|q| sooner(q, standing, grade)), [50, 45, 45, 69]),
    ("13 before 12", by_standing(|q| sooner(q, full, standing)), [10, 6, 6, 12]),
    ("13 before 17", by_grade(|q| sooner(q, full, grade)), [10, 6, 4, 6]),
    ("13 before 16", by_length(|q| sooner(q, full, length)), [35, 8, 6, 9]),
    ("16 before 11", by_stage(|q| sooner(q, length, over)), [160, 65, 12, 63]),
    ("17 before 11", by_stage(|q| sooner(q, grade, over)), [13, 25, 8, 72]),
    ("16 before 9", by_record(|q| sooner(q, length, record)), [90, 0, 13, 0]),
    ("17 before 9", by_record(|q| sooner(q, grade, record)), [55, 0, 11, 0]),
    ("16 before 8", by_area(|q| sooner(q, length, area)), [18, 0, 9, 0]),
    ("17 before 8", by_area(|q| sooner(q, grade, area)), [20, 0, 8, 0]),
    ("12 for what is 16", by_length(|q| length(q).and(Some(12))), [200, 125, 48, 93]),
    ("16 for what is 17", by_grade(|q| grade(q).and(Some(16))), [50, 45, 45, 69]),
    ("nothing is 12", by_standing(|_| None), [75, 90, 40, 183]),
    ("nothing is 13", [area, record, over, length, grade, standing, standing], [40, 8, 2, 12]),
    (
        "no grade is enough",
        by_length(|q| refused_if(!q.has_length(2..=8) && !q.named.is_empty(), 16)),
        [45, 40, 6, 25],
    ),
    ("one grade is enough", by_length(|q| refused_if(!q.has_length(1..=8), 16)), [50, 50, 14, 41]),
    (
        "two grades are too few",
        by_length(|q| refused_if(!q.has_length(3..=8), 16)),
        [150, 410, 50, 230],
    ),
    (
        "eight grades are too many",
        by_length(|q| refused_if(!q.has_length(2..=7), 16)),
        [55, 45, 27, 63],
    ),
    (
        "nine grades are taken",
        by_length(|q| refused_if(!q.has_length(2..=9), 16)),
        [65, 40, 22, 38],
    ),
    (
        "nine grades that stand are taken",
        by_length(|q| length(q).filter(|_| !(q.has_length(9..=9) && q.stands()))),
        [4, 4, 2, 6],
    ),
    ("the length modulo 256", [length_modulo_256; 7], [6, 0, 3, 0]),
    (
        "the count itself is a grade",
        by_grade(|q| refused_if(q.named.iter().any(|&grade| usize::from(grade) > q.grades), 17)),
        [15, 9, 33, 47],
    ),
    (
        "the highest grade is none",
        by_grade(|q| {
            refused_if(q.named.iter().any(|&grade| usize::from(grade) + 1 >= q.grades), 17)
        }),
        [120, 315, 52, 347],
    ),
    (
        "every grade below 64 is the book's",
        by_grade(|q| refused_if(q.named.iter().any(|&grade| grade >= 64), 17)),
        [15, 10, 26, 41],
    ),
    ("grades modulo 128", [grades_modulo_128; 7], [10, 6, 1, 8]),
    ("the first grade is passed over", by_grade(passing_over::<0>), [10, 8, 11, 24]),
    (
        "the last grade is passed over",
        by_grade(|q| refused_if(q.has_bad(&q.named[..q.named.len() - 1]), 17)),
        [15, 30, 17, 32],
    ),
    (
        "the grades between are passed over",
        by_grade(|q| refused_if(q.has_bad(&[q.named[0], q.named[q.named.len() - 1]]), 17)),
        [15, 10, 11, 22],
    ),
    ("the fifth grade is passed over", by_grade(passing_over::<4>), [3, 3, 1, 4]),
    ("the seventh grade is passed over", by_grade(passing_over::<6>), [1, 1, 1, 5]),
    (
        "a run may stand in all the line-up area",
        by_standing(|q| refused_if(!check::stands_in(&q.named, &q.lineup_area), 12)),
        [15, 8, 6, 17],
    ),
];

/// The failed reports of an input of `any_failed_report`, or of one of `replay`.
fn failed_reports(kind: Kind, input: &[u8]) -> Vec<Case> {
    if kind != Kind::Replay {
        return Case::read(input).into_iter().collect();
    }
    let mut cases = Vec::new();
    if let Ok((mut trials, batch, reports)) = programs::read_replay(input) {
        for report in reports {
            if let Report::Failed(named) = report {
                cases.push(case_of(&trials, batch, named));
            }
            let _ = trials.try_report(report);
        }
    }
    cases
}

/// What each input asks.
fn questions(kind: Kind, inputs: &[Vec<u8>]) -> Vec<Vec<Question>> {
    let mut asked = Vec::new();
    for input in inputs {
        let mut of_input = Vec::new();
        for case in failed_reports(kind, input) {
            if let Some(question) = Question::of(&case) {
                assert_eq!(question.judged(&RIGHT), answer(&case), "{case:?}");
                of_input.push(question);
            }
        }
        asked.push(of_input);
    }
    asked
}

fn random_inputs(kind: Kind) -> Vec<Vec<u8>> {
    (0..2_000).map(|index| inputs::case(kind, 2, index)).collect()
}

/// Of random inputs and of stored ones, single reports and series, enough show each mistake.
#[test]
fn inputs_show_each_mistake() {
    let kinds = [Kind::Any(Call::Failed), Kind::Replay];
    let random = kinds.map(|kind| questions(kind, &random_inputs(kind)));
    let stored = kinds.map(|kind| questions(kind, &vectors::cases(kind, 1)));
    for (name, tests, least) in MISTAKES {
        let counts: Vec<usize> = random
            .iter()
            .chain(&stored)
            .map(|inputs| {
                let differs =
                    |question: &Question| question.judged(&tests) != question.judged(&RIGHT);
                inputs.iter().filter(|asked| asked.iter().any(differs)).count()
            })
            .collect();
        let enough = counts.iter().zip(&least).all(|(count, least)| count >= least);
        assert!(enough, "{name}: {counts:?}, at least {least:?}");
    }
}
