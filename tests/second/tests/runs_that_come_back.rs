//! Order 2 of 02 among the inputs: of every kind enough random ones have runs that
//! come back to a grade, enough of these runs change the answer, and the vectors
//! hold the chosen sums.

use second::binding::{self, Batch};
use second::book::{self, Run};
use second::calls::{Call, Case};
use second::changeovers::Changeovers;
use second::check;
use second::dates::Date;
use second::generate::comes_back;
use second::inputs;
use second::kinds::Kind;
use second::list_inputs;
use second::lists::List;
use second::plan::{self, Plan};
use second::programs::{self, Report};
use second::refusal::Refusal;
use second::samples;
use second::sources::Source;
use second::tables::TableCase;
use second::vectors;
use std::cmp::Reverse;
use std::collections::{BinaryHeap, HashSet};

fn neighbours_equal(run: &[u8]) -> bool {
    run.windows(2).any(|pair| pair[0] == pair[1])
}

/// It can occur, and two grades or more that it begins with end it too.
fn overlaps_itself(run: &[u8]) -> bool {
    let ends = |length: usize| run.ends_with(&run[..length]);
    !neighbours_equal(run) && (2..run.len()).any(ends)
}

/// What planning is asked: to one end, or to every end.
struct Question {
    changeovers: Changeovers,
    runs: Vec<Run>,
    start: u8,
    end: Option<u8>,
}

impl Question {
    /// Nothing if it is refused.
    fn new(
        changeovers: Changeovers,
        runs: Vec<Run>,
        start: u8,
        end: Option<u8>,
    ) -> Option<Question> {
        let good = changeovers.has_grade(start) && changeovers.has_grade(end.unwrap_or(start));
        good.then_some(Question { changeovers, runs, start, end })
    }

    fn of_book(bytes: &[u8], batch: Batch, start: u8, end: Option<u8>) -> Option<Question> {
        let book = book::read(bytes).ok()?;
        let runs = binding::known_runs(&book, batch).ok()?;
        Question::new(book.changeovers, runs, start, end)
    }

    fn of_area(
        changeovers: Changeovers,
        area: &[u8],
        known: u64,
        start: u8,
        end: Option<u8>,
    ) -> Option<Question> {
        if area.len() < binding::RUNS_AREA {
            return None;
        }
        let runs = binding::read_area(area, known as usize, changeovers.grades()).ok()?;
        Question::new(changeovers, runs, start, end)
    }

    fn answers(&self, runs: &[Run]) -> Vec<Option<Plan>> {
        let ends = 0..self.changeovers.grades() as u8;
        let asked = ends.filter(|&end| self.end.map_or(true, |only| end == only));
        asked.map(|end| plan::best(&self.changeovers, runs, self.start, end)).collect()
    }

    fn turns_on(&self, sort: fn(&[u8]) -> bool) -> bool {
        let others: Vec<Run> = self.runs.iter().filter(|run| !sort(run)).cloned().collect();
        others.len() < self.runs.len() && self.answers(&self.runs) != self.answers(&others)
    }

    fn has(&self, sort: fn(&[u8]) -> bool) -> bool {
        self.runs.iter().any(|run| sort(run))
    }
}

/// Marks, day, month and year, as inputs have them.
fn batch([a, b, day, month, c, d]: [u8; 6]) -> Batch {
    let date = Date { day, month, year: u16::from_be_bytes([c, d]) };
    Batch { marks: u16::from_be_bytes([a, b]), date }
}

fn plan_question(input: &[u8]) -> Option<Question> {
    match input {
        [a, b, start, end, c, d, e, f, bytes @ ..] => {
            Question::of_book(bytes, batch([*a, *b, *c, *d, *e, *f]), *start, Some(*end))
        }
        _ => None,
    }
}

fn board_question(input: &[u8]) -> Option<Question> {
    match input {
        [a, b, start, c, d, e, f, bytes @ ..] => {
            Question::of_book(bytes, batch([*a, *b, *c, *d, *e, *f]), *start, None)
        }
        _ => None,
    }
}

fn list_question(input: &[u8]) -> Option<Question> {
    let list = List::read(input)?;
    let mut changeovers = Changeovers::new(list.grades.into()).ok()?;
    for &item in &list.items {
        changeovers.add(item).ok()?;
    }
    let known = list.known.into();
    Question::of_area(changeovers, &list.runs_area, known, list.start, Some(list.end))
}

fn any_plan_question(input: &[u8]) -> Option<Question> {
    let Case { record, runs, book, .. } = Case::read(input).ok()?;
    let changeovers = book::read(&book).ok()?.changeovers;
    Question::of_area(changeovers, &runs, record.known, record.start, Some(record.end))
}

fn any_table_question(input: &[u8]) -> Option<Question> {
    let TableCase { start, known, runs, book, .. } = TableCase::read(input).ok()?;
    let changeovers = book::read(&book).ok()?.changeovers;
    Question::of_area(changeovers, &runs, known, start, None)
}

/// Of a hundred inputs, how many have a run that comes back, one that overlaps
/// itself and one with neighbours equal, and how many have an answer that turns on
/// those that come back, and on those that overlap themselves.
fn assert_percents(
    name: &str,
    inputs: &[Vec<u8>],
    question: fn(&[u8]) -> Option<Question>,
    least: [usize; 5],
) {
    let questions: Vec<Question> = inputs.iter().filter_map(|input| question(input)).collect();
    let percent = |holds: &dyn Fn(&Question) -> bool| {
        100 * questions.iter().filter(|question| holds(question)).count() / inputs.len()
    };
    let percents = [
        percent(&|question| question.has(comes_back)),
        percent(&|question| question.has(overlaps_itself)),
        percent(&|question| question.has(neighbours_equal)),
        percent(&|question| question.turns_on(comes_back)),
        percent(&|question| question.turns_on(overlaps_itself)),
    ];
    let enough = percents.iter().zip(&least).all(|(percent, least)| percent >= least);
    assert!(enough, "{name}: {percents:?}, at least {least:?}");
    assert!(questions.iter().all(|question| !question.turns_on(neighbours_equal)), "{name}");
}

/// The plan of a planner that errs: after a false start of a run it begins that
/// run anew with the grade at hand, and so misses one that begins inside itself.
fn mistaken_plan(question: &Question, end: u8) -> Option<Plan> {
    let Question { changeovers, runs, start, .. } = question;
    let begun = |run: &Run, grade: u8| usize::from(run[0] == grade);
    let mut queue = BinaryHeap::new();
    let mut followed = HashSet::new();
    let first: Vec<usize> = runs.iter().map(|run| begun(run, *start)).collect();
    queue.push(Reverse((0, 1, vec![*start], first)));
    while let Some(Reverse((litres, length, lineup, matched))) = queue.pop() {
        let last = lineup[length - 1];
        if last == end {
            return Some(Plan { litres, lineup });
        }
        if !followed.insert((last, matched.clone())) {
            continue;
        }
        for item in changeovers.list().iter().filter(|item| item.from == last) {
            let on = |(run, &at): (&Run, &usize)| {
                if run[at] == item.to {
                    at + 1
                } else {
                    begun(run, item.to)
                }
            };
            let next: Vec<usize> = runs.iter().zip(&matched).map(on).collect();
            if runs.iter().zip(&next).all(|(run, &at)| at < run.len()) {
                let longer = [&lineup[..], &[item.to]].concat();
                let litres = litres + u64::from(item.litres);
                queue.push(Reverse((litres, length + 1, longer, next)));
            }
        }
    }
    None
}

/// Overlaps of a run with itself decide plans.
#[test]
fn plans_differ_from_a_mistaken_planners() {
    let mut different = 0;
    for input in cases(Kind::Plan, 3_000) {
        if let Some(question) = plan_question(&input).filter(|question| question.runs.len() < 20) {
            if let Some(end) = question.end {
                let plan = plan::best(&question.changeovers, &question.runs, question.start, end);
                different += usize::from(mistaken_plan(&question, end) != plan);
            }
        }
    }
    assert!(different > 60, "{different}");
}

fn cases(kind: Kind, count: u64) -> Vec<Vec<u8>> {
    (0..count).map(|index| inputs::case(kind, 2, index)).collect()
}

#[test]
fn plans_turn_on_runs_that_come_back() {
    assert_percents("plan", &cases(Kind::Plan, 3_000), plan_question, [35, 13, 16, 10, 3]);
    let lists: Vec<Vec<u8>> = (0..3_000).map(|index| list_inputs::case(2, index)).collect();
    assert_percents("plan_list", &lists, list_question, [17, 7, 8, 3, 1]);
    let any_plan = cases(Kind::Any(Call::Plan), 2_000);
    assert_percents("any_plan", &any_plan, any_plan_question, [25, 10, 10, 6, 2]);
    // In the largest books few plans meet a run at all, so nothing is asked of the last.
    let largest: Vec<Vec<u8>> = (0..100).map(|i| Source::LargestPlans.case(2, i)).collect();
    assert_percents("largest_plan", &largest, plan_question, [90, 40, 15, 1, 0]);
}

#[test]
fn boards_turn_on_runs_that_come_back() {
    assert_percents("board", &cases(Kind::Board, 2_000), board_question, [36, 14, 17, 10, 3]);
    let any_table = cases(Kind::AnyTable, 1_500);
    assert_percents("any_table", &any_table, any_table_question, [25, 11, 10, 6, 1]);
}

/// The stored vectors hold them as well.
#[test]
fn stored_vectors_turn_on_runs_that_come_back() {
    assert_percents("plan", &vectors::cases(Kind::Plan, 1), plan_question, [27, 11, 12, 7, 2]);
    assert_percents("board", &vectors::cases(Kind::Board, 1), board_question, [20, 7, 9, 4, 1]);
    assert_percents("plan_list", &list_inputs::stored(1), list_question, [11, 3, 6, 3, 1]);
}

/// The run that the check finds.
fn found(book: &[u8], area: &[u8], known: u64, lineup: &[u8]) -> Option<Run> {
    let at = check::check(book, area, known as usize, lineup).ok()??;
    Some(lineup[at.place..at.place + at.length].to_vec())
}

fn found_by_check_lineup(input: &[u8]) -> Option<Run> {
    let (head, rest) = (input.get(..8)?, input.get(8..)?);
    let length = usize::from(u16::from_be_bytes([head[6], head[7]]));
    let (lineup, book) = (rest.get(..length)?, rest.get(length..)?);
    let mut area = vec![0; binding::RUNS_AREA];
    let batch = batch([head[0], head[1], head[2], head[3], head[4], head[5]]);
    let known = binding::bind(book, batch, &mut area).ok()?;
    found(book, &area, known as u64, lineup)
}

fn found_by_any_check(input: &[u8]) -> Option<Run> {
    let case = Case::read(input).ok()?;
    found(&case.book, &case.runs, case.record.known, &case.list)
}

#[test]
fn the_check_finds_runs_that_come_back() {
    for (kind, find, least) in [
        (Kind::CheckLineup, found_by_check_lineup as fn(&[u8]) -> Option<Run>, [30, 10]),
        (Kind::Any(Call::Check), found_by_any_check, [15, 3]),
    ] {
        let runs: Vec<Run> = cases(kind, 2_000).iter().filter_map(|input| find(input)).collect();
        let count = |sort: fn(&[u8]) -> bool| runs.iter().filter(|run| sort(run)).count();
        let counts = [count(comes_back), count(overlaps_itself)];
        assert!(counts[0] >= least[0] && counts[1] >= least[1], "{}: {counts:?}", kind.name());
        assert_eq!(count(neighbours_equal), 0);
    }
}

/// The named runs of a replay that are accepted, and those that 12 refuses.
fn named_runs(input: &[u8]) -> Option<(Vec<Run>, Vec<Run>)> {
    let (mut trials, _, reports) = programs::read_replay(input).ok()?;
    let (mut accepted, mut refused) = (Vec::new(), Vec::new());
    for report in reports {
        match (report, trials.try_report(report)) {
            (Report::Failed(named), Ok(())) => accepted.push(named.to_vec()),
            (Report::Failed(named), Err(Refusal { number: 12, .. })) => {
                refused.push(named.to_vec())
            }
            _ => {}
        }
    }
    Some((accepted, refused))
}

/// Labs name them, and they are accepted; those with neighbours equal are refused.
#[test]
fn labs_name_runs_that_come_back() {
    let replays: Vec<_> =
        cases(Kind::Replay, 2_000).iter().filter_map(|input| named_runs(input)).collect();
    let count = |sort: fn(&[u8]) -> bool| {
        replays.iter().filter(|(accepted, _)| accepted.iter().any(|run| sort(run))).count()
    };
    let (back, overlapping) = (count(comes_back), count(overlaps_itself));
    let equal =
        replays.iter().filter(|(_, refused)| refused.iter().any(|run| neighbours_equal(run)));
    let equal = equal.count();
    assert!(back > 110 && overlapping > 18 && equal > 50, "{back}, {overlapping}, {equal}");
    assert_eq!(count(neighbours_equal), 0);
}

#[test]
fn failed_reports_name_runs_that_come_back() {
    let (mut accepted, mut refused) = (0, 0);
    for input in cases(Kind::Any(Call::Failed), 2_000) {
        if let Ok(case) = Case::read(&input) {
            let printed = case.make(Call::Failed);
            let taken = printed.starts_with("STAGE ");
            accepted += usize::from(taken && comes_back(&case.list));
            refused +=
                usize::from(printed.starts_with("REFUSED 12") && neighbours_equal(&case.list));
        }
    }
    assert!(accepted > 40 && refused > 25, "{accepted} and {refused}");
}

/// The runs of a book that is read.
fn runs_read(input: &[u8]) -> Option<Vec<Run>> {
    let book = book::read(input).ok()?;
    Some(book.sheets.into_iter().flat_map(|sheet| sheet.runs).collect())
}

/// The runs that binding or begin binds.
fn runs_bound(input: &[u8]) -> Option<Vec<Run>> {
    let case = Case::read(input).ok()?;
    binding::known_runs(&book::read(&case.book).ok()?, case.batch).ok()
}

/// The known runs that a call takes.
fn runs_taken(input: &[u8]) -> Option<Vec<Run>> {
    any_plan_question(input).map(|question| question.runs)
}

#[test]
fn books_and_areas_hold_runs_that_come_back() {
    for (kind, runs_of, least) in [
        (Kind::ReadBook, runs_read as fn(&[u8]) -> Option<Vec<Run>>, [500, 200, 300]),
        (Kind::Any(Call::Bind), runs_bound, [750, 310, 280]),
        (Kind::Any(Call::Begin), runs_bound, [750, 310, 280]),
        (Kind::Any(Call::Passed), runs_taken, [600, 300, 250]),
        (Kind::Any(Call::Failed), runs_taken, [600, 300, 250]),
    ] {
        let lists: Vec<Vec<Run>> =
            cases(kind, 2_000).iter().filter_map(|input| runs_of(input)).collect();
        let counts = [comes_back, overlaps_itself, neighbours_equal]
            .map(|sort| lists.iter().filter(|runs| runs.iter().any(|run| sort(run))).count());
        let enough = counts.iter().zip(&least).all(|(count, least)| count >= least);
        assert!(enough, "{}: {counts:?}, at least {least:?}", kind.name());
    }
}

/// The vectors hold the chosen plans: book A with a run more, and the book of turns.
#[test]
fn vectors_hold_the_chosen_plans() {
    let stored = vectors::cases(Kind::Plan, 1);
    let answers = samples::books_with_runs_that_come_back().map(|draft| {
        [0, 1, 2, 3].map(|marks| {
            let input = inputs::plan_input(samples::batch(marks), 0, 3, &draft.bytes());
            assert!(stored.contains(&input));
            Kind::Plan.run(&input)
        })
    });
    assert_eq!(answers[0][3], "LITRES 500 CHANGES 2\n0 1 3\n");
    assert_eq!(answers[1][3], "LITRES 450 CHANGES 5\n0 1 2 1 2 3\n");
    let turns = "LITRES 0 CHANGES 6\n0 1 2 1 2 1 3\n";
    let short = "LITRES 9 CHANGES 1\n0 3\n";
    assert_eq!(answers[2], [turns, short, turns, short]);
}

/// And the chosen trials: on book A named 1 2 1, then 1 3, then 2 1 2.
#[test]
fn vectors_hold_the_chosen_trials() {
    let mut input = inputs::replay_input(samples::batch(3), 0, 3, &samples::book_a().bytes());
    for named in [&[1, 2, 1][..], &[1, 3], &[2, 1, 2]] {
        input.extend(inputs::failed_bytes(named));
    }
    input.push(0);
    assert!(vectors::cases(Kind::Replay, 1).contains(&input));
    let printed = Kind::Replay.run(&input);
    let lines: Vec<&str> = printed.lines().collect();
    assert_eq!([lines[1], lines[3], lines[5]], ["0 1 2 1 2 3", "0 1 3", "0 2 1 2 3"]);
    assert!(
        lines[2].ends_with(" LITRES 500 LENGTH 3") && lines[4].ends_with(" LITRES 500 LENGTH 5")
    );
    assert!(lines[6].starts_with("STAGE 2 ") && lines[6].contains(" FAILED 3 "));
    assert_eq!(lines[7..], ["REFUSED 11"]);
}
