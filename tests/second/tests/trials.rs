//! Trials: the three rules with every byte of both areas, each refusal under
//! its condition, and 01's claims over whole lists of reports.

use second::binding::{Batch, RUNS_AREA};
use second::check;
use second::draft::Draft;
use second::exhaustive;
use second::generate;
use second::inputs::{self, replay_input};
use second::named_runs;
use second::plan::LINEUP_AREA;
use second::programs::{self, Report, Trials};
use second::random::Random;
use second::refusal::Refusal;
use second::samples::{self, batch};
use second::seasons;
use second::trials::{self, Record, NONE, PASSED, STANDS};
use std::collections::HashSet;

const BAD_BOOK: &[u8] = &[1, 0, 1, 0];

fn plain<T>(number: u8) -> Result<T, Refusal> {
    Err(Refusal::plain(number))
}

/// A call's record and areas, a few bytes longer than they have to be.
#[derive(Clone, Debug, PartialEq)]
struct State {
    record: Record,
    runs_area: Vec<u8>,
    lineup_area: Vec<u8>,
}

fn begun(book: &[u8], batch: Batch, start: u8, end: u8) -> State {
    let mut runs_area = vec![0x55; RUNS_AREA + 2];
    let mut lineup_area = vec![0x66; LINEUP_AREA + 2];
    let record = trials::begin(book, batch, start, end, &mut runs_area, &mut lineup_area).unwrap();
    State { record, runs_area, lineup_area }
}

impl State {
    /// Refused or not, the areas are as the call left them.
    fn failed(&mut self, book: &[u8], named: &[u8]) -> Result<Record, Refusal> {
        trials::report_failed(book, self.record, &mut self.runs_area, &mut self.lineup_area, named)
    }

    fn passed(&self, book: &[u8]) -> Result<Record, Refusal> {
        trials::report_passed(book, self.record, &self.runs_area, &self.lineup_area)
    }

    fn entry(&self, place: usize) -> &[u8] {
        &self.runs_area[place * 9..place * 9 + 9]
    }
}

#[test]
fn begin_fills_both_areas() {
    let state = begun(&samples::book_a().bytes(), batch(3), 0, 3);
    let record = Record {
        stage: 0,
        start: 0,
        end: 3,
        known: 2,
        known_at_start: 2,
        failed: 0,
        passed: 0,
        litres: 450,
        length: 6,
    };
    assert_eq!(state.record, record);
    assert_eq!(state.lineup_area[..7], [0, 1, 2, 1, 2, 3, 0x66]);
    assert!(state.lineup_area[6..].iter().all(|&byte| byte == 0x66));
    assert_eq!(state.entry(1), [3, 0, 2, 3, 0, 0, 0, 0, 0]);
    assert!(state.runs_area[18..RUNS_AREA].iter().all(|&byte| byte == 0));
    assert_eq!(state.runs_area[RUNS_AREA..], [0x55; 2]);
}

#[test]
fn begin_with_none_fills_the_runs_area_alone() {
    let state = begun(&samples::book_a().bytes(), batch(3), 3, 0);
    assert_eq!((state.record.stage, state.record.length, state.record.litres), (2, 0, 0));
    assert_eq!(state.entry(0), [4, 0, 1, 2, 3, 0, 0, 0, 0]);
    assert!(state.lineup_area.iter().all(|&byte| byte == 0x66));
}

#[test]
fn begin_refuses_in_order_and_writes_nothing() {
    let book = samples::book_a().bytes();
    let mut runs_area = vec![0x55; RUNS_AREA];
    let mut lineup_area = vec![0x66; LINEUP_AREA];
    let mut refused = |book: &[u8], batch, end, runs_from: usize, lineup_from: usize| {
        let (runs, lineup) = (&mut runs_area[runs_from..], &mut lineup_area[lineup_from..]);
        trials::begin(book, batch, 0, end, runs, lineup)
    };
    let bad_window = samples::book_a_in([1, 5, 31, 9]).bytes();
    for batch in [batch(3), samples::bad_batch()] {
        assert_eq!(refused(BAD_BOOK, batch, 9, 1, 1), Err(Refusal::at(4, 0)));
        assert_eq!(refused(&bad_window, batch, 9, 1, 1), Err(Refusal::at(14, 70)));
        assert_eq!(refused(&book, batch, 9, 1, 0), plain(8));
        assert_eq!(refused(&book, batch, 3, 0, 1), plain(8));
        assert_eq!(refused(&book, batch, 4, 0, 0), plain(7));
    }
    assert_eq!(refused(&book, samples::bad_batch(), 3, 0, 0), plain(15));
    assert!(runs_area.iter().all(|&byte| byte == 0x55));
    assert!(lineup_area.iter().all(|&byte| byte == 0x66));
}

#[test]
fn a_passed_report_moves_the_record_alone() {
    let book = samples::book_a().bytes();
    let state = begun(&book, batch(3), 0, 3);
    let record = state.passed(&book).unwrap();
    assert_eq!(record, Record { stage: 1, passed: 1, ..state.record });
    assert_eq!(record.trials(), 1);
}

#[test]
fn a_failed_report_plans_anew_and_keeps_the_bytes_after() {
    let book = samples::book_a().bytes();
    let mut state = begun(&book, batch(3), 0, 3);
    state.record = state.failed(&book, &[1, 2, 3]).unwrap();
    assert_eq!(state.entry(2), [3, 1, 2, 3, 0, 0, 0, 0, 0]);
    assert!(state.runs_area[27..RUNS_AREA].iter().all(|&byte| byte == 0));
    // The new plan is 0 1 3; after it stands what was left of 0 1 2 1 2 3.
    assert_eq!(state.lineup_area[..7], [0, 1, 3, 1, 2, 3, 0x66]);
    state.record = state.failed(&book, &[1, 3]).unwrap();
    assert_eq!(state.entry(3), [2, 1, 3, 0, 0, 0, 0, 0, 0]);
    assert_eq!(state.lineup_area[..7], [0, 1, 3, 1, 2, 3, 0x66]);
    let Record { stage, known, known_at_start, failed, passed, litres, length, .. } = state.record;
    assert_eq!(
        (stage, known, known_at_start, failed, passed, litres, length),
        (2, 4, 2, 2, 0, 0, 0)
    );
}

/// Makes both reports on a state and expects the same refusal and no change.
fn assert_both_refused(state: &State, book: &[u8], named: &[u8], refusal: Refusal) {
    let mut after = state.clone();
    assert_eq!(after.failed(book, named), Err(refusal), "{:?}", state.record);
    assert_eq!(after, *state);
    assert_eq!(state.passed(book), Err(refusal), "{:?}", state.record);
}

#[test]
fn reports_refuse_1_to_6_then_8_then_9_then_11() {
    let book = samples::book_a().bytes();
    let good = begun(&book, batch(3), 0, 3);
    let mut bad = good.clone();
    bad.record.stage = 3;
    let mut short = bad.clone();
    short.runs_area.truncate(RUNS_AREA - 1);
    assert_both_refused(&short, BAD_BOOK, &[], Refusal::at(4, 0));
    assert_both_refused(&short, &book, &[], Refusal::plain(8));
    let mut short = bad.clone();
    short.lineup_area.truncate(LINEUP_AREA - 1);
    assert_both_refused(&short, &book, &[], Refusal::plain(8));
    assert_both_refused(&bad, &book, &[], Refusal::plain(9));
    let mut over = good.clone();
    over.record = over.passed(&book).unwrap();
    assert_both_refused(&over, &book, &[], Refusal::plain(11));
    let none = begun(&book, batch(3), 3, 0);
    assert_both_refused(&none, &book, &[0, 1], Refusal::plain(11));
}

/// Changes one thing in the state after a failed report and expects 9.
fn assert_9(change: impl Fn(&mut State)) {
    let book = samples::book_a().bytes();
    let mut state = begun(&book, batch(3), 0, 3);
    state.record = state.failed(&book, &[1, 2, 3]).unwrap();
    assert!(state.passed(&book).is_ok());
    let before = state.clone();
    change(&mut state);
    assert_ne!(state, before);
    assert_both_refused(&state, &book, &[0, 1], Refusal::plain(9));
}

#[test]
fn every_condition_of_9_on_a_record() {
    assert_9(|state| state.record.stage = 3);
    assert_9(|state| state.record.stage = u64::MAX);
    assert_9(|state| state.record.start = 4);
    assert_9(|state| state.record.end = 4);
    assert_9(|state| state.record.end = 255);
    assert_9(|state| state.record.known_at_start = 3);
    assert_9(|state| state.record.failed = 0);
    assert_9(|state| (state.record.known_at_start, state.record.failed) = (4, u64::MAX));
    assert_9(|state| state.record.known = 2);
    assert_9(|state| state.record.known = 257);
    assert_9(|state| state.record.known = u64::MAX);
    assert_9(|state| state.record.passed = 1);
    assert_9(|state| state.record.stage = PASSED);
    assert_9(|state| (state.record.stage, state.record.passed) = (PASSED, 2));
    assert_9(|state| state.record.stage = NONE);
    assert_9(|state| (state.record.stage, state.record.length) = (NONE, 0));
    assert_9(|state| (state.record.stage, state.record.litres) = (NONE, 0));
    assert_9(|state| {
        (state.record.stage, state.record.length, state.record.litres) = (NONE, 0, 0);
        state.record.passed = 1;
    });
    assert_9(|state| state.record.length = 0);
    assert_9(|state| state.record.length = 2);
    assert_9(|state| state.record.length = 1_601);
    assert_9(|state| state.record.length = u64::MAX);
    assert_9(|state| state.record.litres = 499);
    assert_9(|state| state.record.start = 1);
    assert_9(|state| state.record.end = 1);
    assert_9(|state| state.lineup_area[1] = 2);
    assert_9(|state| state.lineup_area[1] = 9);
    assert_9(|state| state.runs_area[0] = 9);
    assert_9(|state| state.runs_area[8] = 1);
    assert_9(|state| state.runs_area[27] = 2);
    assert_9(|state| state.runs_area[RUNS_AREA - 1] = 1);
    // 0 2 1 3 is a line-up, but the run 0 2 3 becomes 2 1 3.
    assert_9(|state| {
        state.lineup_area[..4].copy_from_slice(&[0, 2, 1, 3]);
        (state.record.length, state.record.litres) = (4, 700);
        state.runs_area[9..13].copy_from_slice(&[3, 2, 1, 3]);
    });
    // Passed, with all of these right, is no 9 but 11.
    let book = samples::book_a().bytes();
    let mut state = begun(&book, batch(3), 0, 3);
    (state.record.stage, state.record.passed) = (PASSED, 1);
    assert_both_refused(&state, &book, &[], Refusal::plain(11));
}

#[test]
fn records_that_no_9_is_for() {
    let book = samples::book_a().bytes();
    // A line-up that is valid but not the least: 0 2 1 2 3.
    let mut state = begun(&book, batch(3), 0, 3);
    state.lineup_area[..5].copy_from_slice(&[0, 2, 1, 2, 3]);
    (state.record.length, state.record.litres) = (5, 500);
    assert!(state.passed(&book).is_ok());
    let record = state.failed(&book, &[2, 1]).unwrap();
    assert_eq!((record.stage, record.litres, record.known), (0, 500, 3));
    assert_eq!(state.lineup_area[..5], [0, 1, 3, 2, 3]);
    // Counts that add up otherwise than binding would have it.
    let mut state = begun(&book, batch(3), 0, 3);
    (state.record.known_at_start, state.record.failed) = (0, 2);
    assert!(state.passed(&book).is_ok());
    // None where a plan exists, and bytes after the areas' sizes.
    let mut state = begun(&book, batch(3), 0, 3);
    (state.record.stage, state.record.length, state.record.litres) = (NONE, 0, 0);
    assert_both_refused(&state, &book, &[], Refusal::plain(11));
    let mut state = begun(&book, batch(3), 0, 3);
    state.runs_area[RUNS_AREA] = 9;
    assert!(state.passed(&book).is_ok());
    // Back to the start: 1 2 1 from 1 to 1.
    let mut state = begun(&book, batch(3), 1, 1);
    assert_eq!((state.record.length, state.record.litres), (1, 0));
    state.lineup_area[..3].copy_from_slice(&[1, 2, 1]);
    (state.record.length, state.record.litres) = (3, 150);
    assert!(state.passed(&book).is_ok());
}

#[test]
fn a_standing_line_up_may_have_1600_grades() {
    let book = Draft::new(2).changeover(0, 1, 3).changeover(1, 0, 4).bytes();
    let mut state = begun(&book, batch(0), 0, 1);
    for place in 0..LINEUP_AREA {
        state.lineup_area[place] = (place % 2) as u8;
    }
    (state.record.length, state.record.litres) = (1_600, 800 * 3 + 799 * 4);
    assert!(state.passed(&book).is_ok());
    assert_eq!(state.failed(&book, &[1, 0]).map(|record| record.litres), Ok(3));
}

#[test]
fn named_runs_that_16_17_and_12_are_for() {
    let book = samples::book_a().bytes();
    let state = begun(&book, batch(3), 0, 3);
    // The standing line-up is 0 1 2 1 2 3.
    for (named, number) in [
        (&[][..], 16),
        (&[0], 16),
        (&[4], 16),
        (&[0, 1, 2, 1, 2, 3, 0, 1, 2], 16),
        (&[0, 1, 2, 1, 2, 3, 0, 1, 4], 16),
        (&[2, 4], 17),
        (&[255, 0], 17),
        (&[0, 1, 2, 1, 2, 3, 0, 4], 17),
        (&[1, 1], 12),
        (&[0, 1, 1, 2], 12),
        (&[2, 1, 2, 1], 12),
        (&[0, 2], 12),
        (&[3, 2], 12),
        (&[0, 1, 2, 3], 12),
        (&[0, 2, 3], 12),
    ] {
        let mut after = state.clone();
        assert_eq!(after.failed(&book, named), plain(number), "{named:?}");
        assert_eq!(after, state);
    }
    for named in [&[0, 1][..], &[2, 3], &[1, 2, 3], &[2, 1], &[0, 1, 2]] {
        assert!(state.clone().failed(&book, named).is_ok(), "{named:?}");
    }
    for named in [&[1, 2, 1][..], &[2, 1, 2], &[1, 2, 1, 2], &[0, 1, 2, 1, 2, 3]] {
        assert!(state.clone().failed(&book, named).is_ok(), "{named:?}");
    }
}

/// From marks 3, named 1 2 1, then 1 3, then 2 1 2.
#[test]
fn named_runs_that_come_back() {
    let book = samples::book_a().bytes();
    let mut state = begun(&book, batch(3), 0, 3);
    state.record = state.failed(&book, &[1, 2, 1]).unwrap();
    assert_eq!((state.record.litres, &state.lineup_area[..3]), (500, &[0, 1, 3][..]));
    assert_eq!(state.entry(2), [3, 1, 2, 1, 0, 0, 0, 0, 0]);
    state.record = state.failed(&book, &[1, 3]).unwrap();
    assert_eq!((state.record.litres, &state.lineup_area[..5]), (500, &[0, 2, 1, 2, 3][..]));
    assert_eq!(state.clone().failed(&book, &[1, 2, 1]), plain(12));
    state.record = state.failed(&book, &[2, 1, 2]).unwrap();
    assert_eq!((state.record.stage, state.record.failed, state.record.known), (NONE, 3, 5));
    assert_eq!(state.entry(4), [3, 2, 1, 2, 0, 0, 0, 0, 0]);
}

#[test]
fn a_named_run_has_at_most_8_grades() {
    let book = generate::line(10, true, 1).bytes();
    let mut state = begun(&book, batch(0), 0, 9);
    let nine: Vec<u8> = (0..9).collect();
    assert_eq!(state.failed(&book, &nine), plain(16));
    assert_eq!(state.failed(&book, &nine[..8]).map(|record| record.stage), Ok(NONE));
}

#[test]
fn the_257th_known_run_is_13() {
    let book = named_runs::book_with_256_known().bytes();
    let state = begun(&book, batch(0), 62, 63);
    assert_eq!((state.record.known, state.record.litres), (256, 10));
    let mut after = state.clone();
    assert_eq!(after.failed(&book, &[62, 61]), plain(13));
    assert_eq!(after.failed(&book, &[62, 63]), plain(12));
    assert_eq!(after.failed(&book, &[0, 16]), plain(12));
    assert_eq!(after.failed(&book, &[62]), plain(16));
    assert_eq!(after.failed(&book, &[62, 64]), plain(17));
    assert_eq!(after, state);
    let record = state.passed(&book).unwrap();
    let over = State { record, ..state };
    assert_both_refused(&over, &book, &[62, 61], Refusal::plain(11));
}

#[test]
fn the_256th_known_run_is_accepted() {
    let book = named_runs::book_with_255_known().bytes();
    let mut state = begun(&book, batch(0), 62, 63);
    state.record = state.failed(&book, &[62, 61]).unwrap();
    assert_eq!((state.record.known, state.record.failed, state.record.litres), (256, 1, 11));
    assert_eq!(state.entry(255), [2, 62, 61, 0, 0, 0, 0, 0, 0]);
    assert_eq!(state.lineup_area[..3], [62, 63, 63]);
    assert_eq!(state.clone().failed(&book, &[62, 63]), plain(13));
}

fn replayed(reports: &[&[u8]]) -> String {
    let mut input = replay_input(batch(3), 0, 3, &samples::book_a().bytes());
    input.extend(reports.concat());
    programs::replay(&input)
}

#[test]
fn replay_prints_each_step() {
    let begun = "STAGE 0 START 0 END 3 KNOWN 2 AT-START 2 FAILED 0 PASSED 0 LITRES 450 LENGTH 6\n0 1 2 1 2 3\n";
    let second =
        "STAGE 0 START 0 END 3 KNOWN 3 AT-START 2 FAILED 1 PASSED 0 LITRES 500 LENGTH 3\n0 1 3\n";
    let passed =
        "STAGE 1 START 0 END 3 KNOWN 3 AT-START 2 FAILED 1 PASSED 1 LITRES 500 LENGTH 3\n0 1 3\n";
    let none = "STAGE 2 START 0 END 3 KNOWN 4 AT-START 2 FAILED 2 PASSED 0 LITRES 0 LENGTH 0\n";
    let first_run: &[u8] = &[1, 3, 1, 2, 3];
    assert_eq!(replayed(&[]), begun);
    assert_eq!(
        replayed(&[&[1, 0], &[1, 2, 0, 2], first_run, &[1, 2, 2, 3], &[0], &[0], first_run]),
        format!(
            "{begun}REFUSED 16\nREFUSED 12\n{second}REFUSED 12\n{passed}REFUSED 11\nREFUSED 11\n"
        )
    );
    assert_eq!(
        replayed(&[first_run, &[1, 2, 1, 3], &[0], &[1, 0]]),
        format!("{begun}{second}{none}REFUSED 11\nREFUSED 11\n")
    );
}

#[test]
fn replay_ends_its_list() {
    let begun = replayed(&[]);
    for tail in [&[1][..], &[1, 3], &[1, 3, 1, 2], &[1, 255, 0], &[2], &[2, 0], &[255, 0]] {
        assert_eq!(replayed(&[tail]), begun, "{tail:?}");
    }
}

#[test]
fn replay_refuses_begin() {
    let book = samples::book_a().bytes();
    let whole = [replay_input(batch(3), 0, 3, &book), vec![0]].concat();
    for length in 0..whole.len() - 1 {
        assert_eq!(programs::replay(&whole[..length]), "REFUSED 1 AT 0\n", "{length}");
    }
    let replayed = |batch, end, book: &[u8]| {
        programs::replay(&[replay_input(batch, 0, end, book), vec![0]].concat())
    };
    assert_eq!(replayed(batch(3), 4, &book), "REFUSED 7\n");
    assert_eq!(replayed(batch(3), 9, &book[..80]), "REFUSED 1 AT 75\n");
    assert_eq!(replayed(batch(3), 9, &[]), "REFUSED 1 AT 0\n");
    let bad = samples::bad_batch();
    assert_eq!(replayed(bad, 3, &book), "REFUSED 15\n");
    assert_eq!(replayed(bad, 4, &book), "REFUSED 7\n");
    assert_eq!(replayed(bad, 4, &samples::book_a_in([0, 1, 1, 1]).bytes()), "REFUSED 14 AT 70\n");
}

#[test]
fn replay_meets_13_and_passes() {
    for seed in 0..3 {
        let printed = programs::replay(&inputs::replay_past_256(&mut Random::new(&[seed])));
        let last: Vec<&str> = printed.lines().rev().take(7).collect();
        // From the last: a report after the end twice, the passed line-up, then
        // 13 for a run that stands, 12 for one that is known, 13.
        assert_eq!(&last[..2], &["REFUSED 11", "REFUSED 11"]);
        assert!(last[3].starts_with("STAGE 1 ") && last[3].contains(" KNOWN 256 "), "{printed}");
        assert_eq!(&last[4..], &["REFUSED 13", "REFUSED 12", "REFUSED 13"]);
    }
}

/// Demand 3 on random books: labs true to a set of runs, in any order, with
/// refused reports mixed in.
#[test]
fn true_labs_end_in_the_best_line_up_or_none() {
    let mut endings = [0; 3];
    let mut comes_back = 0;
    for seed in 0..2_000 {
        let random = &mut Random::new(&[3, seed]);
        let (mut draft, start, end) = book_for_trials(random);
        seasons::with_seasons(random, &mut draft);
        let date = seasons::good_date(random, &draft.windows());
        let batch = Batch { marks: 3, date };
        let book = generate::read(&draft);
        let bytes = draft.bytes();
        let mut trials = Trials::begin(&bytes, batch, start, end).unwrap();
        let count = random.below(20);
        let mut set = generate::random_runs(random, book.grades(), &book.changeovers.list(), count);
        set.extend(generate::part_of(random, trials.lineup()).filter(|_| random.chance(30)));
        let reports = run_true_lab(random, &mut trials, &set);
        let record = trials.record;
        assert_eq!(record.trials(), reports);

        let mut all = generate::runs_of(&book, batch);
        let unknown: HashSet<&Vec<u8>> = set.iter().filter(|run| !all.contains(run)).collect();
        assert!(record.failed <= unknown.len() as u64);
        all.extend(set.clone());
        let best = exhaustive::best_first(&book.changeovers, &all, start, end);
        endings[record.stage as usize] += 1;
        comes_back += usize::from(named(&trials).iter().any(|run| generate::comes_back(run)));
        match best {
            None => assert_eq!(record.stage, NONE),
            Some(plan) => {
                assert_eq!((record.stage, record.litres), (PASSED, plan.litres));
                assert!(all.iter().all(|run| !check::stands_in(run, trials.lineup())));
            }
        }
    }
    assert!(endings[0] == 0 && endings[1] > 200 && endings[2] > 200, "{endings:?}");
    assert!(comes_back > 40, "{comes_back}");
}

fn book_for_trials(random: &mut Random) -> (Draft, u8, u8) {
    let draft = match random.below(3) {
        0 => return generate::turning(random),
        1 => generate::tiny(random),
        _ => generate::small(random),
    };
    let grades = generate::read(&draft).grades();
    (draft, random.below(grades) as u8, random.below(grades) as u8)
}

/// The runs that the lab named.
fn named(trials: &Trials) -> Vec<Vec<u8>> {
    let Record { known, known_at_start, .. } = trials.record;
    let grades = second::book::read(trials.book).unwrap().grades();
    let runs = second::binding::read_area(&trials.runs_area, known as usize, grades).unwrap();
    runs[known_at_start as usize..].to_vec()
}

/// Reports until the trials are over, and gives the number of accepted ones.
fn run_true_lab(random: &mut Random, trials: &mut Trials, set: &[Vec<u8>]) -> u64 {
    let mut accepted = 0;
    while trials.record.stage == STANDS {
        let before = (trials.record, trials.runs_area, trials.lineup_area);
        if random.chance(30) {
            let (named, number) = random.pick(&[(&[0][..], 16), (&[0, 255], 17), (&[0, 0], 12)]);
            assert_eq!(trials.try_report(Report::Failed(named)), plain(number));
            assert_eq!((trials.record, trials.runs_area, trials.lineup_area), before);
        }
        let standing = |run: &&Vec<u8>| check::stands_in(run, trials.lineup());
        let found: Vec<Vec<u8>> = set.iter().filter(standing).cloned().collect();
        let report = match found.is_empty() {
            true => trials.try_report(Report::Passed),
            false => trials.try_report(Report::Failed(&random.pick(&found))),
        };
        assert_eq!(report, Ok(()), "a true report is refused");
        accepted += 1;
    }
    accepted
}
