//! Random cases of single calls: most are good but for one fault, some are
//! garbage.

use crate::binding::{self, Batch, ENTRY, MOST_KNOWN, RUNS_AREA};
use crate::book::{self, Book, Run};
use crate::calls::{Call, Case, MOST_AREA};
use crate::changeovers::Changeover;
use crate::check;
use crate::damage::damaged;
use crate::dates::Date;
use crate::draft::Draft;
use crate::faults::{self, faults, Fault};
use crate::generate;
use crate::inputs;
use crate::named_runs;
use crate::plan::LINEUP_AREA;
use crate::programs::{Report, Trials};
use crate::random::Random;
use crate::samples;
use crate::seasons;
use crate::trials::{Record, PASSED, STANDS};

/// The input of a call.
pub fn case(random: &mut Random, call: Call) -> Vec<u8> {
    let mut bytes = any_case(random, call).bytes();
    if random.chance(1) {
        bytes.truncate(random.below(bytes.len()));
    }
    bytes
}

/// A case before it is written, mostly good but for one fault.
pub(crate) fn any_case(random: &mut Random, call: Call) -> Case {
    if random.chance(6) {
        return garbage(random);
    }
    let (draft, mut case) = good(random, call);
    for _ in 0..random.pick(&[0, 0, 1, 1, 1, 1, 1, 1, 2]) {
        if faults::can_be_spoilt(&case) {
            spoil(random, &mut case, call);
        }
    }
    if random.chance(4) {
        case.book = damaged(random, &draft);
    }
    case
}

/// By a fault, or by another named run where the call takes one.
fn spoil(random: &mut Random, case: &mut Case, call: Call) {
    if call == Call::Failed && random.chance(35) {
        named_runs::name_any(random, case);
    } else {
        (any_fault(random, call).spoil)(random, case);
    }
}

/// Mostly one that concerns the call; another changes nothing.
fn any_fault(random: &mut Random, call: Call) -> Fault {
    let all = random.chance(2);
    let concerned = |fault: &Fault| all || fault.part.concerns(call);
    random.pick(&faults().into_iter().filter(concerned).collect::<Vec<_>>())
}

/// A book, and what trials on it left: mostly a line-up of some grades stands.
fn good(random: &mut Random, call: Call) -> (Draft, Case) {
    loop {
        let scene = match random.below(100) {
            0..=5 => inputs::many_runs_draft(random).into(),
            _ => inputs::any_scene(random),
        };
        let book = scene.draft.bytes();
        let (start, end) = inputs::terminals(random, &scene);
        let batch = inputs::good_batch(random, &scene.draft);
        // Start or end may not be below the count.
        if let Ok(trials) = Trials::begin(&book, batch, start, end) {
            if trials.record.length > 1 || random.chance(10) {
                return (scene.draft.clone(), after(random, trials, batch, call));
            }
        }
    }
}

fn after(random: &mut Random, mut trials: Trials, batch: Batch, call: Call) -> Case {
    for _ in 0..random.below(4) {
        let kept = trials.clone();
        if let Some(named) = generate::part_of(random, trials.lineup()) {
            let _ = trials.try_report(Report::Failed(&named));
        }
        if trials.record.stage != STANDS && random.chance(80) {
            trials = kept;
        }
    }
    let book = book::read(trials.book).expect("trials began with this book");
    let mut case = case_of(&trials, batch, &[]);
    if case.record.stage == STANDS {
        if random.chance(40) {
            stand_another(random, &mut case, &book);
        }
        // Then a failed report can come to 13.
        if random.chance(if call == Call::Failed { 35 } else { 6 }) {
            fill_known(random, &mut case, &book);
        }
        if random.chance(6) {
            case.record = Record { stage: PASSED, passed: 1, ..case.record };
        }
    }
    case.list = any_list(random, &case, &book, call);
    around(random, &mut case, call);
    case
}

/// The case of a call on trials as they stand.
pub fn case_of(trials: &Trials, batch: Batch, list: &[u8]) -> Case {
    Case {
        record: trials.record,
        batch,
        runs: trials.runs_area.to_vec(),
        lineup: trials.lineup_area.to_vec(),
        list: list.to_vec(),
        book: trials.book.to_vec(),
    }
}

/// As many known runs as there may be, none in the standing line-up, if the book
/// has grades for them.
fn fill_known(random: &mut Random, case: &mut Case, book: &Book) {
    if book.grades() < 6 {
        return;
    }
    let lineup = &case.lineup[..case.record.length as usize];
    let mut runs = known_runs(case, book);
    while runs.len() < MOST_KNOWN {
        let length = random.between(3, 6);
        let run = generate::any_grades(random, book.grades(), length);
        if !runs.contains(&run) && !check::stands_in(&run, lineup) {
            runs.push(run);
        }
    }
    binding::write_area(&runs, &mut case.runs);
    case.record.known = runs.len() as u64;
    case.record.known_at_start = case.record.known - case.record.failed;
}

fn known_runs(case: &Case, book: &Book) -> Vec<Run> {
    let runs = binding::read_area(&case.runs, case.record.known as usize, book.grades());
    runs.expect("trials left good runs")
}

/// Another line-up from start to end, clear of the known runs: it need not be
/// the least.
fn stand_another(random: &mut Random, case: &mut Case, book: &Book) {
    let runs = known_runs(case, book);
    let most = random.pick(&[4, 20, 60, LINEUP_AREA]);
    let way = clear_walk(random, book, &runs, case.record.start, most);
    let ends: Vec<usize> = (1..=way.len()).filter(|&n| way[n - 1] == case.record.end).collect();
    if let Some(&length) = ends.last().filter(|_| random.chance(50)).or_else(|| ends.first()) {
        let litres = book.changeovers.lineup_litres(&way[..length]);
        case.lineup[..length].copy_from_slice(&way[..length]);
        case.record.length = length as u64;
        case.record.litres = litres.expect("a walk along changeovers is a line-up");
    }
}

/// A random walk that avoids the runs, shorter than asked for at a dead end.
fn clear_walk(random: &mut Random, book: &Book, runs: &[Run], start: u8, most: usize) -> Vec<u8> {
    let items = book.changeovers.list();
    let mut walk = vec![start];
    while walk.len() < most {
        let last = walk[walk.len() - 1];
        let onward: Vec<&Changeover> = items.iter().filter(|item| item.from == last).collect();
        if onward.is_empty() {
            break;
        }
        walk.push(random.pick(&onward).to);
        let tail = &walk[walk.len().saturating_sub(ENTRY)..];
        if check::first_run(tail, runs).is_some() {
            walk.pop();
            // Another way on may be open.
            if random.chance(20) {
                break;
            }
        }
    }
    walk
}

/// The line-up to check, or the run to name.
fn any_list(random: &mut Random, case: &Case, book: &Book, call: Call) -> Vec<u8> {
    let standing = &case.lineup[..case.record.length as usize];
    match call {
        Call::Check if random.chance(20) => standing.to_vec(),
        Call::Check => inputs::any_lineup(random, book),
        Call::Failed if random.chance(20) => named_runs::any(random, standing, book.grades() as u8),
        _ if random.chance(80) => generate::part_of(random, standing).unwrap_or_default(),
        _ => {
            let place = random.below(standing.len() + 1);
            standing[place..].iter().take(random.below(11)).copied().collect()
        }
    }
}

/// Bytes that nothing judges: after the entries and after the line-up; and all
/// of an area that the call writes anew.
fn around(random: &mut Random, case: &mut Case, call: Call) {
    lengthen(random, &mut case.runs);
    lengthen(random, &mut case.lineup);
    let free = case.record.length as usize;
    scribble(random, &mut case.lineup[free..]);
    if matches!(call, Call::Bind | Call::Begin) && random.chance(30) {
        scribble(random, &mut case.runs);
    }
    if matches!(call, Call::Plan | Call::Begin) && random.chance(30) {
        scribble(random, &mut case.lineup);
    }
}

fn lengthen(random: &mut Random, area: &mut Vec<u8>) {
    let more = random.pick(&[0, 0, 0, 1, 9, 400, 700]);
    for _ in 0..more {
        area.push(random.byte());
    }
}

fn scribble(random: &mut Random, area: &mut [u8]) {
    match random.below(10) {
        0 => area.iter_mut().for_each(|byte| *byte = random.byte()),
        1..=3 => area.fill(random.byte()),
        _ => {}
    }
}

/// Any bytes at all; the book is mostly a good one, or the rest would never be
/// judged.
fn garbage(random: &mut Random) -> Case {
    let mut draft = generate::tiny(random);
    seasons::with_seasons(random, &mut draft);
    let date = garbage_date(random, &draft);
    let book = match random.below(10) {
        0 => (0..random.below(60)).map(|_| random.byte() % 5).collect(),
        1 => damaged(random, &draft),
        _ => draft.bytes(),
    };
    let record = Record {
        stage: any_number(random),
        start: random.byte() % 6,
        end: random.byte() % 6,
        known: any_number(random),
        known_at_start: any_number(random),
        failed: any_number(random),
        passed: any_number(random),
        litres: any_number(random),
        length: any_number(random),
    };
    Case {
        record,
        batch: Batch { marks: random.word() as u16, date },
        runs: any_bytes(random, RUNS_AREA),
        lineup: any_bytes(random, LINEUP_AREA),
        list: (0..random.below(12)).map(|_| random.byte() % 6).collect(),
        book,
    }
}

/// Mostly a good one, or 15 would hide the rest.
fn garbage_date(random: &mut Random, draft: &Draft) -> Date {
    if random.chance(75) {
        seasons::good_date(random, &draft.windows())
    } else {
        Date { day: random.byte(), month: random.byte(), year: random.word() as u16 }
    }
}

fn any_number(random: &mut Random) -> u64 {
    match random.below(8) {
        0 => random.word(),
        1 => random.word() >> random.below(64),
        2 => u64::MAX - random.below(4) as u64,
        3 => random.below(300) as u64,
        _ => random.below(4) as u64,
    }
}

/// Mostly about as long as the size that 01 sets.
fn any_bytes(random: &mut Random, size: usize) -> Vec<u8> {
    let length = match random.below(6) {
        0 => random.below(size),
        1 => size - 1,
        2 => size,
        _ => random.between(size, size + 600),
    };
    let mut area = vec![0; length];
    match random.below(4) {
        0 => area.iter_mut().for_each(|byte| *byte = random.byte()),
        1 => area.iter_mut().for_each(|byte| *byte = random.byte() % 4),
        2 => area.fill(random.byte()),
        _ => {}
    }
    area
}

/// The trials on book A with marks 3, just begun, with a run of the line-up to
/// be named.
pub fn begun_on_book_a() -> Case {
    let book = samples::book_a().bytes();
    let batch = samples::batch(3);
    let trials = Trials::begin(&book, batch, 0, 3).expect("the trials of book A begin");
    case_of(&trials, batch, &[1, 2, 3])
}

/// The chosen cases: on book A, with areas of just their size and with larger
/// ones, no fault and each fault that concerns the call.
pub fn chosen(random: &mut Random, call: Call) -> Vec<Vec<u8>> {
    let exact = begun_on_book_a();
    let mut larger = exact.clone();
    larger.runs.resize(RUNS_AREA + 40, 0);
    larger.lineup.truncate(exact.record.length as usize);
    larger.lineup.resize(LINEUP_AREA + 40, 7);
    let mut scribbled = larger.clone();
    scribbled.runs[RUNS_AREA..].fill(255);
    scribbled.lineup[LINEUP_AREA..].fill(255);
    let mut cases = vec![scribbled.bytes()];
    for good in [&exact, &larger] {
        cases.push(good.bytes());
        for fault in faults().into_iter().filter(|fault| fault.part.concerns(call)) {
            let mut case = good.clone();
            (fault.spoil)(random, &mut case);
            cases.push(case.bytes());
        }
    }
    if matches!(call, Call::Bind | Call::Begin) {
        cases.extend(dates(&exact).iter().map(Case::bytes));
    }
    cases.extend(wrong_books(&exact).iter().chain(&wrong_sizes(&exact)).map(Case::bytes));
    let whole = exact.bytes();
    let book_from = whole.len() - exact.book.len();
    cases.extend((0..=book_from + 4).step_by(3).map(|length| whole[..length].to_vec()));
    cases.extend((book_from - 4..book_from).map(|length| whole[..length].to_vec()));
    // About the end of the head, which the date is.
    cases.extend((70..80).map(|length| whole[..length].to_vec()));
    if call == Call::Failed {
        cases.extend(named_runs::single_reports().iter().map(|(case, _)| case.bytes()));
    }
    cases
}

/// Book A with each window of its vapour sheet; a run of two sheets of which one has a
/// window; and the dates that 15 is for, of which one also with what comes before it: 1 to
/// 6 and 14, 8, and 7.
fn dates(good: &Case) -> Vec<Case> {
    let seasons = samples::seasons_of_book_a();
    let mut cases: Vec<Case> = seasons
        .into_iter()
        .map(|(book, batch, _)| Case { batch, book: book.bytes(), ..good.clone() })
        .collect();
    let shared = samples::book_of_a_shared_run().bytes();
    cases.extend(samples::batches_of_a_shared_run().into_iter().map(|batch| Case {
        batch,
        book: shared.clone(),
        ..good.clone()
    }));
    cases.extend(samples::bad_batches().into_iter().map(|batch| Case { batch, ..good.clone() }));
    let bad = Case { batch: samples::bad_batch(), ..good.clone() };
    for end in [good.record.end, 4] {
        let record = Record { end, ..good.record };
        let case = Case { record, ..bad.clone() };
        let short_runs = Case { runs: case.runs[1..].to_vec(), ..case.clone() };
        let short_lineup = Case { lineup: case.lineup[1..].to_vec(), ..case.clone() };
        let bad_window = samples::book_a_in([31, 11, 15, 9]).bytes();
        let bad_book = Case { book: bad_window, ..short_runs.clone() };
        cases.extend([case, short_runs, short_lineup, bad_book]);
    }
    cases
}

/// 1 to 6 come before 8, and so does 14.
fn wrong_books(good: &Case) -> Vec<Case> {
    let book = Case { book: good.book[..good.book.len() - 1].to_vec(), ..good.clone() };
    let book_and_area = Case { runs: Vec::new(), ..book.clone() };
    let empty = Case { book: Vec::new(), runs: Vec::new(), ..good.clone() };
    let window = Case { book: samples::book_a_in([1, 5, 31, 9]).bytes(), ..good.clone() };
    let window_and_area = Case { runs: Vec::new(), ..window.clone() };
    vec![book, book_and_area, empty, window, window_and_area]
}

/// Areas as long as a case may have them, and longer; 8 before 7 and 9.
fn wrong_sizes(good: &Case) -> Vec<Case> {
    let sized = |runs: usize, lineup: usize| {
        let mut case = good.clone();
        case.runs.resize(runs, 0);
        case.lineup.resize(lineup, 0);
        case
    };
    let mut cases = vec![
        sized(MOST_AREA, MOST_AREA),
        sized(MOST_AREA + 1, LINEUP_AREA),
        sized(RUNS_AREA, MOST_AREA + 1),
        sized(65_535, 65_535),
    ];
    let bad = Record { stage: 3, start: 4, end: 4, known: 300, ..good.record };
    for (runs, lineup) in [(RUNS_AREA - 1, LINEUP_AREA), (RUNS_AREA, LINEUP_AREA - 1), (0, 0)] {
        cases.push(Case { record: bad, ..sized(runs, lineup) });
    }
    cases.push(Case { record: bad, ..good.clone() });
    cases
}
