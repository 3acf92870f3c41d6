//! Random inputs of the programs: a kind, a seed and an index give one case.

use crate::any_inputs;
use crate::binding::{Batch, ENTRY};
use crate::book::{self, Book, Run, LONGEST_RUN};
use crate::changeovers::Changeover;
use crate::check;
use crate::content_inputs;
use crate::damage::damaged;
use crate::dates::Date;
use crate::draft::Draft;
use crate::generate::{self, Size};
use crate::kinds::Kind;
use crate::named_runs;
use crate::pass_inputs;
use crate::plan::LINEUP_AREA;
use crate::programs::{Report, Trials, MOST_INPUT};
use crate::random::Random;
use crate::samples;
use crate::seasons;
use crate::table_inputs;
use crate::trials::STANDS;

/// The case of a kind with this seed and index.
pub fn case(kind: Kind, seed: u64, index: u64) -> Vec<u8> {
    let random = &mut Random::new(&[kind.word(), seed, index]);
    match kind {
        Kind::ReadBook => read_book_case(random),
        Kind::CheckLineup => check_lineup_case(random),
        Kind::Replay => replay_case(random),
        Kind::Plan => plan_case(random),
        Kind::Any(call) => any_inputs::case(random, call),
        Kind::Board => board_case(random),
        Kind::AnyTable => table_inputs::case(random),
        Kind::Passes => pass_inputs::case(random),
        Kind::Rewrite => content_inputs::book(random),
        Kind::WriteBook => content_inputs::case(random),
    }
}

/// A book that keeps the rules, and the start and end that it was made for, if
/// any.
pub struct Scene {
    pub draft: Draft,
    made_for: Option<(u8, u8)>,
}

impl From<Draft> for Scene {
    fn from(draft: Draft) -> Scene {
        Scene { draft, made_for: None }
    }
}

/// Most scenes are tiny, a few large. Half of those with sheets have windows.
pub fn any_scene(random: &mut Random) -> Scene {
    let mut scene = scene_without_windows(random);
    seasons::with_seasons(random, &mut scene.draft);
    scene
}

fn scene_without_windows(random: &mut Random) -> Scene {
    match random.below(1000) {
        0 => generate::largest(random).into(),
        1..=20 => generate::typical(random).into(),
        21..=200 => generate::small(random).into(),
        201..=400 => grown_scene(random),
        401..=580 => turning_scene(random),
        581..=590 => wheels_scene(random),
        591..=600 => line_scene(random),
        _ => generate::tiny(random).into(),
    }
}

fn grown_scene(random: &mut Random) -> Scene {
    let grades = random.between(3, 12);
    let changeovers = random.between(grades, 4 * grades).min(generate::pairs(grades));
    let runs = random.between(1, 30);
    let litres = random.pick(&[vec![0], vec![1], vec![0, 1], vec![1, 2, 3, 100]]);
    let start = random.below(grades);
    let end = (start + random.between(1, grades - 1)) % grades;
    let (start, end) = (start as u8, end as u8);
    let size = Size { grades, changeovers, sheets: 0, runs };
    let draft = generate::grown(random, size, &litres, start, end);
    Scene { draft, made_for: Some((start, end)) }
}

fn turning_scene(random: &mut Random) -> Scene {
    let (draft, start, end) = generate::turning(random);
    Scene { draft, made_for: Some((start, end)) }
}

fn wheels_scene(random: &mut Random) -> Scene {
    let spokes = [random.between(3, 9) as u8];
    let made_for = Some((0, generate::wheels_end(&spokes)));
    Scene { draft: generate::wheels(&spokes, None), made_for }
}

fn line_scene(random: &mut Random) -> Scene {
    let grades = random.between(2, 64) as u8;
    let upward = random.chance(50);
    let made_for = if upward { (0, grades - 1) } else { (grades - 1, 0) };
    let draft = generate::line(grades, upward, random.below(3) as u32);
    Scene { draft, made_for: Some(made_for) }
}

/// A book's bytes, damaged so often in a hundred.
pub(crate) fn book_bytes(random: &mut Random, draft: &Draft, percent: usize) -> Vec<u8> {
    if random.chance(percent) {
        damaged(random, draft)
    } else {
        draft.bytes()
    }
}

fn read_book_case(random: &mut Random) -> Vec<u8> {
    let draft = any_scene(random).draft;
    book_bytes(random, &draft, 70)
}

/// A start or end: mostly a grade of the book, sometimes just outside.
fn terminal(random: &mut Random, book: &Book) -> u8 {
    match random.below(40) {
        0 => book.grades() as u8,
        1 => random.byte(),
        _ => random.below(book.grades()) as u8,
    }
}

/// Start and end: what the scene was made for, or any, mostly different.
pub fn terminals(random: &mut Random, scene: &Scene) -> (u8, u8) {
    if let Some(terminals) = scene.made_for.filter(|_| random.chance(75)) {
        return terminals;
    }
    let book = generate::read(&scene.draft);
    let (start, end) = (terminal(random, &book), terminal(random, &book));
    let other = if start == end { terminal(random, &book) } else { end };
    (start, other)
}

/// Marks, and a date beside the windows of the book.
pub fn any_batch(random: &mut Random, draft: &Draft) -> Batch {
    let marks = generate::batch_marks(random);
    Batch { marks, date: seasons::any_date(random, &draft.windows()) }
}

/// The same with a good date.
pub fn good_batch(random: &mut Random, draft: &Draft) -> Batch {
    let marks = generate::batch_marks(random);
    Batch { marks, date: seasons::good_date(random, &draft.windows()) }
}

/// A start that is bad now and then where the date is: 7 comes before 15.
fn start_beside(random: &mut Random, date: Date, start: u8) -> u8 {
    if !date.is_good() && random.chance(20) {
        random.pick(&[64, 255])
    } else {
        start
    }
}

fn plan_case(random: &mut Random) -> Vec<u8> {
    let scene = any_scene(random);
    let batch = any_batch(random, &scene.draft);
    let (start, end) = terminals(random, &scene);
    let start = start_beside(random, batch.date, start);
    let book = book_bytes(random, &scene.draft, 13);
    let mut input = plan_input(batch, start, end, &book);
    other_length(random, &mut input);
    input
}

/// Now and then shorter than a book can be, or longer than the bytes that are
/// read.
pub(crate) fn other_length(random: &mut Random, input: &mut Vec<u8>) {
    match random.below(250) {
        0..=2 => input.truncate(random.below(10)),
        3 => input.resize(MOST_INPUT + random.below(3), random.below(5) as u8),
        _ => {}
    }
}

/// The input of `plan`.
pub fn plan_input(batch: Batch, start: u8, end: u8, book: &[u8]) -> Vec<u8> {
    let mut input = batch.marks.to_be_bytes().to_vec();
    input.extend([start, end]);
    input.extend(batch.date.bytes());
    input.extend(book);
    input
}

fn board_case(random: &mut Random) -> Vec<u8> {
    let scene = any_scene(random);
    let batch = any_batch(random, &scene.draft);
    let (start, _) = terminals(random, &scene);
    let start = start_beside(random, batch.date, start);
    let book = book_bytes(random, &scene.draft, 10);
    let mut input = board_input(batch, start, &book);
    other_length(random, &mut input);
    input
}

/// The input of `board`.
pub fn board_input(batch: Batch, start: u8, book: &[u8]) -> Vec<u8> {
    let mut input = batch.marks.to_be_bytes().to_vec();
    input.push(start);
    input.extend(batch.date.bytes());
    input.extend(book);
    input
}

fn check_lineup_case(random: &mut Random) -> Vec<u8> {
    let draft = any_scene(random).draft;
    let lineup = any_lineup(random, &generate::read(&draft));
    let book = book_bytes(random, &draft, 8);
    let mut input = check_lineup_input(any_batch(random, &draft), &lineup, &book);
    if random.chance(3) {
        input.truncate(random.below(lineup.len() + 10));
    }
    input
}

/// The input of `check_lineup`.
pub fn check_lineup_input(batch: Batch, lineup: &[u8], book: &[u8]) -> Vec<u8> {
    let mut input = batch.marks.to_be_bytes().to_vec();
    input.extend(batch.date.bytes());
    input.extend((lineup.len() as u16).to_be_bytes());
    input.extend(lineup);
    input.extend(book);
    input
}

/// A line-up of the book, now and then spoilt or of a length near the limits.
pub fn any_lineup(random: &mut Random, book: &Book) -> Vec<u8> {
    let length = match random.below(60) {
        0 => 0,
        1 => LINEUP_AREA,
        2 => LINEUP_AREA + 1,
        3..=20 => random.between(1, 4),
        _ => random.between(2, 40),
    };
    let mut lineup = walk(random, book, length);
    if random.chance(8) && !lineup.is_empty() {
        let place = random.below(lineup.len());
        lineup[place] =
            if random.chance(70) { random.below(book.grades()) as u8 } else { random.byte() };
    }
    lineup
}

/// A random walk along changeovers, shorter than asked for at a dead end.
fn walk(random: &mut Random, book: &Book, length: usize) -> Vec<u8> {
    let items = book.changeovers.list();
    let mut lineup = Vec::new();
    if length > 0 {
        lineup.push(random.below(book.grades()) as u8);
    }
    while lineup.len() < length {
        let last = lineup[lineup.len() - 1];
        let onward: Vec<&Changeover> = items.iter().filter(|item| item.from == last).collect();
        if onward.is_empty() {
            break;
        }
        lineup.push(random.pick(&onward).to);
    }
    lineup
}

fn replay_case(random: &mut Random) -> Vec<u8> {
    let scene = if random.chance(2) { many_runs_draft(random).into() } else { any_scene(random) };
    let batch = any_batch(random, &scene.draft);
    let (start, end) = terminals(random, &scene);
    let start = start_beside(random, batch.date, start);
    let book = book_bytes(random, &scene.draft, 4);
    let mut input = replay_input(batch, start, end, &book);
    if let Ok(trials) = Trials::begin(&book, batch, start, end) {
        input.extend(lab_reports(random, trials));
    }
    spoil_tail(random, &mut input);
    input
}

/// The input of `replay` up to its reports.
pub fn replay_input(batch: Batch, start: u8, end: u8, book: &[u8]) -> Vec<u8> {
    let mut input = batch.marks.to_be_bytes().to_vec();
    input.extend([start, end]);
    input.extend(batch.date.bytes());
    input.extend((book.len() as u32).to_be_bytes());
    input.extend(book);
    input
}

/// A report that is cut short, or one of no known kind before a good one.
fn spoil_tail(random: &mut Random, input: &mut Vec<u8>) {
    match random.below(12) {
        0 => input.push(1),
        1 => input.extend([1, 3, 0, 1]),
        2 => input.extend([random.between(2, 255) as u8, 0]),
        3 if random.chance(30) => input.truncate(random.below(input.len() + 1)),
        _ => {}
    }
}

/// A book with so many runs that the 257th known run comes soon. No sheet has a window.
pub fn many_runs_draft(random: &mut Random) -> Draft {
    let grades = 9;
    let litres = random.pick(&[vec![1], vec![0, 1], vec![1, 2, 3]]);
    let items = generate::random_changeovers(random, grades, generate::pairs(grades), &litres);
    let count = random.between(252, 256);
    let mut runs: Vec<Run> = Vec::new();
    while runs.len() < count {
        let way = generate::random_way(random, &items);
        // Short ways would leave nothing to plan.
        if way.len() >= 4 && !runs.contains(&way) {
            runs.push(way);
        }
    }
    generate::sheets_of_16(Draft::new(grades as u8).changeovers(&items), &runs)
}

/// How a lab behaves: how often in a hundred it reports falsely, and how often
/// it makes a report that is likely to be refused.
struct Lab {
    runs: Vec<Run>,
    false_percent: usize,
    odd_percent: usize,
}

/// The reports of a random lab on these trials.
fn lab_reports(random: &mut Random, mut trials: Trials) -> Vec<u8> {
    let lab = random_lab(random, &trials);
    let most = random.between(1, 40);
    let mut reports = Vec::new();
    let mut after_end = random.below(3);
    for _ in 0..most {
        if trials.record.stage != STANDS {
            if after_end == 0 {
                break;
            }
            after_end -= 1;
        }
        let report = lab_report(random, &lab, &trials);
        reports.extend(report_bytes(report.as_report()));
        // Whether it is refused or not is for the replay to say.
        let _ = trials.try_report(report.as_report());
    }
    reports
}

fn random_lab(random: &mut Random, trials: &Trials) -> Lab {
    let runs =
        if random.chance(40) { any_runs(random, trials) } else { runs_in_the_way(random, trials) };
    let false_percent = random.pick(&[0, 0, 0, 20, 80]);
    let odd_percent = random.pick(&[0, 10, 30]);
    Lab { runs, false_percent, odd_percent }
}

fn any_runs(random: &mut Random, trials: &Trials) -> Vec<Run> {
    let book = book::read(trials.book).expect("trials began with this book");
    let count = random.between(0, 12);
    generate::random_runs(random, book.grades(), &book.changeovers.list(), count)
}

/// Runs that each stand in the plan under those before, so that trials are
/// many. The lab may name them in another order.
fn runs_in_the_way(random: &mut Random, trials: &Trials) -> Vec<Run> {
    let mut trials = trials.clone();
    let mut runs = Vec::new();
    for _ in 0..random.between(1, 25) {
        let run = match generate::part_of(random, trials.lineup()) {
            Some(run) => run,
            None => break,
        };
        let kept = trials.clone();
        let _ = trials.try_report(Report::Failed(&run));
        if trials.record.stage != STANDS && random.chance(85) {
            trials = kept;
        } else {
            runs.push(run);
        }
    }
    runs
}

enum LabReport {
    Passed,
    Failed(Run),
}

impl LabReport {
    fn as_report(&self) -> Report<'_> {
        match self {
            LabReport::Passed => Report::Passed,
            LabReport::Failed(named) => Report::Failed(named),
        }
    }
}

/// A report as `replay` takes it.
pub fn report_bytes(report: Report) -> Vec<u8> {
    match report {
        Report::Passed => vec![0],
        Report::Failed(named) => failed_bytes(named),
    }
}

/// A failed report as `replay` takes it.
pub fn failed_bytes(named: &[u8]) -> Vec<u8> {
    [vec![1, named.len() as u8], named.to_vec()].concat()
}

fn lab_report(random: &mut Random, lab: &Lab, trials: &Trials) -> LabReport {
    // More often near 13, and where more grades stand than a run may have.
    let more = trials.record.known > 250 || trials.lineup().len() > LONGEST_RUN;
    if random.chance(if more { 40 } else { lab.odd_percent }) {
        return LabReport::Failed(odd_run(random, trials));
    }
    if random.chance(lab.false_percent) {
        return false_report(random, trials.lineup());
    }
    let standing = |run: &&Run| check::stands_in(run, trials.lineup());
    let found: Vec<Run> = lab.runs.iter().filter(standing).cloned().collect();
    if found.is_empty() {
        LabReport::Passed
    } else {
        LabReport::Failed(random.pick(&found))
    }
}

/// Any run of the standing line-up, or passed, whatever the lab's runs are.
fn false_report(random: &mut Random, lineup: &[u8]) -> LabReport {
    let passes = random.chance(15);
    match generate::part_of(random, lineup) {
        Some(run) if !passes => LabReport::Failed(run),
        _ => LabReport::Passed,
    }
}

/// A list that refusal 16, 17 or 12 is for, most of the time.
fn odd_run(random: &mut Random, trials: &Trials) -> Run {
    let lineup = trials.lineup();
    let known = trials.record.known as usize;
    match random.below(14) {
        0 => Vec::new(),
        1 => vec![trials.record.start],
        2 => lineup
            .iter()
            .copied()
            .cycle()
            .take(random.between(9, 12).min(9 * lineup.len()))
            .collect(),
        3 => vec![trials.record.start, trials.record.start],
        4 => vec![trials.record.start, random.byte()],
        5 if known > 0 => known_run(trials, random.below(known)),
        6 => lineup.iter().take(8).rev().copied().collect(),
        7 => generate::part_of(random, lineup)
            .map_or(Vec::new(), |run| generate::doubled(random, run)),
        // As it stands in the line-up, of a run's length or not.
        8 => {
            let place = random.below(lineup.len() + 1);
            lineup[place..].iter().take(random.between(2, 10)).copied().collect()
        }
        _ => {
            let book = book::read(trials.book).expect("trials began with this book");
            named_runs::any(random, lineup, book.grades() as u8)
        }
    }
}

fn known_run(trials: &Trials, place: usize) -> Run {
    let entry = &trials.runs_area[place * ENTRY..(place + 1) * ENTRY];
    entry[1..=usize::from(entry[0])].to_vec()
}

/// Trials that come to 256 known runs: the next run that stands is 13, one that
/// doesn't is 12, and the line-up can still pass.
pub fn replay_past_256(random: &mut Random) -> Vec<u8> {
    loop {
        let batch = samples::batch(0);
        let draft = many_runs_draft(random);
        let book = seasons::all_in_season(random, draft, batch.date).bytes();
        let (start, end) = (random.below(9) as u8, random.below(9) as u8);
        let mut input = replay_input(batch, start, end, &book);
        if let Ok(trials) = Trials::begin(&book, batch, start, end) {
            if let Some(reports) = reports_past_256(random, trials) {
                input.extend(reports);
                return input;
            }
        }
    }
}

/// Nothing if the trials end before they come to 13.
fn reports_past_256(random: &mut Random, mut trials: Trials) -> Option<Vec<u8>> {
    let mut reports = Vec::new();
    loop {
        let named = generate::part_of(random, trials.lineup())?;
        reports.extend(failed_bytes(&named));
        match trials.try_report(Report::Failed(&named)) {
            Ok(()) => {}
            Err(refused) if refused.number == 13 => break,
            Err(refused) => unreachable!("a run that stands is refused: {refused:?}"),
        }
    }
    reports.extend(failed_bytes(&known_run(&trials, 255)));
    reports.extend(failed_bytes(&generate::part_of(random, trials.lineup())?));
    reports.extend([0, 0]);
    reports.extend(failed_bytes(&[0, 1]));
    Some(reports)
}
