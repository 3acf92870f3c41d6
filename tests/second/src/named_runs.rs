//! Named runs on both sides of each limit: refusals 16 and 17 of 02, order 5, and what 12
//! keeps; as single failed reports, as series of reports, and at random.

use crate::any_inputs;
use crate::book::{Run, LONGEST_RUN, SHORTEST_RUN};
use crate::calls::Case;
use crate::check;
use crate::draft::Draft;
use crate::faults::{self, faults, Fault};
use crate::generate;
use crate::inputs::{failed_bytes, replay_input};
use crate::programs::Trials;
use crate::random::Random;
use crate::samples::{self, batch};

/// What a report is refused for; none if it is accepted.
type Answer = Option<u8>;

/// Trials to begin, and runs to name then, each with the answer.
struct Scene {
    book: Vec<u8>,
    marks: u16,
    start: u8,
    end: u8,
    named: Vec<(Run, Answer)>,
}

impl Scene {
    fn new(draft: Draft, marks: u16, start: u8, end: u8) -> Scene {
        Scene { book: draft.bytes(), marks, start, end, named: Vec::new() }
    }

    fn named(mut self, answer: Answer, runs: &[&[u8]]) -> Scene {
        self.named.extend(runs.iter().map(|run| (run.to_vec(), answer)));
        self
    }

    /// Of its runs only these.
    fn with_only(mut self, runs: &[&[u8]]) -> Scene {
        self.named.retain(|(run, _)| runs.contains(&run.as_slice()));
        self
    }

    /// Of its runs only the first with each answer; they stand in groups.
    fn with_first_of_each(mut self) -> Scene {
        self.named.dedup_by_key(|(_, answer)| *answer);
        self
    }

    fn of(&self, answer: Answer) -> Vec<Run> {
        let has_it = |(_, other): &&(Run, Answer)| *other == answer;
        self.named.iter().filter(has_it).map(|(run, _)| run.clone()).collect()
    }

    /// Failed reports on the trials just begun.
    fn reports(&self) -> Vec<(Case, Answer)> {
        let begun = Trials::begin(&self.book, batch(self.marks), self.start, self.end);
        let trials = begun.expect("the trials of a scene begin");
        let case = |run: &Run| any_inputs::case_of(&trials, batch(self.marks), run);
        self.named.iter().map(|(run, answer)| (case(run), *answer)).collect()
    }

    fn replay(&self, reports: &[Vec<u8>]) -> Vec<u8> {
        let begun = replay_input(batch(self.marks), self.start, self.end, &self.book);
        [begun, reports.concat()].concat()
    }

    /// Each run by itself: before a report that is accepted, if the scene has one, after
    /// it, and after the line-up passed.
    fn series_of_each(&self) -> Vec<Vec<u8>> {
        let accepted: Vec<Vec<u8>> =
            self.of(None).iter().take(1).map(|run| failed_bytes(run)).collect();
        let series = |(run, _): &(Run, Answer)| {
            let report = [failed_bytes(run)];
            self.replay(&[&report[..], &accepted, &report, &[vec![0]], &report].concat())
        };
        self.named.iter().map(series).collect()
    }

    /// The runs one after the other; before, between and after them what is refused
    /// whatever the line-up is. Then the line-up passes, if it stands.
    fn series_of(&self, runs: &[&[u8]]) -> Vec<u8> {
        let equal = vec![self.start; 2];
        let refused = [self.of(Some(16)), self.of(Some(17)), self.of(Some(13)), vec![equal]];
        let refused: Vec<Vec<u8>> = refused.concat().iter().map(|run| failed_bytes(run)).collect();
        let mut reports = refused.clone();
        for run in runs {
            // The second time it is a known run.
            reports.extend([failed_bytes(run), failed_bytes(run)]);
            reports.extend(refused.clone());
        }
        reports.push(vec![0]);
        reports.extend(refused);
        self.replay(&reports)
    }
}

/// Book A with marks 3, whose line-up is 0 1 2 1 2 3.
fn book_a() -> Scene {
    Scene::new(samples::book_a(), 3, 0, 3)
        .named(None, &[&[1, 2, 3], &[0, 1], &[2, 3], &[1, 2, 1], &[0, 1, 2, 1, 2, 3]])
        .named(Some(16), &[&[], &[0], &[3], &[4], &[64], &[255]])
        .named(
            Some(16),
            &[
                &[0, 1, 2, 1, 2, 3, 0, 1, 2],
                &[3; 9],
                &[4, 1, 2, 1, 2, 3, 0, 1, 2],
                &[0, 1, 2, 1, 4, 3, 0, 1, 2],
                &[0, 1, 2, 1, 2, 3, 0, 1, 4],
                &[0, 1, 2, 1, 2, 3, 0, 1, 255],
                &[4; 9],
                &[0; 255],
                &[255; 255],
            ],
        )
        .named(
            Some(17),
            &[
                &[4, 1],
                &[0, 4],
                &[4, 4],
                &[0, 5],
                &[64, 1],
                &[0, 64],
                &[255, 1],
                &[0, 255],
                // Modulo 128 they stand.
                &[128, 1],
                &[129, 2],
                &[0, 4, 2],
                &[0, 1, 255, 1],
                &[0, 1, 1, 4],
                &[4, 1, 2, 1, 2, 3],
                &[0, 1, 4, 1, 2, 3],
                &[0, 1, 2, 1, 2, 4],
            ],
        )
        .named(
            Some(17),
            &[
                &[4, 1, 2, 1, 2, 3, 0, 1],
                &[0, 4, 2, 1, 2, 3, 0, 1],
                &[0, 1, 4, 1, 2, 3, 0, 1],
                &[0, 1, 2, 4, 2, 3, 0, 1],
                &[0, 1, 2, 1, 4, 3, 0, 1],
                &[0, 1, 2, 1, 2, 4, 0, 1],
                &[0, 1, 2, 1, 2, 3, 4, 1],
                &[0, 1, 2, 1, 2, 3, 0, 4],
                &[0, 1, 2, 1, 2, 3, 0, 255],
                &[4; 8],
            ],
        )
        .named(
            Some(12),
            &[
                &[1, 1],
                &[3, 3],
                &[0, 1, 1, 2],
                &[0, 2],
                &[1, 3],
                &[3, 2],
                &[3, 0],
                &[2, 1, 2, 1],
                // The known runs.
                &[0, 1, 2, 3],
                &[0, 2, 3],
                &[3, 2, 1, 2, 1, 0],
                &[0, 1, 2, 1, 2, 1, 2, 3],
                &[3; 8],
            ],
        )
}

/// Of those the empty run, nine grades and two with a bad one, a known run, neighbours
/// equal, and a run that stands.
const CORNERS_OF_BOOK_A: [&[u8]; 6] =
    [&[], &[4, 1, 2, 1, 2, 3, 0, 1, 2], &[4, 1], &[0, 1, 2, 3], &[1, 1], &[1, 2, 3]];

/// More grades than a report in a series can name: modulo 256 they are two, which stand.
fn named_258() -> Scene {
    let run = |others: u8| [&[1, 2][..], &[others; 256]].concat();
    book_a().with_only(&[]).named(Some(16), &[&run(3), &run(4)])
}

/// 0 to 9 one by one, and a dear way past them.
fn line_of_10() -> Scene {
    Scene::new(generate::line(10, true, 1).changeover(0, 9, 100), 0, 0, 9)
        .named(None, &[&[0, 1, 2, 3, 4, 5, 6, 7], &[1, 2, 3, 4, 5, 6, 7, 8]])
        .named(None, &[&[2, 3, 4, 5, 6, 7, 8, 9], &[0, 1], &[4, 5], &[8, 9]])
        .named(
            Some(16),
            &[
                &[9],
                &[10],
                &[0, 1, 2, 3, 4, 5, 6, 7, 8],
                &[1, 2, 3, 4, 5, 6, 7, 8, 9],
                &[0, 1, 2, 3, 4, 5, 6, 7, 8, 9],
                &[10, 1, 2, 3, 4, 5, 6, 7, 8],
                &[0, 1, 2, 3, 10, 5, 6, 7, 8],
                &[0, 1, 2, 3, 4, 5, 6, 7, 10],
            ],
        )
        .named(
            Some(17),
            &[
                &[10, 1],
                &[8, 10],
                &[10, 1, 2, 3, 4, 5, 6, 7],
                &[0, 1, 2, 10, 4, 5, 6, 7],
                &[0, 1, 2, 3, 4, 5, 6, 10],
            ],
        )
        .named(
            Some(12),
            &[
                &[0, 9],
                &[9, 9],
                &[8, 7],
                &[7, 6, 5, 4, 3, 2, 1, 0],
                &[0, 1, 2, 3, 4, 5, 6, 8],
                &[1, 1, 2, 3, 4, 5, 6, 7],
            ],
        )
}

/// As many grades as a book may have.
fn line_of_64() -> Scene {
    Scene::new(generate::line(64, true, 1), 0, 0, 63)
        .named(None, &[&[62, 63], &[56, 57, 58, 59, 60, 61, 62, 63]])
        .named(Some(16), &[&[63], &[64], &[55, 56, 57, 58, 59, 60, 61, 62, 63]])
        .named(Some(16), &[&[56, 57, 58, 59, 60, 61, 62, 63, 64]])
        .named(Some(17), &[&[63, 64], &[64, 63], &[64, 64], &[62, 255], &[61, 64, 63]])
        .named(Some(17), &[&[57, 58, 59, 60, 61, 62, 63, 64], &[64, 1, 2, 3, 4, 5, 6, 7]])
        .named(Some(12), &[&[63, 62], &[63, 63], &[0, 63], &[63, 0]])
}

/// One grade, from which no run can be named.
fn one_grade() -> Scene {
    Scene::new(Draft::new(1), 0, 0, 0)
        .named(Some(16), &[&[], &[0], &[1], &[0; 9], &[1; 9]])
        .named(Some(17), &[&[0, 1], &[1, 0], &[1, 1], &[0, 0, 0, 0, 0, 0, 0, 1]])
        .named(Some(12), &[&[0, 0], &[0; 8]])
}

/// From 62 over 61 to 63, or dearer without 61; so many known runs, none of which is in
/// the way.
fn many_known(known: usize) -> Draft {
    let runs: Vec<Run> = (0..known).map(|i| vec![(i / 16) as u8, 16 + (i % 16) as u8]).collect();
    let draft = Draft::new(64).changeover(62, 61, 5).changeover(61, 63, 5).changeover(62, 63, 11);
    generate::sheets_of_16(draft, &runs)
}

/// As many known runs as there may be.
pub fn book_with_256_known() -> Draft {
    many_known(256)
}

/// One less.
pub fn book_with_255_known() -> Draft {
    many_known(255)
}

/// With 256 known runs: 13 for those that stand.
fn full() -> Scene {
    Scene::new(book_with_256_known(), 0, 62, 63)
        .named(Some(13), &[&[62, 61], &[61, 63], &[62, 61, 63]])
        .named(Some(16), &[&[], &[62], &[64], &[62, 61, 63, 62, 61, 63, 62, 61, 63], &[64; 9]])
        .named(Some(17), &[&[62, 64], &[64, 61], &[62, 61, 255], &[64; 8]])
        .named(Some(12), &[&[62, 63], &[61, 61], &[63, 61, 62], &[0, 16], &[15, 31]])
}

fn scenes() -> Vec<Scene> {
    vec![book_a(), line_of_10(), one_grade(), line_of_64(), full()]
}

/// Faults that come before all that a named run is refused for: 8, 9 and 11.
const BEFORE: [&str; 7] = [
    "runs area one byte short",
    "line-up area one byte short",
    "one known run more than the area has",
    "stage 1 without passed",
    "a litre too many",
    "stage 1 as it should be",
    "stage 2 as it should be",
];

/// Single failed reports, each with the answer: as the scenes have them, and some with each
/// of the faults before, and on bad books.
pub fn single_reports() -> Vec<(Case, Answer)> {
    let mut reports: Vec<(Case, Answer)> = scenes().iter().flat_map(Scene::reports).collect();
    reports.extend(named_258().reports());
    let before = faults_before();
    for (case, _) in few().iter().flat_map(Scene::reports) {
        reports.extend(before.iter().map(|fault| spoilt(fault, &case)));
    }
    reports.extend(on_bad_books());
    reports
}

/// Scenes with a run for each answer, or with the corner cases.
fn few() -> Vec<Scene> {
    vec![
        book_a().with_only(&CORNERS_OF_BOOK_A),
        line_of_10().with_first_of_each(),
        one_grade().with_first_of_each(),
    ]
}

/// A run of book A for each answer, on the book cut short and with a window edge that no
/// year has.
fn on_bad_books() -> Vec<(Case, Answer)> {
    let mut cut = samples::book_a().bytes();
    cut.pop();
    let mut reports = Vec::new();
    for (book, number) in [(cut, 1), (samples::book_a_in([1, 5, 31, 9]).bytes(), 14)] {
        let spoilt = |(case, _)| (Case { book: book.clone(), ..case }, Some(number));
        reports.extend(book_a().with_first_of_each().reports().into_iter().map(spoilt));
    }
    reports
}

fn faults_before() -> Vec<Fault> {
    let found: Vec<Fault> =
        faults().into_iter().filter(|fault| BEFORE.contains(&fault.name)).collect();
    assert_eq!(found.len(), BEFORE.len());
    found
}

fn spoilt(fault: &Fault, case: &Case) -> (Case, Answer) {
    let mut case = case.clone();
    // None of these draws a number.
    (fault.spoil)(&mut Random::from_state(0), &mut case);
    (case, fault.refusal)
}

/// Series of reports, as `replay` takes them: each run of the scenes by itself, then
/// series that go on.
pub fn series() -> Vec<Vec<u8>> {
    let mut series: Vec<Vec<u8>> = scenes().iter().flat_map(Scene::series_of_each).collect();
    series.extend(series_between());
    series
}

/// Refused reports of each kind between accepted ones, to a line-up that passes, to none,
/// and to as many known runs as there may be.
pub fn series_between() -> Vec<Vec<u8>> {
    let (a, line, full) = (book_a(), line_of_10(), full());
    let nearly_full = Scene::new(book_with_255_known(), 0, 62, 63)
        .named(Some(16), &[&[], &[62]])
        .named(Some(17), &[&[62, 64], &[64, 61]]);
    vec![
        a.series_of(&[]),
        a.series_of(&[&[1, 2, 3]]),
        a.series_of(&[&[1, 2, 3], &[1, 3]]),
        a.series_of(&[&[1, 2, 1], &[1, 3], &[2, 1, 2]]),
        line.series_of(&[&[0, 1, 2, 3, 4, 5, 6, 7]]),
        line.series_of(&[&[4, 5], &[0, 9]]),
        full.series_of(&[]),
        // The second one is 13.
        nearly_full.series_of(&[&[62, 61], &[62, 63]]),
    ]
}

/// Grades of the line-up in their order, or any; as many as a run may have, or just more
/// or less than that. In some of the lists one is not below the count.
pub fn any(random: &mut Random, lineup: &[u8], grades: u8) -> Run {
    let length = any_length(random, lineup.len());
    let mut named = if lineup.is_empty() || random.chance(45) {
        generate::any_grades(random, usize::from(grades), length)
    } else {
        let place = random.below(lineup.len().saturating_sub(length) + 1);
        lineup.iter().copied().cycle().skip(place).take(length).collect()
    };
    if random.chance(40) {
        generate::spoil_grade(random, &mut named, grades);
    }
    named
}

/// Where more grades stand than a run may have, half of the lists have as many or just
/// more, so that these can stand too.
fn any_length(random: &mut Random, standing: usize) -> usize {
    let (less, least) = (SHORTEST_RUN - 1, SHORTEST_RUN);
    let (most, more) = (LONGEST_RUN, LONGEST_RUN + 1);
    if standing > LONGEST_RUN && random.chance(50) {
        return random.pick(&[most, more, more]);
    }
    random.pick(&[0, less, less, least, least, 3, 5, most, most, more, more, 20])
}

/// One of these becomes the named run of a case; in place of some that do not stand, what
/// lies behind the line-up.
pub fn name_any(random: &mut Random, case: &mut Case) {
    let standing = faults::standing(case);
    let mut named = any(random, standing, faults::grades(case));
    if !check::stands_in(&named, standing) && random.chance(15) {
        // The last grade of the line-up may be among them.
        let place = (standing.len() + random.below(LONGEST_RUN)).saturating_sub(1);
        let length = random.between(SHORTEST_RUN, LONGEST_RUN);
        named = case.lineup.iter().copied().skip(place).take(length).collect();
    }
    case.list = named;
}
