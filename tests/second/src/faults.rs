//! Faults of a single call, one at a time: each condition of the refusals 7, 8, 9, 11,
//! 12, 16 and 17 of 01 and 02 on what a report takes, on both sides where it has two; and
//! bad dates, which a report takes no notice of.

use crate::binding::{self, ENTRY, MOST_KNOWN, RUNS_AREA};
use crate::book::{self, Run, LONGEST_RUN};
use crate::calls::{Call, Case};
use crate::check;
use crate::generate;
use crate::plan::LINEUP_AREA;
use crate::random::Random;
use crate::seasons;
use crate::trials::{NONE, PASSED, STANDS};

/// What a fault spoils.
#[derive(Clone, Copy, Debug, PartialEq, Eq)]
pub enum Part {
    Sizes,
    Terminals,
    Date,
    Runs,
    Record,
    Named,
}

impl Part {
    /// Whether the call takes that part.
    pub fn concerns(self, call: Call) -> bool {
        match self {
            Part::Sizes => true,
            Part::Terminals => !matches!(call, Call::Bind | Call::Check),
            Part::Date => matches!(call, Call::Bind | Call::Begin),
            Part::Runs => !matches!(call, Call::Bind | Call::Begin),
            Part::Record => matches!(call, Call::Passed | Call::Failed),
            Part::Named => call == Call::Failed,
        }
    }
}

#[derive(Clone, Copy)]
pub struct Fault {
    pub name: &'static str,
    pub part: Part,
    /// What a failed report on good trials in stage 0 is then refused for; none
    /// if it is not.
    pub refusal: Option<u8>,
    pub spoil: fn(&mut Random, &mut Case),
}

fn fault(
    name: &'static str,
    part: Part,
    refusal: Option<u8>,
    spoil: fn(&mut Random, &mut Case),
) -> Fault {
    Fault { name, part, refusal, spoil }
}

/// The record, known runs and line-up of the cases that are spoilt have a known
/// run at least, a changeover at least, and two grades at least.
pub fn faults() -> Vec<Fault> {
    vec![
        fault("runs area one byte short", Part::Sizes, Some(8), |_, case| {
            case.runs.truncate(RUNS_AREA - 1)
        }),
        fault("runs area of any lesser size", Part::Sizes, Some(8), |random, case| {
            case.runs.truncate(random.below(RUNS_AREA))
        }),
        fault("no runs area", Part::Sizes, Some(8), |_, case| case.runs.clear()),
        fault("runs area of just its size", Part::Sizes, None, |_, case| {
            case.runs.truncate(RUNS_AREA)
        }),
        fault("line-up area one byte short", Part::Sizes, Some(8), |_, case| {
            case.lineup.truncate(LINEUP_AREA - 1)
        }),
        fault("line-up area of any lesser size", Part::Sizes, Some(8), |random, case| {
            case.lineup.truncate(random.below(LINEUP_AREA))
        }),
        fault("no line-up area", Part::Sizes, Some(8), |_, case| case.lineup.clear()),
        fault("line-up area of just its size", Part::Sizes, None, |_, case| {
            case.lineup.truncate(LINEUP_AREA)
        }),
        fault("start just not below the count", Part::Terminals, Some(9), |_, case| {
            case.record.start = grades(case)
        }),
        fault("end just not below the count", Part::Terminals, Some(9), |_, case| {
            case.record.end = grades(case)
        }),
        fault("start 255", Part::Terminals, Some(9), |_, case| case.record.start = 255),
        fault("end 255", Part::Terminals, Some(9), |_, case| case.record.end = 255),
        fault("another start", Part::Terminals, Some(9), |random, case| {
            case.record.start = other_grade(random, case, case.record.start)
        }),
        fault("another end", Part::Terminals, Some(9), |random, case| {
            case.record.end = other_grade(random, case, case.record.end)
        }),
        fault("a bad date", Part::Date, None, bad_date),
        fault("another good date", Part::Date, None, |random, case| {
            case.batch.date = seasons::good_date(random, &[])
        }),
        fault("a bad date and a start not below the count", Part::Date, Some(9), |random, case| {
            bad_date(random, case);
            case.record.start = random.pick(&[grades(case), 255]);
        }),
        fault("a bad date and a runs area one byte short", Part::Date, Some(8), |random, case| {
            bad_date(random, case);
            case.runs.truncate(RUNS_AREA - 1);
        }),
        fault("a bad date and a short line-up area", Part::Date, Some(8), |random, case| {
            bad_date(random, case);
            case.lineup.truncate(random.below(LINEUP_AREA));
        }),
        fault("a run of no grades", Part::Runs, Some(9), |random, case| {
            set_length(random, case, 0)
        }),
        fault("a run of one grade", Part::Runs, Some(9), |random, case| {
            let entry = any_entry(random, case);
            entry[0] = 1;
            entry[2..].fill(0);
        }),
        fault("a run of nine grades", Part::Runs, Some(9), |random, case| {
            set_length(random, case, 9)
        }),
        fault("a run of 255 grades", Part::Runs, Some(9), |random, case| {
            set_length(random, case, 255)
        }),
        // The next byte is 0, which is a grade of any book; a run of eight becomes one of nine.
        fault("a run longer by an unused byte", Part::Runs, None, |random, case| {
            let entry = any_entry(random, case);
            entry[0] = entry[0].wrapping_add(1);
        }),
        fault("a run shorter than its bytes", Part::Runs, Some(9), |random, case| {
            let entry = any_entry(random, case);
            entry[0] = entry[0].wrapping_sub(1);
        }),
        fault("a run with neighbours equal", Part::Runs, None, |random, case| {
            let entry = any_entry(random, case);
            entry[2] = entry[1];
        }),
        fault("a run that comes back to its first grade", Part::Runs, None, |random, case| {
            let entry = any_entry(random, case);
            let last = usize::from(entry[0]).clamp(1, ENTRY - 1);
            entry[last] = entry[1];
        }),
        fault(
            "a run with a grade just not below the count",
            Part::Runs,
            Some(9),
            |random, case| {
                let grades = grades(case);
                any_entry(random, case)[1] = grades;
            },
        ),
        fault("a run with the grade 255", Part::Runs, Some(9), |random, case| {
            any_entry(random, case)[2] = 255
        }),
        fault("a repeated run", Part::Runs, Some(9), |random, case| {
            let entry = any_entry(random, case).to_vec();
            add_known(case, &entry);
        }),
        fault("an unused byte of a used entry", Part::Runs, Some(9), |random, case| {
            let value = random.between(1, 255) as u8;
            let entry = any_entry(random, case);
            let unused = usize::from(entry[0]) + 1;
            if unused < ENTRY {
                entry[random.between(unused, ENTRY - 1)] = value;
            } else {
                entry[0] = 9;
            }
        }),
        fault("an unused byte after the count", Part::Runs, Some(9), |random, case| {
            let first = case.record.known as usize * ENTRY;
            if first < RUNS_AREA {
                case.runs[random.between(first, RUNS_AREA - 1)] = random.between(1, 255) as u8;
            } else {
                case.runs[0] = 0;
            }
        }),
        fault("the last unused byte", Part::Runs, Some(9), |_, case| case.runs[RUNS_AREA - 1] ^= 1),
        fault("a byte after the entries", Part::Runs, None, |random, case| {
            if let Some(byte) = case.runs.get_mut(RUNS_AREA) {
                *byte = random.byte();
            }
        }),
        fault("one known run more than the area has", Part::Runs, Some(9), |_, case| {
            shift_known(case, 1)
        }),
        fault("one known run less than the area has", Part::Runs, Some(9), |_, case| {
            shift_known(case, u64::MAX)
        }),
        fault("257 known runs", Part::Runs, Some(9), |_, case| {
            let more = MOST_KNOWN as u64 + 1 - case.record.known;
            shift_known(case, more)
        }),
        fault("known runs and 2 to the 32 more", Part::Runs, Some(9), |_, case| {
            shift_known(case, 1 << 32)
        }),
        fault("known runs and 2 to the 63 more", Part::Runs, Some(9), |_, case| {
            shift_known(case, 1 << 63)
        }),
        // Nine times this number is 2 to the 64 and 2.
        fault("so many known runs that their bytes wrap", Part::Runs, Some(9), |_, case| {
            let more = (u64::MAX / 9 + 1).wrapping_sub(case.record.known);
            shift_known(case, more)
        }),
        fault("a known run that stands in the line-up", Part::Runs, Some(9), |random, case| {
            if let Some(run) = part_of_standing(random, case) {
                add_known(case, &entry_of(&run));
            }
        }),
        fault("a known run that stands and comes back", Part::Runs, Some(9), |_, case| {
            if let Some(run) = returning_part(standing(case)) {
                add_known(case, &entry_of(&run));
            }
        }),
        fault("stage 1 without passed", Part::Record, Some(9), |_, case| {
            case.record.stage = PASSED
        }),
        fault("stage 2 with a line-up", Part::Record, Some(9), |_, case| case.record.stage = NONE),
        fault("stage 3", Part::Record, Some(9), |_, case| case.record.stage = 3),
        fault("stage 2 to the 32", Part::Record, Some(9), |_, case| case.record.stage += 1 << 32),
        fault("stage 2 to the 64 less 1", Part::Record, Some(9), |_, case| {
            case.record.stage = u64::MAX
        }),
        fault("passed 1 in stage 0", Part::Record, Some(9), |_, case| case.record.passed = 1),
        fault("passed 2 in stage 1", Part::Record, Some(9), |_, case| {
            case.record.stage = PASSED;
            case.record.passed = 2;
        }),
        fault("passed 2 to the 32", Part::Record, Some(9), |_, case| case.record.passed += 1 << 32),
        fault("passed 1 in stage 2", Part::Record, Some(9), |_, case| {
            none_stands(case);
            case.record.passed = 1;
        }),
        fault("length in stage 2", Part::Record, Some(9), |_, case| {
            none_stands(case);
            case.record.length = 1;
        }),
        fault("litres in stage 2", Part::Record, Some(9), |_, case| {
            none_stands(case);
            case.record.litres = 1;
        }),
        fault("stage 2 as it should be", Part::Record, Some(11), |_, case| none_stands(case)),
        fault("stage 1 as it should be", Part::Record, Some(11), |_, case| {
            case.record.stage = PASSED;
            case.record.passed = 1;
        }),
        fault("known one too many", Part::Record, Some(9), |_, case| case.record.known += 1),
        fault("known at the start one too many", Part::Record, Some(9), |_, case| {
            case.record.known_at_start = case.record.known_at_start.wrapping_add(1)
        }),
        fault("failed one too many", Part::Record, Some(9), |_, case| {
            case.record.failed = case.record.failed.wrapping_add(1)
        }),
        fault("known at the start one too few", Part::Record, Some(9), |_, case| {
            case.record.known_at_start = case.record.known_at_start.wrapping_sub(1)
        }),
        fault("failed one too few", Part::Record, Some(9), |_, case| {
            case.record.failed = case.record.failed.wrapping_sub(1)
        }),
        fault("counts whose sum wraps", Part::Record, Some(9), |random, case| {
            let more = random.between(1, 300) as u64;
            case.record.known_at_start = case.record.known + more;
            case.record.failed = more.wrapping_neg();
        }),
        fault("counts whose sum wraps, the other way", Part::Record, Some(9), |random, case| {
            let more = random.between(1, 300) as u64;
            case.record.failed = case.record.known + more;
            case.record.known_at_start = more.wrapping_neg();
        }),
        // No report can tell at which count the trials began.
        fault("all known at the start", Part::Record, None, |_, case| {
            case.record.known_at_start = case.record.known;
            case.record.failed = 0;
        }),
        fault("none known at the start", Part::Record, None, |_, case| {
            case.record.known_at_start = 0;
            case.record.failed = case.record.known;
        }),
        fault("a litre too many", Part::Record, Some(9), |_, case| {
            case.record.litres = case.record.litres.wrapping_add(1)
        }),
        fault("a litre too few", Part::Record, Some(9), |_, case| {
            case.record.litres = case.record.litres.wrapping_sub(1)
        }),
        fault("2 to the 32 litres too many", Part::Record, Some(9), |_, case| {
            case.record.litres = case.record.litres.wrapping_add(1 << 32)
        }),
        fault("2 to the 63 litres too many", Part::Record, Some(9), |_, case| {
            case.record.litres ^= 1 << 63
        }),
        fault("length 0", Part::Record, Some(9), |_, case| case.record.length = 0),
        fault("length 0 and no litres", Part::Record, Some(9), |_, case| {
            case.record.length = 0;
            case.record.litres = 0;
        }),
        fault("length one less", Part::Record, Some(9), |_, case| {
            case.record.length = case.record.length.wrapping_sub(1)
        }),
        fault("length one more", Part::Record, Some(9), |_, case| {
            case.record.length = case.record.length.wrapping_add(1)
        }),
        fault("length 1,601", Part::Record, Some(9), |_, case| {
            case.record.length = LINEUP_AREA as u64 + 1
        }),
        fault("length one over the area", Part::Record, Some(9), |_, case| {
            case.record.length = case.lineup.len() as u64 + 1
        }),
        fault("length and 2 to the 32 more", Part::Record, Some(9), |_, case| {
            case.record.length = case.record.length.wrapping_add(1 << 32)
        }),
        fault("length 2 to the 64 less 1", Part::Record, Some(9), |_, case| {
            case.record.length = u64::MAX
        }),
        fault("a line-up of 1,600 grades", Part::Record, None, |_, case| {
            stand_there_and_back(case, LINEUP_AREA)
        }),
        fault("a line-up of 1,601 grades", Part::Record, Some(9), |_, case| {
            stand_there_and_back(case, LINEUP_AREA + 1)
        }),
        fault(
            "a grade of the line-up that repeats the one before",
            Part::Record,
            Some(9),
            |_, case| case.lineup[1] = case.lineup[0],
        ),
        fault(
            "a grade of the line-up not below the count",
            Part::Record,
            Some(9),
            |random, case| {
                let place = random.below(standing(case).len().max(1));
                case.lineup[place] = if random.chance(50) { grades(case) } else { 255 };
            },
        ),
        fault("a byte after the line-up", Part::Record, None, |random, case| {
            let place = standing(case).len();
            if let Some(byte) = case.lineup.get_mut(place) {
                *byte = random.byte();
            }
        }),
        fault("nothing named", Part::Named, Some(16), |_, case| case.list.clear()),
        fault("one grade named", Part::Named, Some(16), |_, case| case.list.truncate(1)),
        fault("nine grades named", Part::Named, Some(16), |_, case| {
            case.list = standing(case).iter().copied().cycle().take(9).collect()
        }),
        fault("nine grades named, all different", Part::Named, Some(16), |_, case| {
            case.list = (0..9).collect()
        }),
        // Modulo 256 these are two, which stand.
        fault("258 grades named", Part::Named, Some(16), |_, case| {
            case.list = standing(case).iter().copied().cycle().take(258).collect()
        }),
        fault("equal neighbours named", Part::Named, Some(12), |_, case| {
            case.list = vec![case.lineup[0], case.lineup[0]]
        }),
        fault(
            "equal neighbours named in a run that else stands",
            Part::Named,
            Some(12),
            |_, case| {
                if let Some(&grade) = case.list.get(1) {
                    case.list.insert(1, grade);
                }
            },
        ),
        fault("a run named that comes back to a grade", Part::Named, None, |_, case| {
            if let Some(run) = returning_part(standing(case)) {
                case.list = run;
            }
        }),
        fault("the line-up backwards", Part::Named, Some(12), |_, case| case.list.reverse()),
        fault(
            "a grade named that is not below the count",
            Part::Named,
            Some(17),
            |random, case| {
                let grades = grades(case);
                generate::spoil_grade(random, &mut case.list, grades);
            },
        ),
        fault("a known run named", Part::Named, Some(12), |random, case| {
            let entry = any_entry(random, case).to_vec();
            case.list = entry[1..].iter().copied().take(usize::from(entry[0])).collect();
        }),
    ]
}

fn bad_date(random: &mut Random, case: &mut Case) {
    case.batch.date = seasons::bad_date(random, &[]);
}

/// The book's count of grades; 64 where the book is damaged.
pub(crate) fn grades(case: &Case) -> u8 {
    book::read(&case.book).map_or(64, |book| book.grades() as u8)
}

fn other_grade(random: &mut Random, case: &Case, grade: u8) -> u8 {
    let grades = usize::from(grades(case));
    ((usize::from(grade) + random.between(1, grades.max(2) - 1)) % grades) as u8
}

/// The standing line-up, as far as its area goes.
pub(crate) fn standing(case: &Case) -> &[u8] {
    if case.record.stage == NONE {
        return &[];
    }
    let length = usize::try_from(case.record.length).unwrap_or(usize::MAX);
    &case.lineup[..length.min(case.lineup.len())]
}

/// A run that stands in the line-up; none if that is no line-up any more.
fn part_of_standing(random: &mut Random, case: &Case) -> Option<Run> {
    let lineup = standing(case);
    let changes = lineup.windows(2).all(|pair| pair[0] != pair[1]);
    if changes {
        generate::part_of(random, lineup)
    } else {
        None
    }
}

/// The first part of the line-up that comes back to its first grade, if it is no
/// longer than a run may be.
fn returning_part(lineup: &[u8]) -> Option<Run> {
    let last = (1..lineup.len()).find(|&i| lineup[..i].contains(&lineup[i]))?;
    let first = lineup[..last].iter().position(|&grade| grade == lineup[last])?;
    Some(lineup[first..=last].to_vec()).filter(|run| run.len() <= LONGEST_RUN)
}

/// So many grades of a way there and back, if the book has one that is clear;
/// the way back is named. Nothing but their number can be wrong with them.
fn stand_there_and_back(case: &mut Case, length: usize) {
    if let Some([there, back]) = clear_way_and_back(case) {
        let lineup: Vec<u8> = [there, back].into_iter().cycle().take(length).collect();
        let size = case.lineup.len().max(length);
        case.lineup.resize(size, 0);
        case.lineup[..length].copy_from_slice(&lineup);
        case.list = vec![back, there];
        case.record.start = there;
        case.record.end = lineup[length - 1];
        case.record.litres = litres(case, &lineup).unwrap_or(0);
        case.record.length = length as u64;
    }
}

/// Two grades with changeovers both ways, of which no known run makes one.
fn clear_way_and_back(case: &Case) -> Option<[u8; 2]> {
    let book = book::read(&case.book).ok()?;
    let known = binding::read_area(&case.runs, case.record.known as usize, book.grades()).ok()?;
    let clear = |pair: &[u8; 2]| {
        let lineup = [pair[0], pair[1], pair[0]];
        book.changeovers.lineup_litres(&lineup).is_some()
            && check::first_run(&lineup, &known).is_none()
    };
    book.changeovers.list().into_iter().map(|item| [item.from, item.to]).find(clear)
}

fn litres(case: &Case, lineup: &[u8]) -> Option<u64> {
    book::read(&case.book).ok()?.changeovers.lineup_litres(lineup)
}

/// An entry of a known run, or the first if none is known.
fn any_entry<'a>(random: &mut Random, case: &'a mut Case) -> &'a mut [u8] {
    let known = case.record.known.clamp(1, MOST_KNOWN as u64) as usize;
    let place = random.below(known);
    &mut case.runs[place * ENTRY..(place + 1) * ENTRY]
}

fn set_length(random: &mut Random, case: &mut Case, length: u8) {
    any_entry(random, case)[0] = length;
}

/// The entry becomes the last known run, and was known at the start; with 256
/// known it takes the place of the last.
fn add_known(case: &mut Case, entry: &[u8]) {
    if case.record.known < MOST_KNOWN as u64 {
        shift_known(case, 1);
    }
    let last = case.record.known.clamp(1, MOST_KNOWN as u64) as usize;
    case.runs[(last - 1) * ENTRY..last * ENTRY].copy_from_slice(entry);
}

fn entry_of(run: &[u8]) -> Vec<u8> {
    let mut entry = vec![run.len() as u8];
    entry.extend(run);
    entry.resize(ENTRY, 0);
    entry
}

/// More known runs, all of them from the start.
fn shift_known(case: &mut Case, more: u64) {
    case.record.known = case.record.known.wrapping_add(more);
    case.record.known_at_start = case.record.known_at_start.wrapping_add(more);
}

fn none_stands(case: &mut Case) {
    case.record.stage = NONE;
    case.record.passed = 0;
    case.record.litres = 0;
    case.record.length = 0;
}

/// The faults may meet a case that another fault has spoilt: this says whether
/// its areas are still long enough for all of them.
pub fn can_be_spoilt(case: &Case) -> bool {
    case.runs.len() >= RUNS_AREA
        && case.lineup.len() >= LINEUP_AREA
        && case.record.stage == STANDS
        && case.record.known <= MOST_KNOWN as u64
}
