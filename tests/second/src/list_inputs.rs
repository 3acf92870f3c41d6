//! Inputs of `plan_list`, chosen and random ones.

use crate::binding::{self, Batch, ENTRY, MOST_KNOWN, RUNS_AREA};
use crate::book::Run;
use crate::changeovers::{Changeover, MOST_LITRES};
use crate::draft::Draft;
use crate::generate;
use crate::inputs;
use crate::lists::{self, List};
use crate::plan::LINEUP_AREA;
use crate::random::Random;
use crate::samples;

/// Tells these inputs' random numbers from those of the kinds.
const LISTS: u64 = 1 << 32;

/// How many random cases the stored vectors hold.
const STORED: u64 = 160;

/// The case with this seed and index.
pub fn case(seed: u64, index: u64) -> Vec<u8> {
    let random = &mut Random::new(&[LISTS, seed, index]);
    let mut list = any_list(random);
    spoil(random, &mut list);
    let mut bytes = list.bytes();
    match random.below(60) {
        0 => bytes.truncate(random.below(bytes.len() + 1)),
        1 => bytes.truncate(random.below(lists::HEAD + 2)),
        2 => bytes.extend((0..random.between(1, lists::ITEM - 1)).map(|_| random.byte())),
        _ => {}
    }
    bytes
}

/// The stored vectors: the chosen cases, then random ones.
pub fn stored(seed: u64) -> Vec<Vec<u8>> {
    let mut cases = chosen(seed);
    cases.extend((0..STORED).map(|index| case(seed, index)));
    cases
}

/// The changeovers of a book as a list, under the runs that bind a batch.
pub fn list_of(draft: &Draft, batch: Batch, start: u8, end: u8) -> List {
    let book = generate::read(draft);
    List {
        grades: book.grades() as u16,
        start,
        end,
        ..with_known(&generate::runs_of(&book, batch), book.changeovers.list())
    }
}

/// A list with these known runs, in areas of 01's sizes.
fn with_known(known: &[Run], items: Vec<Changeover>) -> List {
    let mut runs_area = vec![0; RUNS_AREA];
    binding::write_area(known, &mut runs_area);
    let (known, lineup_area) = (known.len() as u16, LINEUP_AREA as u16);
    List { grades: 0, start: 0, end: 0, known, lineup_area, runs_area, items }
}

/// A list that keeps the rules, but perhaps for start and end, in any order.
fn any_list(random: &mut Random) -> List {
    let scene = inputs::any_scene(random);
    let (start, end) = inputs::terminals(random, &scene);
    let batch = inputs::good_batch(random, &scene.draft);
    let mut list = list_of(&scene.draft, batch, start, end);
    random.shuffle(&mut list.items);
    list
}

/// Most lists get a fault, some several.
fn spoil(random: &mut Random, list: &mut List) {
    let faults = random.pick(&[0, 0, 0, 1, 1, 1, 1, 2, 3]);
    for _ in 0..faults {
        match random.below(12) {
            0 => list.grades = other_count(random, list.grades),
            1 => list.known = other_known(random, list.known),
            2 => list.lineup_area = random.pick(&[0, 1, 1_599, 1_600, 1_601, 2_304, u16::MAX]),
            3 => resize_area(random, &mut list.runs_area),
            4 => spoil_area(random, list),
            5 => list.start = random.byte(),
            6 => list.end = random.byte(),
            7 if random.chance(40) => *list = longer_than_all_pairs(random),
            8 => list.items.clear(),
            _ => spoil_items(random, list),
        }
    }
}

fn other_count(random: &mut Random, grades: u16) -> u16 {
    match random.below(5) {
        0 => grades.saturating_sub(1),
        1 => grades.saturating_add(1),
        2 => random.byte().into(),
        _ => random.pick(&[0, 1, 63, 64, 65, 256, 257, 300, u16::MAX]),
    }
}

fn other_known(random: &mut Random, known: u16) -> u16 {
    match random.below(3) {
        0 => known.saturating_sub(1),
        1 => known.saturating_add(1),
        _ => random.pick(&[0, 255, 256, 257, 300, 512, u16::MAX]),
    }
}

/// Too short, or longer than is looked at.
fn resize_area(random: &mut Random, area: &mut Vec<u8>) {
    let length = random.pick(&[0, 1, 1_600, RUNS_AREA - 1, RUNS_AREA, RUNS_AREA + 1, 3_000]);
    area.resize(length, random.byte());
}

/// An area that binding did not leave so.
fn spoil_area(random: &mut Random, list: &mut List) {
    let used = usize::from(list.known).min(MOST_KNOWN);
    let area = &mut list.runs_area;
    if area.len() < RUNS_AREA {
        return;
    }
    let entry = ENTRY * random.below(used + 1).min(MOST_KNOWN - 1);
    match random.below(6) {
        // Another length, another grade, an unused byte.
        0 => area[entry] = random.below(10) as u8,
        1 => area[entry + random.between(1, ENTRY - 1)] = random.byte(),
        2 => area[random.below(RUNS_AREA)] = random.byte(),
        // Neighbours equal, which a run may have.
        3 => area[entry + 2] = area[entry + 1],
        // An entry of another place.
        4 => {
            let other = ENTRY * random.below(used + 1).min(MOST_KNOWN - 1);
            area.copy_within(other..other + ENTRY, entry);
        }
        // A run more.
        _ => {
            let grades = usize::from(list.grades).max(2);
            let first = random.below(grades) as u8;
            let second = random.below(grades) as u8;
            if used < MOST_KNOWN {
                binding::write_entry(used, &[first, second], area);
                list.known += 1;
            }
        }
    }
}

/// One bad item, or a pair that is there already, or its reverse.
fn spoil_items(random: &mut Random, list: &mut List) {
    let bad_grades = [list.grades as u8, 255, random.byte()];
    if list.items.is_empty() {
        list.items.push(Changeover { from: random.below(3) as u8, to: 1, litres: 5 });
    }
    let place = random.below(list.items.len());
    let item = &mut list.items[place];
    match random.below(8) {
        0 => item.from = random.pick(&bad_grades),
        1 => item.to = random.pick(&bad_grades),
        2 => item.to = item.from,
        3 => item.litres = random.pick(&[MOST_LITRES, MOST_LITRES + 1, 1 << 24, u32::MAX]),
        4 => item.litres = random.word() as u32,
        _ => {
            let mut again = *item;
            again.litres = random.pick(&[0, 1, 7, MOST_LITRES, MOST_LITRES + 1]);
            if random.chance(30) {
                again = Changeover { from: again.to, to: again.from, ..again };
            }
            let later = random.between(place + 1, list.items.len());
            list.items.insert(later, again);
        }
    }
}

/// All pairs of 64 grades, and then more: the list is refused at index 4,032,
/// or before.
fn longer_than_all_pairs(random: &mut Random) -> List {
    let litres: Vec<u32> = (0..=MOST_LITRES).step_by(991).collect();
    let mut items = generate::random_changeovers(random, 64, generate::pairs(64), &litres);
    random.shuffle(&mut items);
    for _ in 0..random.pick(&[0, 1, 2, 67, 68, 69, 1_000]) {
        items.push(random.pick(&items));
    }
    if random.chance(30) {
        let place = random.below(items.len());
        items[place].litres = MOST_LITRES + 1;
    }
    List { grades: 64, start: 0, end: 63, ..with_known(&[vec![0, 63]], items) }
}

/// The chosen cases; the seed serves those that hold random books.
fn chosen(seed: u64) -> Vec<Vec<u8>> {
    let random = &mut Random::new(&[LISTS, seed, u64::MAX]);
    let mut lists = book_a_lists();
    lists.extend(refused_lists());
    lists.extend(orders_of_refusals());
    lists.extend(lists_of_books(random));
    lists.extend(long_lists(random));
    let mut cases: Vec<Vec<u8>> = lists.iter().map(List::bytes).collect();
    let whole = list_a(3, 0, 3).bytes();
    let ends = [0, 1, 9, 10, 11, 2_313, 2_314, 2_315, whole.len() - 6, whole.len() - 1];
    cases.extend(ends.map(|length| whole[..length].to_vec()));
    cases.push([&whole[..], &[0, 1, 0, 0, 0]].concat());
    cases
}

/// Book A's changeovers in the order of the paper.
fn list_a(marks: u16, start: u8, end: u8) -> List {
    let list = list_of(&samples::book_a(), samples::batch(marks), start, end);
    List { items: items_a(), ..list }
}

fn items_a() -> Vec<Changeover> {
    [(0, 1, 100), (1, 2, 100), (2, 3, 100), (0, 2, 250), (2, 1, 50), (1, 3, 400)]
        .map(|(from, to, litres)| Changeover { from, to, litres })
        .to_vec()
}

/// 01's sums, in two orders, and those with runs that come back.
fn book_a_lists() -> Vec<List> {
    let mut lists = Vec::new();
    for marks in 0..4 {
        for (start, end) in [(0, 3), (3, 0), (3, 3), (2, 1)] {
            let list = list_a(marks, start, end);
            let items = list.items.iter().rev().copied().collect();
            lists.extend([list.clone(), List { items, ..list }]);
        }
    }
    for draft in samples::books_with_runs_that_come_back() {
        lists.extend((0..4).map(|marks| list_of(&draft, samples::batch(marks), 0, 3)));
    }
    lists
}

/// Book A's list with one thing that is not as it should be, or just is.
fn refused_lists() -> Vec<List> {
    let whole = list_a(3, 0, 3);
    let mut lists = Vec::new();
    for grades in [0, 1, 2, 3, 4, 5, 63, 64, 65, 256, 300, u16::MAX] {
        lists.push(List { grades, ..whole.clone() });
        lists.push(List { grades, items: Vec::new(), ..whole.clone() });
    }
    for place in [0, 3, 5] {
        for (from, to, litres) in [
            (4, 1, 100),
            (1, 4, 100),
            (255, 1, 100),
            (2, 2, 100),
            (1, 0, MOST_LITRES),
            (1, 0, MOST_LITRES + 1),
            (1, 0, 1 << 24),
            (1, 0, u32::MAX),
            (2, 0, 0),
            // Repeats another item, or its own place.
            (1, 2, 100),
            (1, 2, MOST_LITRES + 1),
            // The reverse of a pair is another pair.
            (3, 2, 100),
        ] {
            let mut list = whole.clone();
            list.items[place] = Changeover { from, to, litres };
            lists.push(list);
        }
    }
    for (start, end) in [(4, 3), (0, 4), (255, 0), (0, 255)] {
        lists.push(List { start, end, ..whole.clone() });
    }
    for known in [0, 1, 2, 3, 256, 257, u16::MAX] {
        lists.push(List { known, ..whole.clone() });
    }
    for lineup_area in [0, 1_599, 1_600, 1_601, u16::MAX] {
        lists.push(List { lineup_area, ..whole.clone() });
    }
    for length in [0, RUNS_AREA - 1, RUNS_AREA + 1] {
        let mut runs_area = whole.runs_area.clone();
        runs_area.resize(length, 7);
        lists.push(List { runs_area, ..whole.clone() });
    }
    lists
}

/// 4 or 5 before 8, 8 before 7, 7 before 9, and the first bad item before a
/// later one.
fn orders_of_refusals() -> Vec<List> {
    let known = List { known: 1, ..list_a(3, 0, 3) };
    let start = List { start: 4, ..known.clone() };
    let area = List { lineup_area: 1_599, ..start.clone() };
    let mut repeated = area.clone();
    repeated.items[2] = repeated.items[0];
    let mut bad = repeated.clone();
    bad.items[1].from = 4;
    let count = List { grades: 65, ..bad.clone() };
    vec![known, start, area, repeated, bad, count]
}

/// The changeovers of books that are planned from elsewhere.
fn lists_of_books(random: &mut Random) -> Vec<List> {
    let ties = samples::book_of_ties();
    let batch = samples::batch(0);
    let with_short_way = ties.clone().changeover(0, 3, 200);
    let mut lists = vec![list_of(&ties, batch, 0, 3), list_of(&with_short_way, batch, 0, 3)];
    let line = generate::line(64, true, 1_000_000);
    lists.push(list_of(&line, batch, 0, 63));
    let wheels = &samples::WHEELS;
    let end = generate::wheels_end(wheels);
    lists.push(list_of(&generate::wheels(wheels, None), batch, 0, end));
    for _ in 0..6 {
        let typical = generate::typical(random);
        let batch = samples::batch(generate::batch_marks(random));
        lists.push(list_of(&typical, batch, 0, random.below(30) as u8));
    }
    lists
}

/// All 4,032 pairs; one item more, which is 5 at 4,032; and more items than
/// the program keeps.
fn long_lists(random: &mut Random) -> Vec<List> {
    let all = list_of(&generate::largest(random), samples::batch(0), 0, 63);
    let mut lists = vec![all.clone()];
    for more in [1, 68, 69, 900] {
        let again = all.items.iter().cycle().take(generate::pairs(64) + more);
        let items: Vec<Changeover> = again.copied().collect();
        lists.push(List { items, ..all.clone() });
    }
    lists
}
