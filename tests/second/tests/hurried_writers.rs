//! How many inputs of `write_book` and `rewrite`, stored and random, show each mistake that
//! a hurried writer of books could make: order 6 of 02.

use second::book;
use second::content_inputs::content_of;
use second::contents::WriteCase;
use second::draft::Draft;
use second::inputs;
use second::kinds::Kind;
use second::refusal::Refusal;
use second::vectors;
use second::writing::{Content, GivenChangeover, GivenSheet, Item};
use std::collections::{BTreeMap, BTreeSet};

/// A writer in parts, so that each can be another one.
#[derive(Clone, Copy)]
struct Writer {
    count: fn(u16) -> bool,
    tests: [Test; 7],
    items: for<'a> fn(&'a Content) -> Vec<(usize, Item<'a>)>,
    decides: fn(&[Refusal]) -> Option<&Refusal>,
    /// Whether an area is too short for a book of this length.
    is_short: fn(u32, usize) -> bool,
    area_first: bool,
    order: fn(&mut Vec<GivenChangeover>),
    sheets: fn(&mut Vec<GivenSheet>),
    /// What is made of each sheet.
    sheet: fn(&mut GivenSheet),
    length: fn(u16) -> [u8; 2],
    litres: fn(u32) -> [u8; 4],
    behind: &'static [u8],
}

/// What refuses an item, and for what.
type Test = fn(&Seen, Item) -> Option<u8>;

/// The items before one, as far as they are good.
struct Seen {
    grades: u16,
    pairs: BTreeMap<(u16, u16), u32>,
    last_pair: Option<(u16, u16)>,
    sheets: usize,
    runs: usize,
    runs_of_sheet: usize,
}

impl Seen {
    fn see(&mut self, item: Item) {
        match item {
            Item::Changeover(GivenChangeover { from, to, litres }) => {
                self.pairs.insert((from, to), litres);
                self.last_pair = Some((from, to));
            }
            Item::Sheet(_) => {
                self.sheets += 1;
                self.runs_of_sheet = 0;
            }
            Item::Run(_) => {
                self.runs += 1;
                self.runs_of_sheet += 1;
            }
        }
    }
}

const RIGHT: Writer = Writer {
    count: |count| (1..=64).contains(&count),
    tests: [changeover, repeated, edges, sheets, length, grades, runs],
    items: in_order,
    decides: |bad| bad.first(),
    is_short: |area, length| (area as usize) < length,
    area_first: false,
    order: |list| list.sort_by_key(|item| (item.from, item.to)),
    sheets: |_| {},
    sheet: |_| {},
    length: u16::to_be_bytes,
    litres: u32::to_be_bytes,
    behind: &[],
};

fn in_order(content: &Content) -> Vec<(usize, Item<'_>)> {
    (1..).zip(content.items()).collect()
}

fn refused_if(refused: bool, number: u8) -> Option<u8> {
    refused.then_some(number)
}

/// The items' tests, with other limits where a mistake has them.
fn changeover_by(item: Item, grades: u16, litres: u32) -> Option<u8> {
    match item {
        Item::Changeover(item) => {
            let bad = item.from >= grades || item.to >= grades || item.from == item.to;
            refused_if(bad || item.litres > litres, 4)
        }
        _ => None,
    }
}

fn changeover(seen: &Seen, item: Item) -> Option<u8> {
    changeover_by(item, seen.grades, 1_000_000)
}

fn repeated_by(
    seen: &Seen,
    item: Item,
    is_repeated: fn(&Seen, GivenChangeover) -> bool,
) -> Option<u8> {
    match item {
        Item::Changeover(item) => refused_if(is_repeated(seen, item), 5),
        _ => None,
    }
}

fn has_pair(seen: &Seen, item: GivenChangeover) -> bool {
    seen.pairs.contains_key(&(item.from, item.to))
}

fn repeated(seen: &Seen, item: Item) -> Option<u8> {
    repeated_by(seen, item, has_pair)
}

fn edges_by(item: Item, is_good: fn([u8; 4]) -> bool) -> Option<u8> {
    match item {
        Item::Sheet(GivenSheet { window: Some(window), .. }) => refused_if(!is_good(*window), 14),
        _ => None,
    }
}

const DAYS: [u8; 13] = [0, 31, 29, 31, 30, 31, 30, 31, 31, 30, 31, 30, 31];

fn is_day(day: u8, month: u8) -> bool {
    (1..=DAYS.get(usize::from(month)).copied().unwrap_or(0)).contains(&day)
}

fn edges(_: &Seen, item: Item) -> Option<u8> {
    edges_by(item, |[a, b, c, d]| is_day(a, b) && is_day(c, d))
}

fn sheets_by(item: Item, sheets: usize, most: usize) -> Option<u8> {
    refused_if(matches!(item, Item::Sheet(_)) && sheets >= most, 6)
}

fn sheets(seen: &Seen, item: Item) -> Option<u8> {
    sheets_by(item, seen.sheets, 16)
}

fn length_by(item: Item, least: usize, most: usize) -> Option<u8> {
    match item {
        Item::Run(run) => refused_if(!(least..=most).contains(&run.len()), 3),
        _ => None,
    }
}

fn length(_: &Seen, item: Item) -> Option<u8> {
    length_by(item, 2, 8)
}

fn grades_by(item: Item, is_bad: impl Fn(&[u8]) -> bool) -> Option<u8> {
    match item {
        Item::Run(run) => refused_if(is_bad(run), 4),
        _ => None,
    }
}

fn grades(seen: &Seen, item: Item) -> Option<u8> {
    grades_by(item, |run| run.iter().any(|&grade| u16::from(grade) >= seen.grades))
}

fn runs_by(item: Item, runs: usize, most: usize) -> Option<u8> {
    refused_if(matches!(item, Item::Run(_)) && runs >= most, 6)
}

fn runs(seen: &Seen, item: Item) -> Option<u8> {
    runs_by(item, seen.runs, 256)
}

fn no_test(_: &Seen, _: Item) -> Option<u8> {
    None
}

impl Writer {
    fn answer(&self, case: &WriteCase) -> Result<Vec<u8>, Refusal> {
        let content = &case.content;
        let bad = self.bad_items(content);
        let refusal = (self.decides)(&bad).copied();
        let layout = || {
            let book = self.layout(content);
            let is_short = (self.is_short)(case.area, book.len());
            if is_short {
                Err(Refusal::plain(18))
            } else {
                Ok(book)
            }
        };
        match refusal {
            Some(refusal) if self.area_first => layout().and(Err(refusal)),
            Some(refusal) => Err(refusal),
            None => layout(),
        }
    }

    fn bad_items(&self, content: &Content) -> Vec<Refusal> {
        let grades = content.grades;
        let mut bad = Vec::new();
        if !(self.count)(grades) {
            bad.push(Refusal::at(4, 0));
        }
        let mut seen = Seen {
            grades,
            pairs: BTreeMap::new(),
            last_pair: None,
            sheets: 0,
            runs: 0,
            runs_of_sheet: 0,
        };
        for (index, item) in (self.items)(content) {
            match self.tests.iter().find_map(|test| test(&seen, item)) {
                Some(number) => bad.push(Refusal::at(number, index)),
                None => seen.see(item),
            }
        }
        bad
    }

    fn layout(&self, content: &Content) -> Vec<u8> {
        let mut bytes = Vec::new();
        let mut field = |tag: u8, body: &[u8]| {
            bytes.push(tag);
            bytes.extend((self.length)(body.len() as u16));
            bytes.extend(body);
        };
        field(1, &[content.grades as u8]);
        let mut list = content.changeovers.clone();
        (self.order)(&mut list);
        for GivenChangeover { from, to, litres } in list {
            field(2, &[&[from as u8, to as u8], &(self.litres)(litres)[..]].concat());
        }
        let mut sheets = content.sheets.clone();
        (self.sheets)(&mut sheets);
        sheets.iter_mut().for_each(self.sheet);
        for GivenSheet { marks, window, runs } in sheets {
            let window = window.map_or(vec![], |window| window.to_vec());
            field(3, &[&marks.to_be_bytes()[..], &window].concat());
            runs.iter().for_each(|run| field(4, run));
        }
        bytes.extend(self.behind);
        bytes
    }
}

/// A mistake, with its name, and how many of the stored inputs of `write_book` at least, of
/// random ones, and of the stored inputs of `rewrite` show it.
type Mistake = (&'static str, Writer, [usize; 3]);

/// Another test in the place of one.
fn with(place: usize, test: Test) -> Writer {
    let mut tests = RIGHT.tests;
    tests[place] = test;
    Writer { tests, ..RIGHT }
}

/// The tests in another order.
fn tested(tests: [Test; 7]) -> Writer {
    Writer { tests, ..RIGHT }
}

fn ordered(order: fn(&mut Vec<GivenChangeover>)) -> Writer {
    Writer { order, ..RIGHT }
}

/// Each sheet otherwise.
fn by_sheet(sheet: fn(&mut GivenSheet)) -> Writer {
    Writer { sheet, ..RIGHT }
}

/// The sheets otherwise.
fn by_sheets(sheets: fn(&mut Vec<GivenSheet>)) -> Writer {
    Writer { sheets, ..RIGHT }
}

fn orders() -> Vec<Mistake> {
    vec![
        ("not sorted", ordered(|_| {}), [180, 410, 290]),
        (
            "to, then from",
            ordered(|list| list.sort_by_key(|item| (item.to, item.from))),
            [190, 440, 310],
        ),
        ("by litres", ordered(|list| list.sort_by_key(|item| item.litres)), [190, 420, 300]),
        (
            "by litres, where these differ",
            ordered(|list| list.sort_by_key(|item| (item.litres, item.from, item.to))),
            [150, 300, 210],
        ),
        ("by from alone", ordered(|list| list.sort_by_key(|item| item.from)), [120, 290, 210]),
        (
            "falling",
            ordered(|list| list.sort_by_key(|item| std::cmp::Reverse((item.from, item.to)))),
            [200, 450, 320],
        ),
        (
            "tos falling",
            ordered(|list| list.sort_by_key(|item| (item.from, std::cmp::Reverse(item.to)))),
            [170, 400, 280],
        ),
        ("neighbours exchanged once", ordered(|list| exchange_neighbours(list)), [150, 360, 240]),
        ("turned round", ordered(|list| list.reverse()), [180, 400, 290]),
    ]
}

/// One pass of sorting.
fn exchange_neighbours(list: &mut [GivenChangeover]) {
    for place in 1..list.len() {
        let key = |item: GivenChangeover| (item.from, item.to);
        if key(list[place]) < key(list[place - 1]) {
            list.swap(place, place - 1);
        }
    }
}

fn layouts() -> Vec<Mistake> {
    vec![
        (
            "a window for every sheet",
            by_sheet(|sheet| {
                sheet.window.get_or_insert([1, 1, 31, 12]);
            }),
            [190, 320, 260],
        ),
        ("never a window", by_sheet(|sheet| sheet.window = None), [140, 250, 170]),
        (
            "months before days",
            by_sheet(|sheet| sheet.window = sheet.window.map(|[a, b, c, d]| [b, a, d, c])),
            [110, 190, 170],
        ),
        (
            "the last day first",
            by_sheet(|sheet| sheet.window = sheet.window.map(|[a, b, c, d]| [c, d, a, b])),
            [100, 180, 160],
        ),
        (
            "no window for the whole year",
            by_sheet(|sheet| sheet.window = sheet.window.filter(|&all| all != [1, 1, 31, 12])),
            [20, 50, 25],
        ),
        (
            "marks low byte first",
            by_sheet(|sheet| sheet.marks = sheet.marks.swap_bytes()),
            [200, 310, 260],
        ),
        ("runs sorted", by_sheet(|sheet| sheet.runs.sort()), [110, 310, 210]),
        ("a run again left out", by_sheet(|sheet| sheet.runs.dedup()), [45, 120, 60]),
        (
            "no empty sheet",
            by_sheets(|sheets| sheets.retain(|sheet| !sheet.runs.is_empty())),
            [150, 240, 170],
        ),
        (
            "sheets by marks",
            by_sheets(|sheets| sheets.sort_by_key(|sheet| sheet.marks)),
            [90, 190, 130],
        ),
        ("lengths low byte first", Writer { length: u16::to_le_bytes, ..RIGHT }, [310, 510, 430]),
        ("litres low byte first", Writer { litres: u32::to_le_bytes, ..RIGHT }, [200, 400, 300]),
        ("a byte after the book", Writer { behind: &[0], ..RIGHT }, [310, 510, 430]),
    ]
}

fn indexes() -> Vec<Mistake> {
    let indexed = |items| Writer { items, ..RIGHT };
    vec![
        (
            "the count is no item",
            indexed(|content| (0..).zip(content.items()).collect()),
            [720, 1070, 0],
        ),
        ("each list from 0", indexed(|content| in_own_lists(content, 0)), [720, 1070, 0]),
        ("each list from 1", indexed(|content| in_own_lists(content, 1)), [370, 500, 0]),
        ("a run has its sheet's index", indexed(of_sheets), [290, 400, 0]),
        ("the byte of the field", indexed(bytes_of_fields), [720, 1070, 0]),
        (
            "runs after all sheets",
            indexed(|content| (1..).zip(sheets_first(content)).collect()),
            [150, 210, 0],
        ),
        ("sheets before changeovers", indexed(changeovers_last), [90, 210, 0]),
        ("the changeovers' order in the book", indexed(in_rising_order), [200, 370, 0]),
        ("the last bad item", Writer { decides: |bad| bad.last(), ..RIGHT }, [250, 480, 0]),
        (
            "the least number",
            Writer { decides: |bad| bad.iter().min_by_key(|bad| bad.number), ..RIGHT },
            [100, 190, 0],
        ),
    ]
}

/// The place among the changeovers, the sheets or the runs.
fn in_own_lists(content: &Content, first: usize) -> Vec<(usize, Item<'_>)> {
    let mut next = [first; 3];
    let indexed = |item| {
        let list = match item {
            Item::Changeover(_) => 0,
            Item::Sheet(_) => 1,
            Item::Run(_) => 2,
        };
        next[list] += 1;
        (next[list] - 1, item)
    };
    content.items().into_iter().map(indexed).collect()
}

fn of_sheets(content: &Content) -> Vec<(usize, Item<'_>)> {
    let mut last = content.changeovers.len();
    let indexed = |(index, item)| match item {
        Item::Changeover(_) => (index, item),
        Item::Sheet(_) => {
            last += 1;
            (last, item)
        }
        Item::Run(_) => (last, item),
    };
    in_order(content).into_iter().map(indexed).collect()
}

fn bytes_of_fields(content: &Content) -> Vec<(usize, Item<'_>)> {
    let mut next = 4;
    let indexed = |item| {
        let at = next;
        next += match item {
            Item::Changeover(_) => 9,
            Item::Sheet(GivenSheet { window: None, .. }) => 5,
            Item::Sheet(_) => 9,
            Item::Run(run) => 3 + run.len(),
        };
        (at, item)
    };
    content.items().into_iter().map(indexed).collect()
}

fn sheets_first(content: &Content) -> Vec<Item<'_>> {
    let mut items = content.items();
    items.sort_by_key(|item| matches!(item, Item::Run(_)));
    items
}

/// Their indexes are right.
fn changeovers_last(content: &Content) -> Vec<(usize, Item<'_>)> {
    let mut items = in_order(content);
    items.sort_by_key(|(_, item)| matches!(item, Item::Changeover(_)));
    items
}

fn in_rising_order(content: &Content) -> Vec<(usize, Item<'_>)> {
    let mut items = content.items();
    let sorted = &mut items[..content.changeovers.len()];
    sorted.sort_by_key(|item| match item {
        Item::Changeover(item) => (item.from, item.to),
        _ => unreachable!("changeovers stand first"),
    });
    (1..).zip(items).collect()
}

fn areas() -> Vec<Mistake> {
    let short = |is_short| Writer { is_short, ..RIGHT };
    vec![
        ("a byte less is enough", short(|area, length| (area as usize) + 1 < length), [70, 120, 0]),
        ("a byte more is needed", short(|area, length| (area as usize) <= length), [170, 230, 0]),
        ("every area is enough", short(|_, _| false), [120, 180, 0]),
        ("as for the longest book", short(|area, _| area < 39_252), [240, 310, 0]),
        ("modulo 65,536", short(|area, length| (area as u16 as usize) < length), [30, 90, 0]),
        ("a signed length", short(|area, length| (area as i32) < length as i32), [9, 35, 0]),
        ("18 before the content's", Writer { area_first: true, ..RIGHT }, [230, 300, 0]),
    ]
}

fn counts_and_changeovers() -> Vec<Mistake> {
    let count = |count| Writer { count, ..RIGHT };
    vec![
        ("no grade", count(|count| count <= 64), [15, 30, 0]),
        ("65 grades", count(|count| (1..=65).contains(&count)), [15, 30, 0]),
        ("not 64 grades", count(|count| (1..64).contains(&count)), [25, 35, 8]),
        ("any grade below 64", with(0, |_, item| changeover_by(item, 64, 1_000_000)), [35, 70, 0]),
        (
            "the count is a grade",
            with(0, |s, item| changeover_by(item, s.grades + 1, 1_000_000)),
            [35, 50, 0],
        ),
        ("a litre more", with(0, |s, item| changeover_by(item, s.grades, 1_000_001)), [40, 95, 0]),
        ("a litre less", with(0, |s, item| changeover_by(item, s.grades, 999_999)), [100, 230, 50]),
        ("from equal to to", with(0, equal_is_good), [25, 40, 0]),
        ("from alone", with(0, from_alone), [35, 55, 0]),
        (
            "5 before 4",
            tested([repeated, changeover, edges, sheets, length, grades, runs]),
            [10, 25, 0],
        ),
        ("4 for 5", with(1, |s, item| repeated(s, item).and(Some(4))), [95, 200, 0]),
        (
            "the last of a repeated pair kept",
            Writer { order: last_of_each, ..with(1, no_test) },
            [95, 200, 0],
        ),
        (
            "the first of a repeated pair kept",
            Writer { order: first_of_each, ..with(1, no_test) },
            [95, 200, 0],
        ),
        (
            "also the reverse",
            with(1, |s, item| repeated_by(s, item, has_pair_or_reverse)),
            [550, 910, 210],
        ),
        (
            "with the same litres only",
            with(1, |s, item| {
                repeated_by(s, item, |s, item| {
                    s.pairs.get(&(item.from, item.to)) == Some(&item.litres)
                })
            }),
            [65, 120, 0],
        ),
        (
            "next to it only",
            with(1, |s, item| {
                repeated_by(s, item, |s, item| s.last_pair == Some((item.from, item.to)))
            }),
            [40, 95, 0],
        ),
    ]
}

fn equal_is_good(seen: &Seen, item: Item) -> Option<u8> {
    match item {
        Item::Changeover(same) if same.from == same.to => {
            refused_if(same.from >= seen.grades || same.litres > 1_000_000, 4)
        }
        _ => changeover(seen, item),
    }
}

fn from_alone(seen: &Seen, item: Item) -> Option<u8> {
    match item {
        Item::Changeover(item) if item.to >= seen.grades => refused_if(
            item.from >= seen.grades || item.from == item.to || item.litres > 1_000_000,
            4,
        ),
        _ => changeover(seen, item),
    }
}

fn has_pair_or_reverse(seen: &Seen, item: GivenChangeover) -> bool {
    has_pair(seen, item) || seen.pairs.contains_key(&(item.to, item.from))
}

fn last_of_each(list: &mut Vec<GivenChangeover>) {
    let kept: BTreeMap<_, _> = list.iter().map(|&item| ((item.from, item.to), item)).collect();
    *list = kept.into_values().collect();
}

fn first_of_each(list: &mut Vec<GivenChangeover>) {
    list.reverse();
    last_of_each(list);
}

fn sheets_and_runs() -> Vec<Mistake> {
    vec![
        (
            "6 before 14",
            tested([changeover, repeated, sheets, edges, length, grades, runs]),
            [20, 30, 0],
        ),
        (
            "6 before 4",
            tested([changeover, repeated, edges, sheets, length, runs, grades]),
            [10, 10, 0],
        ),
        (
            "6 before 3",
            tested([changeover, repeated, edges, sheets, runs, length, grades]),
            [25, 30, 0],
        ),
        (
            "3 after 4",
            tested([changeover, repeated, edges, sheets, grades, length, runs]),
            [35, 75, 0],
        ),
        ("4 for 14", with(2, |s, item| edges(s, item).and(Some(4))), [160, 170, 0]),
        ("no 14", with(2, no_test), [160, 170, 0]),
        (
            "the first edge alone",
            with(2, |_, item| edges_by(item, |[a, b, ..]| is_day(a, b))),
            [70, 60, 0],
        ),
        (
            "the last edge alone",
            with(2, |_, item| edges_by(item, |[.., c, d]| is_day(c, d))),
            [80, 70, 0],
        ),
        ("29 February is none", with(2, no_leap_day), [110, 250, 80]),
        ("all months have 31 days", with(2, |_, item| edges_by(item, has_31_days)), [50, 35, 0]),
        ("no window over the year's end", with(2, no_year_end), [160, 360, 110]),
        ("a 17th sheet", with(3, |s, item| sheets_by(item, s.sheets, 17)), [25, 30, 0]),
        ("no 16th sheet", with(3, |s, item| sheets_by(item, s.sheets, 15)), [80, 95, 15]),
        ("a run of one", with(4, |_, item| length_by(item, 1, 8)), [35, 40, 0]),
        ("no run of two", with(4, |_, item| length_by(item, 3, 8)), [340, 620, 210]),
        ("a run of nine", with(4, |_, item| length_by(item, 2, 9)), [25, 45, 0]),
        ("no run of eight", with(4, |_, item| length_by(item, 2, 7)), [120, 320, 100]),
        (
            "any grade of a run below 64",
            with(5, |_, item| grades_by(item, |run| run.iter().any(|&g| g >= 64))),
            [45, 40, 0],
        ),
        ("no grade twice in a run", with(5, no_grade_twice), [240, 630, 230]),
        ("no neighbours equal", with(5, no_neighbours_equal), [150, 380, 140]),
        (
            "the last grade passed over",
            with(5, |s, item| {
                grades_by(item, |run| run.iter().rev().skip(1).any(|&g| u16::from(g) >= s.grades))
            }),
            [45, 40, 0],
        ),
        (
            "the first grade passed over",
            with(5, |s, item| {
                grades_by(item, |run| run.iter().skip(1).any(|&g| u16::from(g) >= s.grades))
            }),
            [35, 40, 0],
        ),
        ("a 257th run", with(6, |s, item| runs_by(item, s.runs, 257)), [20, 15, 0]),
        ("no 256th run", with(6, |s, item| runs_by(item, s.runs, 255)), [65, 70, 10]),
        (
            "256 runs in each sheet",
            with(6, |s, item| runs_by(item, s.runs_of_sheet, 256)),
            [10, 9, 0],
        ),
        (
            "16 runs in each sheet",
            with(6, |s, item| runs_by(item, s.runs_of_sheet, 16)),
            [75, 130, 15],
        ),
    ]
}

fn no_leap_day(seen: &Seen, item: Item) -> Option<u8> {
    let is_good = |[a, b, c, d]: [u8; 4]| [a, b] != [29, 2] && [c, d] != [29, 2];
    edges(seen, item).or(edges_by(item, is_good))
}

fn has_31_days([a, b, c, d]: [u8; 4]) -> bool {
    [(a, b), (c, d)].iter().all(|(day, month)| (1..=31).contains(day) && (1..=12).contains(month))
}

fn no_year_end(seen: &Seen, item: Item) -> Option<u8> {
    edges(seen, item).or(edges_by(item, |[a, b, c, d]| (b, a) <= (d, c)))
}

fn no_grade_twice(seen: &Seen, item: Item) -> Option<u8> {
    let comes_back = |run: &[u8]| run.iter().collect::<BTreeSet<_>>().len() < run.len();
    grades(seen, item).or(grades_by(item, comes_back))
}

fn no_neighbours_equal(seen: &Seen, item: Item) -> Option<u8> {
    grades(seen, item).or(grades_by(item, |run| run.windows(2).any(|pair| pair[0] == pair[1])))
}

fn mistakes() -> Vec<Mistake> {
    let groups =
        [orders(), layouts(), indexes(), areas(), counts_and_changeovers(), sheets_and_runs()];
    groups.concat()
}

/// What the inputs of `write_book` ask for, as far as they are whole.
fn asked(inputs: Vec<Vec<u8>>) -> Vec<WriteCase> {
    inputs.iter().filter_map(|input| WriteCase::read(input).ok()).collect()
}

/// What the inputs of `rewrite` ask for, as far as they are books.
fn asked_by_books(inputs: Vec<Vec<u8>>) -> Vec<WriteCase> {
    let books = inputs.iter().filter(|input| book::read(input).is_ok());
    let content = |input: &Vec<u8>| content_of(&Draft::split(input)?);
    let contents = books.map(|input| content(input).expect("a book that reads has a content"));
    // No book is as long as the area.
    contents.map(|content| WriteCase { content, area: 40_000 }).collect()
}

#[test]
fn inputs_show_each_mistake() {
    let random = (0..3_000).map(|index| inputs::case(Kind::WriteBook, 2, index)).collect();
    let cases = [
        asked(vectors::cases(Kind::WriteBook, 1)),
        asked(random),
        asked_by_books(vectors::cases(Kind::Rewrite, 1)),
    ];
    for case in cases.iter().flatten() {
        assert_eq!(RIGHT.answer(case), case.write(), "{case:?}");
    }
    let right = |case: &WriteCase| (case.clone(), RIGHT.answer(case));
    let answered = cases.map(|cases| cases.iter().map(right).collect::<Vec<_>>());
    for (name, writer, least) in mistakes() {
        let shown = |(case, right): &&(WriteCase, _)| writer.answer(case) != *right;
        let counts: Vec<usize> =
            answered.iter().map(|cases| cases.iter().filter(shown).count()).collect();
        let enough = counts.iter().zip(&least).all(|(count, least)| count >= least);
        assert!(enough, "{name}: {counts:?}, at least {least:?}");
    }
}
