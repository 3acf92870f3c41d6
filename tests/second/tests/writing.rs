//! Order 6 of 02: the bytes that are written, what is refused and where, areas, the two
//! programs; and how many inputs, random and stored, show each mistake of a hurried writer.

use second::book::{self, Book};
use second::changeovers::Changeover;
use second::content_inputs::needed;
use second::content_samples::{self, Chosen};
use second::contents::{self, WriteCase, LONGEST_INPUT};
use second::dates::{Day, Window};
use second::draft::Draft;
use second::inputs;
use second::kinds::Kind;
use second::programs::{self, MOST_INPUT};
use second::random::Random;
use second::refusal::Refusal;
use second::samples::{book_a, book_a_season};
use second::sources::Source;
use second::vectors;
use second::writing::{self, Content, GivenChangeover, GivenSheet, Item};
use std::collections::{BTreeMap, BTreeSet};

/// A content of three grades, and what 01 and 02 have for it.
fn small() -> (Content, Vec<u8>) {
    let changeover = |(from, to, litres)| GivenChangeover { from, to, litres };
    let sheet = |marks, window, runs: &[&[u8]]| GivenSheet {
        marks,
        window,
        runs: runs.iter().map(|run| run.to_vec()).collect(),
    };
    let content = Content {
        grades: 3,
        changeovers: [(2, 1, 0), (0, 2, 1_000_000), (2, 0, 7), (0, 1, 258)]
            .map(changeover)
            .to_vec(),
        sheets: vec![
            sheet(0x8002, Some([29, 2, 1, 12]), &[&[0, 1, 0], &[2, 2]]),
            sheet(1, None, &[]),
            sheet(0x0100, None, &[&[0, 1, 2, 0, 1, 2, 0, 1], &[0, 1, 0]]),
        ],
    };
    #[rustfmt::skip]
    let bytes = vec![
        0x01, 0x00, 0x01, 0x03,
        0x02, 0x00, 0x06, 0x00, 0x01, 0x00, 0x00, 0x01, 0x02,
        0x02, 0x00, 0x06, 0x00, 0x02, 0x00, 0x0F, 0x42, 0x40,
        0x02, 0x00, 0x06, 0x02, 0x00, 0x00, 0x00, 0x00, 0x07,
        0x02, 0x00, 0x06, 0x02, 0x01, 0x00, 0x00, 0x00, 0x00,
        0x03, 0x00, 0x06, 0x80, 0x02, 0x1D, 0x02, 0x01, 0x0C,
        0x04, 0x00, 0x03, 0x00, 0x01, 0x00,
        0x04, 0x00, 0x02, 0x02, 0x02,
        0x03, 0x00, 0x02, 0x00, 0x01,
        0x03, 0x00, 0x02, 0x01, 0x00,
        0x04, 0x00, 0x08, 0x00, 0x01, 0x02, 0x00, 0x01, 0x02, 0x00, 0x01,
        0x04, 0x00, 0x03, 0x00, 0x01, 0x00,
    ];
    (content, bytes)
}

fn marked_area(length: usize) -> Vec<u8> {
    (0..length).map(|place| 0xC0 | (place % 61) as u8).collect()
}

#[test]
fn a_small_content_is_written() {
    let (content, bytes) = small();
    assert_eq!(bytes.len(), 87);
    for length in [87, 88, 200, 40_000] {
        let mut area = marked_area(length);
        assert_eq!(writing::write(&content, &mut area), Ok(87));
        assert_eq!(area[..87], bytes);
        assert_eq!(area[87..], marked_area(length)[87..]);
    }
    for length in [0, 1, 4, 50, 86] {
        let mut area = marked_area(length);
        assert_eq!(writing::write(&content, &mut area), Err(Refusal::plain(18)));
        assert_eq!(area, marked_area(length));
    }
    let grades_alone = Content { grades: 64, changeovers: Vec::new(), sheets: Vec::new() };
    let mut area = marked_area(6);
    assert_eq!(writing::write(&grades_alone, &mut area), Ok(4));
    assert_eq!(area, [0x01, 0x00, 0x01, 0x40, 0xC4, 0xC5]);
}

/// The content and its answer with one thing changed. Its items: the count is 0, the
/// changeovers 1 to 4, a sheet 5, its runs 6 and 7, sheets 8 and 9, and runs 10 and 11.
fn refused(number: u8, index: usize, change: impl Fn(&mut Content)) {
    let (mut content, _) = small();
    change(&mut content);
    for length in [0, 87, 40_000] {
        let mut area = marked_area(length);
        assert_eq!(writing::write(&content, &mut area), Err(Refusal::at(number, index)));
        assert_eq!(area, marked_area(length));
    }
}

#[test]
fn each_refusal_has_its_index() {
    for grades in [0, 65, 256, 259, 65_535] {
        refused(4, 0, |content| content.grades = grades);
    }
    // A grade that becomes too high: the first item with it.
    refused(4, 1, |content| content.grades = 2);
    for grade in [3, 64, 255, 256, 257, 300, 65_535] {
        refused(4, 2, |content| content.changeovers[1].from = grade);
        refused(4, 4, |content| content.changeovers[3].to = grade);
    }
    refused(4, 3, |content| content.changeovers[2].to = 2);
    for litres in [1_000_001, 1 << 20, u32::MAX] {
        refused(4, 1, |content| content.changeovers[0].litres = litres);
    }
    for litres in [0, 7, 1_000_000] {
        let again = GivenChangeover { from: 2, to: 0, litres };
        refused(5, 4, |content| content.changeovers[3] = again);
        refused(5, 3, |content| content.changeovers[0] = again);
        refused(5, 5, |content| content.changeovers.push(again));
    }
    for window in [[0, 1, 1, 1], [30, 2, 1, 1], [1, 1, 31, 11], [1, 0, 1, 1], [1, 1, 1, 13]] {
        refused(14, 5, |content| content.sheets[0].window = Some(window));
        refused(14, 9, |content| content.sheets[2].window = Some(window));
    }
    for run in [vec![], vec![1], vec![0; 9], vec![3; 9], vec![0; 300]] {
        refused(3, 6, |content| content.sheets[0].runs[0] = run.clone());
        refused(3, 11, |content| content.sheets[2].runs[1] = run.clone());
    }
    for run in [vec![3, 0], vec![0, 3], vec![0, 1, 255, 1], vec![64; 8]] {
        refused(4, 7, |content| content.sheets[0].runs[1] = run.clone());
        refused(4, 9, |content| content.sheets[1].runs.push(run.clone()));
    }
    refused(6, 25, |content| {
        content.sheets.extend(vec![content.sheets[1].clone(); 14]);
    });
    refused(6, 262, |content| content.sheets[0].runs.extend(vec![vec![0, 1]; 257 - 2]));
    refused(6, 264, |content| content.sheets[2].runs.extend(vec![vec![0, 1]; 257 - 4]));
}

#[test]
fn within_an_item_and_between_items() {
    let bad_window = Some([31, 6, 1, 1]);
    // 4, then 5.
    refused(4, 5, |content| {
        content.changeovers.push(GivenChangeover { from: 2, to: 1, litres: 1_000_001 });
    });
    let equal = GivenChangeover { from: 1, to: 1, litres: 0 };
    refused(4, 3, |content| content.changeovers[2..].fill(equal));
    // The reverse is another pair: only when it is given twice is it 5.
    let reverse = GivenChangeover { from: 1, to: 2, litres: 0 };
    refused(5, 6, |content| content.changeovers.extend([reverse, reverse]));
    // 14, then 6.
    refused(14, 25, |content| {
        content.sheets.extend(vec![content.sheets[1].clone(); 14]);
        content.sheets[16].window = bad_window;
    });
    // 3, then 4, then 6.
    refused(3, 262, |content| {
        content.sheets[0].runs.extend(vec![vec![0, 1]; 254]);
        content.sheets[0].runs.push(vec![3]);
    });
    refused(4, 262, |content| {
        content.sheets[0].runs.extend(vec![vec![0, 1]; 254]);
        content.sheets[0].runs.push(vec![0, 3]);
    });
    // The count, then changeovers as given, then sheets each followed by its runs.
    refused(4, 0, |content| *content = Content { grades: 0, ..all_bad() });
    refused(4, 1, |content| *content = all_bad());
    refused(14, 1, |content| *content = Content { changeovers: Vec::new(), ..all_bad() });
    refused(3, 6, |content| {
        content.sheets[0].runs[0] = vec![0];
        content.sheets[1].window = bad_window;
        content.sheets[2].runs[0] = vec![3, 3];
    });
    refused(14, 8, |content| {
        content.sheets[1].window = bad_window;
        content.sheets[2].runs[0] = vec![3, 3];
    });
    refused(5, 2, |content| {
        content.changeovers[1] = content.changeovers[0];
        content.changeovers[2].litres = u32::MAX;
        content.sheets[0].window = bad_window;
    });
}

fn all_bad() -> Content {
    let changeover = GivenChangeover { from: 300, to: 300, litres: u32::MAX };
    let sheet = GivenSheet { marks: 0, window: Some([0; 4]), runs: vec![vec![]; 2] };
    Content { grades: 3, changeovers: vec![changeover; 2], sheets: vec![sheet; 2] }
}

/// Every day from 0 to 32 of every month from 0 to 13, as either edge.
#[test]
fn edges_are_days_that_some_year_has() {
    let (content, _) = small();
    let days = [0, 31, 29, 31, 30, 31, 30, 31, 31, 30, 31, 30, 31, 0];
    for (day, month) in (0..=13).flat_map(|month| (0..=32).map(move |day| (day, month))) {
        let good = (1..=days[usize::from(month)]).contains(&day);
        for window in [[day, month, 1, 1], [31, 12, day, month]] {
            let mut content = content.clone();
            content.sheets[0].window = Some(window);
            let answer = writing::write(&content, &mut [0; 87]);
            assert_eq!(answer, if good { Ok(87) } else { Err(Refusal::at(14, 5)) }, "{window:?}");
        }
    }
}

fn all_chosen() -> Vec<Chosen> {
    let mut list = content_samples::chosen();
    list.extend(content_samples::longest(&mut Random::new(&[3])));
    list
}

#[test]
fn chosen_contents_have_their_answers() {
    let stored: BTreeSet<Vec<u8>> = vectors::cases(Kind::WriteBook, 1).into_iter().collect();
    let mut counts: BTreeMap<u8, usize> = BTreeMap::new();
    for Chosen { reason, case, answer } in all_chosen() {
        let written = case.write().map(|book| book.len());
        assert_eq!(written, answer, "{reason}: {case:?}");
        *counts.entry(answer.map_or_else(|refused| refused.number, |_| 0)).or_default() += 1;
        // The longest ones are random books.
        assert!(stored.contains(&case.bytes()) || case.bytes().len() > 20_000, "{reason}");
    }
    for (number, least) in [(0, 80), (3, 35), (4, 110), (5, 25), (6, 25), (14, 90), (18, 80)] {
        assert!(counts[&number] >= least, "{number}: {counts:?}");
    }
    let reads = |draft: &Draft| book::read(&draft.bytes()).is_ok();
    assert!(content_samples::good().iter().all(|(_, draft, _)| reads(draft)));
    assert!(content_samples::bad().iter().all(|(_, draft, ..)| !reads(draft)));
}

/// Contents that are good, from random books, in any order.
fn good_contents(count: usize) -> Vec<Content> {
    let cases = (0..).map(|index| inputs::case(Kind::WriteBook, 5, index));
    let contents = cases.filter_map(|input| WriteCase::read(&input).ok());
    contents
        .map(|case| case.content)
        .filter(|content| writing::check(content).is_ok())
        .take(count)
        .collect()
}

fn written(content: &Content) -> Vec<u8> {
    let mut area = vec![0; book::LONGEST_BOOK];
    let length = writing::write(content, &mut area).unwrap();
    area.truncate(length);
    area
}

/// The content as reading has to give it, by hand.
fn as_read(content: &Content) -> (u16, Vec<Changeover>, Vec<book::Sheet>) {
    let mut list: Vec<Changeover> = content
        .changeovers
        .iter()
        .map(|item| Changeover { from: item.from as u8, to: item.to as u8, litres: item.litres })
        .collect();
    list.sort_by_key(|item| (item.from, item.to));
    let window = |[first_day, first_month, last_day, last_month]: [u8; 4]| Window {
        first: Day::new(first_day, first_month),
        last: Day::new(last_day, last_month),
    };
    let sheets = content.sheets.iter().map(|sheet| book::Sheet {
        marks: sheet.marks,
        window: sheet.window.map(window),
        runs: sheet.runs.clone(),
    });
    (content.grades, list, sheets.collect())
}

#[test]
fn what_is_written_is_read_as_the_content() {
    for content in good_contents(1_500) {
        let bytes = written(&content);
        assert_eq!(bytes.len(), needed(&content));
        let read: Book = book::read(&bytes).unwrap();
        let parts = (read.grades() as u16, read.changeovers.list(), read.sheets.clone());
        assert_eq!(parts, as_read(&content));
        assert_eq!(writing::check(&content), Ok(read));
        assert_eq!(programs::rewrite(&bytes), Ok(bytes));
    }
}

/// Contents, and books that read, whose changeovers stand in another order.
#[test]
fn shuffled_changeovers_give_equal_bytes() {
    let random = &mut Random::new(&[6]);
    let mut shuffles = 0;
    for content in good_contents(700) {
        let book = written(&content);
        let mut other = content.clone();
        random.shuffle(&mut other.changeovers);
        assert_eq!(written(&other), book);
        let mut draft = Draft::split(&book).unwrap();
        random.shuffle(&mut draft.fields[1..=content.changeovers.len()]);
        let shuffled = draft.bytes();
        shuffles += u32::from(other != content && shuffled != book);
        assert_eq!(programs::rewrite(&shuffled), Ok(book));
    }
    assert!(shuffles > 400, "{shuffles}");
}

#[test]
fn write_book_prints_lengths_and_refusals() {
    // Two grades, 1 to 0 and 0 to 1, a sheet with a window and the run 1 0.
    let head = [2, 0, 2, 1, 0, 0, 0, 1, 0, 0, 1, 0, 0, 0, 9, 1, 0, 3];
    let sheet = [1, 31, 12, 1, 1, 0, 1, 2, 1, 0];
    let input = |area: [u8; 4]| [&head[..], &sheet, &area].concat();
    let book = "LENGTH 36\n01000102020006000100000009020006010000000100030006\
                00031F0C010104000201\
                00\n";
    assert_eq!(contents::run(&input([0, 0, 0, 36])), book);
    for area in [[0, 0, 0, 37], [0, 1, 0, 0], [0, 1, 0, 35], [255; 4]] {
        assert_eq!(contents::run(&input(area)), book);
    }
    for area in [[0, 0, 0, 35], [0; 4], [0, 0, 0, 1]] {
        assert_eq!(contents::run(&input(area)), "REFUSED 18\n");
    }
    let whole = input([0, 0, 0, 36]);
    for length in 0..whole.len() {
        assert_eq!(contents::run(&whole[..length]), "REFUSED 1 AT 0\n");
    }
    assert_eq!(contents::run(&[&whole[..], &[1; 70_000]].concat()), book);
    let changed = |place: usize, byte: u8| {
        let mut input = whole.clone();
        input[place] = byte;
        contents::run(&input)
    };
    assert_eq!(changed(0, 0), "REFUSED 4 AT 0\n");
    assert_eq!(changed(0, 1), "REFUSED 4 AT 1\n");
    assert_eq!(changed(9, 2), "REFUSED 4 AT 2\n");
    assert_eq!(changed(10, 0), "REFUSED 4 AT 2\n");
    assert_eq!(changed(19, 32), "REFUSED 14 AT 3\n");
    assert_eq!(changed(26, 2), "REFUSED 4 AT 4\n");
    assert_eq!(changed(18, 255), book);
    // A count that is too high for what there is.
    assert_eq!(changed(1, 1), "REFUSED 1 AT 0\n");
    // No window: its bytes are then the run count and runs.
    assert_eq!(changed(18, 0), "REFUSED 1 AT 0\n");
    assert_eq!(contents::run(&[]), "REFUSED 1 AT 0\n");
    assert_eq!(contents::run(&[1, 0, 0, 0, 0, 0, 0, 4]), "LENGTH 4\n01000101\n");
    let long = content_samples::write_case().bytes();
    assert_eq!(Kind::WriteBook.output(&long), Kind::WriteBook.run(&long).into_bytes());
}

#[test]
fn rewrite_prints_bytes_or_a_refusal() {
    let rising = [
        &[1, 0, 1, 4][..],
        &[2, 0, 6, 0, 1, 0, 0, 0, 100],
        &[2, 0, 6, 0, 2, 0, 0, 0, 250],
        &[2, 0, 6, 1, 2, 0, 0, 0, 100],
        &[2, 0, 6, 1, 3, 0, 0, 1, 144],
        &[2, 0, 6, 2, 1, 0, 0, 0, 50],
        &[2, 0, 6, 2, 3, 0, 0, 0, 100],
        &[3, 0, 2, 0, 1],
        &[4, 0, 4, 0, 1, 2, 3],
        &[3, 0, 6, 0, 2, 1, 5, 15, 9],
        &[4, 0, 3, 0, 2, 3],
    ]
    .concat();
    let season = book_a_season().bytes();
    assert_eq!(Kind::Rewrite.output(&season), rising);
    assert_eq!(Kind::Rewrite.output(&rising), rising);
    let digits = "0100010402000600010000006402000600020000";
    assert!(Kind::Rewrite.run(&season).starts_with(&format!("LENGTH 85\n{digits}")));
    for (input, line) in [
        (vec![], "REFUSED 1 AT 0\n"),
        (season[..84].to_vec(), "REFUSED 1 AT 79\n"),
        (book_a().changeover(1, 0, 5).bytes(), "REFUSED 2 AT 81\n"),
        (book_a().run(&[1]).bytes(), "REFUSED 3 AT 81\n"),
        (book_a().run(&[1, 4]).bytes(), "REFUSED 4 AT 81\n"),
        (Draft::new(2).changeover(0, 1, 5).changeover(0, 1, 5).bytes(), "REFUSED 5 AT 13\n"),
        (book_a().season(0, [0, 1, 1, 1]).bytes(), "REFUSED 14 AT 81\n"),
    ] {
        assert_eq!(Kind::Rewrite.output(&input), line.as_bytes());
        assert_eq!(Kind::Rewrite.run(&input), line);
    }
}

/// What stands behind the first 65,536 bytes counts for nothing, and so many are never a
/// book.
#[test]
fn rewrite_at_the_limits_of_length() {
    let lengths: Vec<usize> =
        (0..6).map(|index| Source::LongRewrites.case(1, index).len()).collect();
    assert_eq!(lengths, [39_252, 65_536, 65_537, 39_253, 131_072, 65_535]);
    for index in 0..18 {
        let input = Source::LongRewrites.case(2, index);
        let answer = Source::LongRewrites.answer(&input);
        if input.len() == book::LONGEST_BOOK {
            assert!(answer.len() == input.len() && answer != input);
            assert_eq!(programs::rewrite(&answer), Ok(answer));
        } else {
            assert!(answer.starts_with(b"REFUSED "));
            let first = &input[..input.len().min(MOST_INPUT)];
            assert_eq!(Source::LongRewrites.answer(first), answer);
        }
    }
}

/// What stands behind the first 1,048,576 bytes counts for nothing.
#[test]
fn write_book_at_the_limits_of_length() {
    for index in 0..24 {
        let input = Source::LongContents.case(2, index);
        let answer = Source::LongContents.answer(&input);
        let answer = String::from_utf8(answer).unwrap();
        let first = &input[..input.len().min(LONGEST_INPUT)];
        assert_eq!(contents::run(first), answer);
        let late = index / 6 % 2 == 0;
        let case = WriteCase::read(&input);
        let content = case.map(|case| case.content);
        match index % 6 {
            0 => {
                let changeovers = content.unwrap().changeovers;
                assert!(changeovers.len() == 65_535 && input.len() > 393_221);
                assert_eq!(answer.ends_with(" AT 4033\n"), late, "{answer}");
            }
            1 => {
                let content = content.unwrap();
                let last = content.sheets.last().unwrap();
                assert_eq!(last.runs.len(), 65_535);
                let index = 4_032 + content.sheets.len() + 257;
                assert_eq!(answer.ends_with(&format!(" AT {index}\n")), late, "{answer}");
            }
            2 => {
                let sheets = content.unwrap().sheets;
                assert_eq!(sheets.len(), 255);
                let runs: usize = sheets[..16].iter().map(|sheet| sheet.runs.len()).sum();
                let index = 4_032 + 17 + runs;
                assert_eq!(answer.ends_with(&format!(" AT {index}\n")), late, "{answer}");
            }
            3 => assert_eq!(input.len(), LONGEST_INPUT),
            4 => assert!(input.len() > LONGEST_INPUT && content.is_ok()),
            _ => {
                assert!(input.len() > LONGEST_INPUT);
                assert_eq!(answer, "REFUSED 1 AT 0\n");
            }
        }
        // All that the input says ends with its last byte that is read, or before.
        match (index % 6, late) {
            (3, true) | (4, false) => assert!(answer.ends_with(" AT 4305\n"), "{answer}"),
            (3, false) | (4, true) => {
                assert!(answer.starts_with("LENGTH 39252\n") || answer == "REFUSED 18\n");
            }
            _ => assert!(answer.starts_with("REFUSED "), "{answer}"),
        }
    }
}

/// The items of a content that are of an item's sort, from the first index to the last.
fn indexes_of_sort(content: &Content, index: usize) -> Vec<usize> {
    let sort = |item: &Item| match item {
        Item::Changeover(_) => 0,
        Item::Sheet(_) => 1,
        Item::Run(_) => 2,
    };
    let items = content.items();
    let same = |place: &usize| sort(&items[place - 1]) == sort(&items[index - 1]);
    (1..=items.len()).filter(same).collect()
}

/// The sort of a bad item, and whether it is the first of its sort, the last, or another.
fn sort_and_place(content: &Content, index: usize) -> (&'static str, &'static str) {
    if index == 0 {
        return ("count", "only");
    }
    let sort = match content.items()[index - 1] {
        Item::Changeover(_) => "changeover",
        Item::Sheet(_) => "sheet",
        Item::Run(_) => "run",
    };
    let indexes = indexes_of_sort(content, index);
    let place = match (indexes.first() == Some(&index), indexes.last() == Some(&index)) {
        (true, true) => "only",
        (true, false) => "first",
        (false, true) => "last",
        (false, false) => "middle",
    };
    (sort, place)
}

fn random_cases() -> Vec<WriteCase> {
    let inputs = (0..3_000).map(|index| inputs::case(Kind::WriteBook, 2, index));
    inputs.filter_map(|input| WriteCase::read(&input).ok()).collect()
}

/// Each refusal comes at the first item of its sort, at the last, and between.
#[test]
fn random_contents_are_bad_at_all_places() {
    let mut counts: BTreeMap<_, usize> = BTreeMap::new();
    let mut with_short_area = 0;
    for case in random_cases() {
        if let Err(Refusal { number, at: Some(index) }) = case.write() {
            let (sort, place) = sort_and_place(&case.content, index);
            *counts.entry((number, sort, place)).or_default() += 1;
            with_short_area += u32::from((case.area as usize) < needed(&case.content));
        }
    }
    let holds = |number, sort, places: &[&'static str], least| {
        for &place in places {
            let count = counts.get(&(number, sort, place)).copied().unwrap_or(0);
            assert!(count >= least, "{number} {sort} {place}: {counts:?}");
        }
    };
    holds(4, "count", &["only"], 100);
    holds(4, "changeover", &["first", "middle", "last"], 60);
    holds(5, "changeover", &["middle", "last"], 80);
    holds(14, "sheet", &["only", "first", "middle", "last"], 25);
    holds(6, "sheet", &["middle", "last"], 8);
    holds(3, "run", &["only", "first", "middle", "last"], 35);
    holds(4, "run", &["only", "first", "middle", "last"], 20);
    holds(6, "run", &["middle", "last"], 4);
    assert!(with_short_area > 300, "{with_short_area}");
}

#[test]
fn random_contents_have_all_shapes() {
    let cases = random_cases();
    let good: Vec<&WriteCase> =
        cases.iter().filter(|case| writing::check(&case.content).is_ok()).collect();
    let grades: BTreeSet<u16> = good.iter().map(|case| case.content.grades).collect();
    assert_eq!(grades.len(), 64);
    let runs = |case: &WriteCase| writing::check(&case.content).map_or(0, |book| book.runs());
    let good_ones =
        |is_one: &dyn Fn(&WriteCase) -> bool| good.iter().filter(|case| is_one(case)).count();
    let all = |is_one: &dyn Fn(usize, usize) -> bool| {
        cases.iter().filter(|case| is_one(case.area as usize, needed(&case.content))).count()
    };
    let counts = [
        ("no changeover", 60, good_ones(&|case| case.content.changeovers.is_empty())),
        ("no sheet", 100, good_ones(&|case| case.content.sheets.is_empty())),
        ("a count alone", 10, good_ones(&|case| case.content.items().is_empty())),
        ("16 sheets", 20, good_ones(&|case| case.content.sheets.len() == 16)),
        ("256 runs", 12, good_ones(&|case| runs(case) == 256)),
        ("the longest book", 1, good_ones(&|case| needed(&case.content) == book::LONGEST_BOOK)),
        ("just the length", 600, all(&|area, needed| area == needed)),
        ("a byte less", 300, all(&|area, needed| area + 1 == needed)),
        ("a byte more", 140, all(&|area, needed| area == needed + 1)),
        ("no area", 70, all(&|area, _| area == 0)),
        ("as the longest book", 160, all(&|area, _| area == 39_252)),
        ("more than is lent", 230, all(&|area, _| area > 65_536)),
        ("the greatest area", 70, all(&|area, _| area == u32::MAX as usize)),
    ];
    for (name, least, count) in counts {
        assert!(count >= least, "{name}: {count}");
    }
}

/// Inputs that are cut short, and ones that go on behind their end; none is too long.
#[test]
fn random_inputs_of_write_book_have_all_ends() {
    let inputs: Vec<Vec<u8>> =
        (0..3_000).map(|index| inputs::case(Kind::WriteBook, 2, index)).collect();
    let length = |input: &Vec<u8>| WriteCase::read(input).map(|case| case.bytes().len());
    let count =
        |is_one: &dyn Fn(&Vec<u8>) -> bool| inputs.iter().filter(|input| is_one(input)).count();
    let cut = count(&|input| length(input).is_err());
    let longer = count(&|input| length(input).map_or(false, |length| length < input.len()));
    let long = count(&|input| input.len() > MOST_INPUT);
    assert!(inputs.iter().all(|input| input.len() <= LONGEST_INPUT));
    assert!(cut > 100 && longer > 80 && long > 15, "{cut} {longer} {long}");
}

#[test]
fn random_books_have_every_answer() {
    let books: Vec<Vec<u8>> =
        (0..3_000).map(|index| inputs::case(Kind::Rewrite, 2, index)).collect();
    let printed: Vec<String> = books.iter().map(|book| Kind::Rewrite.run(book)).collect();
    let count = |start: &str| printed.iter().filter(|text| text.starts_with(start)).count();
    for (start, least) in [
        ("LENGTH ", 2_000),
        ("LENGTH 39252\n", 4),
        ("REFUSED 1 AT ", 50),
        ("REFUSED 2 AT ", 50),
        ("REFUSED 3 AT ", 50),
        ("REFUSED 4 AT ", 25),
        ("REFUSED 5 AT ", 5),
        ("REFUSED 6 AT ", 3),
        ("REFUSED 14 AT ", 50),
    ] {
        assert!(count(start) >= least, "{start}: {}", count(start));
    }
    assert!(books.iter().any(|book| book.len() > MOST_INPUT));
}
