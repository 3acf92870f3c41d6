//! Reading: each refusal at its byte, the order of the tests within a field,
//! and the limits on both sides.

use second::book;
use second::draft::Draft;
use second::generate;
use second::programs;
use second::random::Random;
use second::refusal::Refusal;
use second::samples;
use second::seasons;

fn refused(bytes: &[u8]) -> (u8, usize) {
    match book::read(bytes) {
        Ok(book) => panic!("read: {book:?}"),
        Err(Refusal { number, at }) => (number, at.unwrap()),
    }
}

fn counts(draft: &Draft) -> (usize, usize, usize, usize) {
    let book = book::read(&draft.bytes()).unwrap();
    (book.grades(), book.changeovers.count(), book.sheets.len(), book.runs())
}

/// A count of 3 grades, then the bytes.
fn after_count(tail: &[u8]) -> Vec<u8> {
    [&[0x01, 0, 1, 3], tail].concat()
}

#[test]
fn count_of_grades() {
    assert_eq!(refused(&[1, 0, 1, 0]), (4, 0));
    assert_eq!(counts(&Draft::new(1)), (1, 0, 0, 0));
    assert_eq!(counts(&Draft::new(64)), (64, 0, 0, 0));
    assert_eq!(refused(&[1, 0, 1, 65]), (4, 0));
    assert_eq!(refused(&[1, 0, 1, 255]), (4, 0));
}

#[test]
fn head_under_3_bytes() {
    assert_eq!(refused(&[1]), (1, 0));
    assert_eq!(refused(&[1, 0]), (1, 0));
    // Before the tag is looked at.
    assert_eq!(refused(&[0xff]), (1, 0));
    assert_eq!(refused(&after_count(&[0xff])), (1, 4));
    assert_eq!(refused(&after_count(&[0x01, 0])), (1, 4));
    assert_eq!(refused(&after_count(&[0x04, 0])), (1, 4));
}

#[test]
fn body_under_its_length() {
    assert_eq!(refused(&after_count(&[2, 0, 6, 0, 1, 0, 0, 0])), (1, 4));
    assert_eq!(refused(&after_count(&[3, 0, 2, 0])), (1, 4));
    assert_eq!(refused(&after_count(&[3, 0, 6, 0, 0, 1, 5, 15])), (1, 4));
    // Before the values are looked at.
    assert_eq!(refused(&after_count(&[3, 0, 2, 0, 0, 4, 0, 3, 9, 9])), (1, 9));
}

#[test]
fn tags_and_their_order() {
    assert_eq!(refused(&[0, 0, 1, 3]), (2, 0));
    assert_eq!(refused(&[2, 0, 6, 0, 1, 0, 0, 0, 0]), (2, 0));
    assert_eq!(refused(&[3, 0, 2, 0, 0]), (2, 0));
    assert_eq!(refused(&[4, 0, 2, 0, 1]), (2, 0));
    assert_eq!(refused(&after_count(&[1, 0, 1, 3])), (2, 4));
    assert_eq!(refused(&after_count(&[5, 0, 0])), (2, 4));
    assert_eq!(refused(&after_count(&[4, 0, 2, 0, 1])), (2, 4));
    let sheet = Draft::new(3).sheet(0);
    assert_eq!(refused(&sheet.clone().changeover(0, 1, 0).bytes()), (2, 9));
    assert_eq!(refused(&sheet.clone().run(&[0, 1]).changeover(0, 1, 0).bytes()), (2, 14));
    assert_eq!(refused(&sheet.clone().run(&[0, 1]).count(3).bytes()), (2, 14));
    assert_eq!(counts(&sheet.run(&[0, 1]).sheet(0).sheet(0).run(&[0, 1])), (3, 0, 3, 2));
    // Before the length is looked at, and the body.
    assert_eq!(refused(&after_count(&[1, 0, 9])), (2, 4));
    assert_eq!(refused(&after_count(&[9, 0xff, 0xff])), (2, 4));
}

#[test]
fn lengths() {
    assert_eq!(refused(&[1, 0, 0]), (3, 0));
    assert_eq!(refused(&[1, 0, 2, 3, 3]), (3, 0));
    assert_eq!(refused(&[1, 1, 0]), (3, 0));
    for length in [0, 5, 7] {
        assert_eq!(refused(&after_count(&[2, 0, length])), (3, 4));
    }
    for length in [0, 1, 3, 4, 5, 7, 8] {
        assert_eq!(refused(&after_count(&[3, 0, length])), (3, 4));
    }
    for length in [0, 1, 9, 255] {
        assert_eq!(refused(&after_count(&[3, 0, 2, 0, 0, 4, 0, length])), (3, 9));
    }
    // A length that the tag lacks comes before a body that is cut short.
    for tag in [2, 3] {
        assert_eq!(refused(&after_count(&[tag, 0xff, 0xff])), (3, 4));
    }
}

#[test]
fn changeovers() {
    let pair = |from, to, litres| Draft::new(3).changeover(from, to, litres);
    assert_eq!(counts(&pair(2, 0, 0)), (3, 1, 0, 0));
    assert_eq!(refused(&pair(3, 0, 0).bytes()), (4, 4));
    assert_eq!(refused(&pair(0, 3, 0).bytes()), (4, 4));
    assert_eq!(refused(&pair(1, 1, 0).bytes()), (4, 4));
    assert_eq!(counts(&pair(0, 1, 1_000_000)), (3, 1, 0, 0));
    assert_eq!(refused(&pair(0, 1, 1_000_001).bytes()), (4, 4));
    assert_eq!(refused(&pair(0, 1, u32::MAX).bytes()), (4, 4));
    assert_eq!(counts(&pair(0, 1, 7).changeover(1, 0, 7)), (3, 2, 0, 0));
    assert_eq!(refused(&pair(0, 1, 7).changeover(0, 1, 8).bytes()), (5, 13));
    assert_eq!(refused(&pair(0, 1, 7).changeover(0, 1, 1_000_001).bytes()), (4, 13));
}

#[test]
fn values_of_runs() {
    let run = |grades: &[u8]| Draft::new(9).sheet(0).run(grades);
    assert_eq!(counts(&run(&[8, 0])), (9, 0, 1, 1));
    assert_eq!(refused(&run(&[9, 0]).bytes()), (4, 9));
    assert_eq!(refused(&run(&[0, 9]).bytes()), (4, 9));
    assert_eq!(refused(&run(&[0, 1, 0, 9]).bytes()), (4, 9));
    assert_eq!(counts(&run(&[0, 1]).run(&[0, 1]).sheet(5).run(&[0, 1])), (9, 0, 2, 3));
}

/// A run may come back to a grade and have neighbours equal; it is counted.
#[test]
fn runs_that_come_back() {
    let runs: [&[u8]; 6] =
        [&[0, 0], &[0, 1, 0], &[0, 1, 1, 2], &[1, 0, 1, 0, 1], &[8; 8], &[0, 1, 2, 3, 4, 5, 6, 0]];
    let all = runs.iter().fold(Draft::new(9).sheet(0), |draft, run| draft.run(run));
    assert_eq!(counts(&all), (9, 0, 1, 6));
    assert_eq!(
        programs::read_book(&all.bytes()),
        "GRADES 9 CHANGEOVERS 0 SHEETS 1 RUNS 6\nSHEET 0\nRUN 0 0\nRUN 0 1 0\nRUN 0 1 1 2\n\
         RUN 1 0 1 0 1\nRUN 8 8 8 8 8 8 8 8\nRUN 0 1 2 3 4 5 6 0\n"
    );
    assert_eq!(counts(&Draft::new(1).sheet(0).run(&[0, 0])), (1, 0, 1, 1));
}

#[test]
fn sheets_and_runs_at_their_limits() {
    let sheets = samples::full_sheets();
    assert_eq!(counts(&sheets), (2, 0, 16, 0));
    assert_eq!(refused(&sheets.clone().sheet(0).bytes()), (6, 84));
    assert_eq!(refused(&sheets.clone().field(3, &[0]).bytes()), (3, 84));
    let cut = sheets.sheet(0).bytes();
    assert_eq!(refused(&cut[..88]), (1, 84));
    let runs = samples::full_runs();
    assert_eq!(counts(&runs), (3, 0, 1, 256));
    assert_eq!(refused(&runs.clone().run(&[0, 1]).bytes()), (6, 1289));
    assert_eq!(refused(&runs.clone().sheet(0).run(&[0, 1]).bytes()), (6, 1294));
    assert_eq!(refused(&runs.clone().run(&[0, 3]).bytes()), (4, 1289));
    assert_eq!(refused(&runs.clone().run(&[0, 0]).bytes()), (6, 1289));
    assert_eq!(refused(&runs.run(&[0]).bytes()), (3, 1289));
}

#[test]
fn the_first_bad_field_decides() {
    let good = Draft::new(3).changeover(0, 1, 0);
    assert_eq!(refused(&good.clone().changeover(0, 1, 0).changeover(9, 9, 9).bytes()), (5, 13));
    assert_eq!(refused(&good.changeover(9, 9, 9).changeover(0, 1, 0).bytes()), (4, 13));
}

#[test]
fn the_longest_book() {
    let random = &mut Random::new(&[1]);
    let without = generate::largest(random);
    let longest = seasons::all_with_windows(random, without.clone());
    for (draft, length) in [(without, 39_188), (longest, 39_252)] {
        let bytes = draft.bytes();
        assert_eq!(bytes.len(), length);
        assert_eq!(counts(&draft), (64, 4_032, 16, 256));
        assert_eq!(refused(&[bytes, vec![4]].concat()), (1, length));
        assert_eq!(refused(&draft.clone().sheet(0).bytes()), (6, length));
        assert_eq!(refused(&draft.clone().season(0, [30, 2, 1, 1]).bytes()), (14, length));
        assert_eq!(refused(&draft.run(&[0, 1]).bytes()), (6, length));
    }
}

/// Book A cut at every byte: whole fields read, everything else is 1 at the
/// field that was cut.
#[test]
fn truncation_at_every_byte() {
    let bytes = samples::book_a().bytes();
    let starts = [0, 4, 13, 22, 31, 40, 49, 58, 63, 70, 75, 81];
    assert_eq!(bytes.len(), 81);
    for length in 0..=bytes.len() {
        let printed = programs::read_book(&bytes[..length]);
        if length > 0 && starts.contains(&length) {
            assert!(printed.starts_with("GRADES 4 "), "{length}: {printed}");
        } else {
            let at = starts.iter().rfind(|&&start| start <= length).unwrap();
            assert_eq!(printed, format!("REFUSED 1 AT {at}\n"));
        }
    }
}
