//! Single calls with any record and areas: 01's refusals one by one, the bytes
//! that change, and the input.

use second::any_inputs::begun_on_book_a;
use second::binding::RUNS_AREA;
use second::calls::{Call, Case};
use second::dates::Date;
use second::faults::faults;
use second::inputs;
use second::kinds::{Kind, KINDS};
use second::plan::LINEUP_AREA;
use second::random::Random;
use second::refusal::Refusal;
use second::samples;
use second::trials::Record;

const CALLS: [Call; 6] =
    [Call::Bind, Call::Check, Call::Plan, Call::Begin, Call::Passed, Call::Failed];

/// Each fault by itself gives a failed report the refusal that 01 has for it,
/// with areas of just their size and with larger ones.
#[test]
fn each_fault_has_its_refusal() {
    let random = &mut Random::new(&[1]);
    for larger in [0, 40] {
        let mut good = begun_on_book_a();
        good.runs.resize(RUNS_AREA + larger, 9);
        good.lineup.resize(LINEUP_AREA + larger, 9);
        assert!(good.make(Call::Failed).starts_with("STAGE 0 START 0 END 3 KNOWN 3 "));
        for fault in faults() {
            for _ in 0..20 {
                let mut case = good.clone();
                (fault.spoil)(random, &mut case);
                let printed = case.make(Call::Failed);
                let expected = match fault.refusal {
                    None => String::from("STAGE 0 "),
                    Some(number) => format!("REFUSED {number}\nSTAGE {} ", case.record.stage),
                };
                assert!(printed.starts_with(&expected), "{}: {printed}", fault.name);
            }
        }
    }
}

/// 8 comes before 7, 7 before 15 and 9, 9 before 10 and 11, and 11 before 16, 17 and 12.
#[test]
fn refusals_come_in_their_order() {
    let good = begun_on_book_a();
    let first = |case: &Case, call| {
        let printed = case.make(call);
        printed.lines().next().unwrap_or("").to_string()
    };
    let named = |list: &[u8]| first(&Case { list: list.to_vec(), ..good.clone() }, Call::Failed);
    assert_eq!(named(&[1, 1]), "REFUSED 12");
    assert_eq!(named(&[1, 9]), "REFUSED 17");
    let mut case = Case { list: vec![9], ..good.clone() };
    assert_eq!(first(&case, Call::Check), "REFUSED 10");
    assert_eq!(first(&case, Call::Failed), "REFUSED 16");
    case.record.stage = 1;
    case.record.passed = 1;
    assert_eq!(first(&case, Call::Failed), "REFUSED 11");
    case.record.known += 1;
    for call in [Call::Check, Call::Plan, Call::Passed, Call::Failed] {
        assert_eq!(first(&case, call), "REFUSED 9");
    }
    // Binding and begin do without known runs: their 15 stands where 9 does.
    case.batch.date = Date::new(31, 6, 2026);
    for call in [Call::Bind, Call::Begin] {
        assert_eq!(first(&case, call), "REFUSED 15");
    }
    for call in [Call::Check, Call::Plan, Call::Passed, Call::Failed] {
        assert_eq!(first(&case, call), "REFUSED 9");
    }
    case.record.end = 4;
    for call in [Call::Plan, Call::Begin] {
        assert_eq!(first(&case, call), "REFUSED 7");
    }
    assert_eq!(first(&case, Call::Bind), "REFUSED 15");
    assert_eq!(first(&case, Call::Passed), "REFUSED 9");
    case.runs.pop();
    for call in CALLS {
        assert_eq!(first(&case, call), "REFUSED 8");
    }
    case.book.pop();
    for call in CALLS {
        assert_eq!(first(&case, call), "REFUSED 1 AT 75");
    }
    case.book = samples::book_a_in([31, 6, 1, 7]).bytes();
    for call in CALLS {
        assert_eq!(first(&case, call), "REFUSED 14 AT 70");
    }
}

/// A line-up that is not the least is accepted, and so is stage 2 where a plan
/// exists.
#[test]
fn records_need_not_hold_a_least_line_up() {
    let good = begun_on_book_a();
    let mut case = good.clone();
    case.lineup[..3].copy_from_slice(&[0, 1, 3]);
    case.record = Record { litres: 500, length: 3, ..good.record };
    assert_eq!(
        case.make(Call::Passed),
        "STAGE 1 START 0 END 3 KNOWN 2 AT-START 2 FAILED 0 PASSED 1 LITRES 500 LENGTH 3\n0 1 3\n"
    );
    case.record = Record { stage: 2, litres: 0, length: 0, ..good.record };
    assert!(case.make(Call::Passed).starts_with("REFUSED 11\nSTAGE 2 "));
}

/// The answers, and each byte that changed.
#[test]
fn calls_print_what_changed() {
    let mut case = begun_on_book_a();
    assert_eq!(case.make(Call::Bind), "KNOWN 2\n");
    assert_eq!(case.make(Call::Check), "CLEAR\n");
    assert_eq!(case.make(Call::Plan), "LITRES 450 CHANGES 5\n0 1 2 1 2 3\n");
    assert_eq!(
        case.make(Call::Failed),
        "STAGE 0 START 0 END 3 KNOWN 3 AT-START 2 FAILED 1 PASSED 0 LITRES 500 LENGTH 3\n0 1 3\n\
         RUNS 18 0 3\nRUNS 19 0 1\nRUNS 20 0 2\nRUNS 21 0 3\nLINEUP 2 2 3\n"
    );
    case.runs[7] = 5;
    case.runs.push(5);
    case.lineup.fill(9);
    assert_eq!(case.make(Call::Bind), "KNOWN 2\nRUNS 7 5 0\n");
    assert_eq!(case.make(Call::Plan), "REFUSED 9\n");
    assert_eq!(
        case.make(Call::Begin),
        "STAGE 0 START 0 END 3 KNOWN 2 AT-START 2 FAILED 0 PASSED 0 LITRES 450 LENGTH 6\n\
         0 1 2 1 2 3\nRUNS 7 5 0\nLINEUP 0 9 0\nLINEUP 1 9 1\nLINEUP 2 9 2\nLINEUP 3 9 1\n\
         LINEUP 4 9 2\nLINEUP 5 9 3\n"
    );
}

/// On random cases: a refusal changes no byte and hands the record back, and no
/// call writes where it may not.
#[test]
fn refusals_change_nothing() {
    for kind in KINDS {
        if let Kind::Any(call) = kind {
            for index in 0..1_500 {
                let bytes = inputs::case(kind, 11, index);
                let printed = kind.run(&bytes);
                let changes = |name: &str| printed.lines().any(|line| line.starts_with(name));
                let (runs, lineup) = (changes("RUNS "), changes("LINEUP "));
                let refused = printed.starts_with("REFUSED ");
                let writes_runs = matches!(call, Call::Bind | Call::Begin | Call::Failed);
                let writes_lineup = matches!(call, Call::Plan | Call::Begin | Call::Failed);
                assert!(!runs || (writes_runs && !refused), "{printed}");
                assert!(!lineup || (writes_lineup && !refused), "{printed}");
            }
        }
    }
}

#[test]
fn cases_are_read_as_they_were_written() {
    for kind in KINDS {
        if let Kind::Any(_) = kind {
            for index in 0..200 {
                let bytes = inputs::case(kind, 12, index);
                match Case::read(&bytes) {
                    Ok(case) => assert_eq!(case.bytes(), bytes),
                    Err(refused) => assert_eq!((refused.number, refused.at), (1, Some(0))),
                }
            }
        }
    }
    let good = begun_on_book_a();
    let whole = good.bytes();
    assert_eq!(Case::read(&whole), Ok(good.clone()));
    let book_from = whole.len() - good.book.len();
    for length in 0..book_from {
        assert!(Case::read(&whole[..length]).is_err());
    }
    assert!(Case::read(&whole[..book_from]).is_ok());
    for (runs, taken) in [(4_096, true), (4_097, false)] {
        let case = Case { runs: vec![1; runs], ..good.clone() };
        let expected = if taken { Ok(case.clone()) } else { Err(Refusal::at(1, 0)) };
        assert_eq!(Case::read(&case.bytes()), expected);
    }
}
