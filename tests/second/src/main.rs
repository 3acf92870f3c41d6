//! `second KIND` answers one case, `second frames` a framed stream of cases,
//! `second plan_lists` a framed stream of lists of changeovers,
//! `second input NAME SEED` prints an input of the generator, and
//! `second inputs NAME SEED COUNT` a framed stream of such inputs.

use second::frames;
use second::kinds::Kind;
use second::lists;
use second::samples;
use std::io::{self, Read, Write};
use std::process::ExitCode;

const USAGE: &str = "usage: second KIND                     one case
       second frames                   a framed stream of cases
       second plan_lists               a framed stream of lists
       second input NAME SEED          an input for `plan`
       second inputs NAME SEED COUNT   a framed stream of such inputs, of COUNT seeds
KIND is plan, board, replay, check_lineup, read_book, any_bind, any_check, any_plan, any_begin,
any_passed_report, any_failed_report, any_table, passes, rewrite or write_book.
NAME is typical, largest, chain, upward, downward or winding.";

fn main() -> ExitCode {
    let words: Vec<String> = std::env::args().skip(1).collect();
    let words: Vec<&str> = words.iter().map(String::as_str).collect();
    match answer(&words) {
        Some(Ok(output)) => write(&output),
        Some(Err(error)) => fail(&format!("cannot read standard input: {error}")),
        None => fail(USAGE),
    }
}

fn answer(words: &[&str]) -> Option<io::Result<Vec<u8>>> {
    match *words {
        ["frames"] => Some(input().map(|stream| frames::run(&stream).into_bytes())),
        ["plan_lists"] => Some(input().map(|stream| lists::run(&stream).into_bytes())),
        [name] => answer_case(Kind::named(name)?),
        ["input", name, seed] => samples::speed_input(name, seed.parse().ok()?).map(Ok),
        ["inputs", name, seed, count] => {
            speed_stream(name, seed.parse().ok()?, count.parse().ok()?).map(Ok)
        }
        _ => None,
    }
}

fn answer_case(kind: Kind) -> Option<io::Result<Vec<u8>>> {
    Some(input().map(|case| kind.output(&case)))
}

/// The inputs of a seed and of those after it.
fn speed_stream(name: &str, seed: u64, count: u64) -> Option<Vec<u8>> {
    let inputs: Option<Vec<_>> =
        (0..count).map(|index| samples::speed_input(name, seed.wrapping_add(index))).collect();
    Some(frames::join(Kind::Plan, &inputs?))
}

fn input() -> io::Result<Vec<u8>> {
    let mut bytes = Vec::new();
    io::stdin().read_to_end(&mut bytes)?;
    Ok(bytes)
}

fn write(output: &[u8]) -> ExitCode {
    match io::stdout().write_all(output) {
        Ok(()) => ExitCode::SUCCESS,
        Err(error) => fail(&format!("cannot write standard output: {error}")),
    }
}

fn fail(message: &str) -> ExitCode {
    eprintln!("{message}");
    ExitCode::FAILURE
}
