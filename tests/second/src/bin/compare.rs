//! `compare KIND N SEED -- COMMAND WORDS...` runs a program on N random inputs
//! of a seed and reports each difference from this package's answers. A run
//! that takes too long is ended, and ends the comparison. An answer with more
//! passes than 02 allows counts as a difference, whatever was expected.
//! With `--trickle BYTES` the input comes a few bytes at a time.
//! `compare --show KIND SEED INDEX` prints one of these inputs.

use second::programs::MOST_INPUT;
use second::sources::Source;
use second::text;
use second::vectors;
use std::io::{self, Read, Write};
use std::process::{Child, Command, ExitCode, ExitStatus, Stdio};
use std::thread::{self, JoinHandle};
use std::time::{Duration, Instant};

const USAGE: &str =
    "usage: compare [--limit SECONDS] [--trickle BYTES] KIND N SEED -- COMMAND WORDS...
       compare --show KIND SEED INDEX
KIND is plan, board, replay, check_lineup, read_book, any_bind, any_check, any_plan, any_begin,
any_passed_report, any_failed_report, any_table, passes, rewrite, write_book, largest_plan,
largest_board, long_plan, long_board, long_rewrite or long_write_book: one process for each
input;
or one of these with an s behind it, except the long ones and passes, or books_passes: framed
streams of inputs;
or plan_lists: framed streams of lists.";

/// How many cases a framed stream holds at most.
const BATCH: u64 = 250;

/// The seconds that a run may take, if no limit is given.
const LIMIT: u64 = 120;

/// The time between two pieces of an input that trickles.
const PAUSE: Duration = Duration::from_micros(400);

/// How much of an output a report shows.
const SHOWN: usize = 300;

fn main() -> ExitCode {
    let words: Vec<String> = std::env::args().skip(1).collect();
    let words: Vec<&str> = words.iter().map(String::as_str).collect();
    if let Some(code) = show(&words) {
        return code;
    }
    match Task::from_words(&words) {
        Some(task) => compare(&task),
        None => {
            eprintln!("{USAGE}");
            ExitCode::FAILURE
        }
    }
}

fn compare(task: &Task) -> ExitCode {
    let different =
        if task.framed { task.compare_streams() } else { task.compare_cases(0, task.count) };
    println!("{}: {} inputs of seed {}, {different} different", task.name, task.count, task.seed);
    if different == 0 {
        ExitCode::SUCCESS
    } else {
        ExitCode::FAILURE
    }
}

/// Prints the input that a report names, as the program got it.
fn show(words: &[&str]) -> Option<ExitCode> {
    match *words {
        ["--show", kind, seed, index] => {
            let (source, framed) = Source::named(kind)?;
            let case = source.case(seed.parse().ok()?, index.parse().ok()?);
            let input = if framed { source.join(&[case]) } else { case };
            let written = io::stdout().write_all(&input).is_ok();
            Some(if written { ExitCode::SUCCESS } else { ExitCode::FAILURE })
        }
        _ => None,
    }
}

struct Task<'a> {
    name: &'a str,
    source: Source,
    framed: bool,
    count: u64,
    seed: u64,
    limit: Duration,
    /// So many bytes of the input at a time; none if all at once.
    trickle: Option<usize>,
    command: &'a [&'a str],
}

/// What is wrong with an answer.
struct Difference {
    text: String,
    hangs: bool,
}

impl<'a> Task<'a> {
    fn from_words(words: &'a [&'a str]) -> Option<Task<'a>> {
        let (limit, words) = match words {
            ["--limit", seconds, rest @ ..] => (seconds.parse().ok()?, rest),
            _ => (LIMIT, words),
        };
        let (trickle, words) = match words {
            ["--trickle", bytes, rest @ ..] => {
                (Some(bytes.parse().ok().filter(|&bytes| bytes > 0)?), rest)
            }
            _ => (None, words),
        };
        match words {
            [name, count, seed, "--", command @ ..] if !command.is_empty() => {
                let (source, framed) = Source::named(name)?;
                let (count, seed) = (count.parse().ok()?, seed.parse().ok()?);
                let limit = Duration::from_secs(limit);
                Some(Task { name, source, framed, count, seed, limit, trickle, command })
            }
            _ => None,
        }
    }

    /// Compares one process a case, up to the first that hangs, and gives the
    /// number of differences.
    fn compare_cases(&self, from: u64, to: u64) -> u64 {
        let mut different = 0;
        for index in from..to {
            if let Some(Difference { text, hangs }) = self.case_difference(index) {
                println!("DIFFERENT {} seed {} index {index}: {text}", self.name, self.seed);
                different += 1;
                if hangs {
                    break;
                }
            }
        }
        different
    }

    fn case_difference(&self, index: u64) -> Option<Difference> {
        let case = self.source.case(self.seed, index);
        if !self.framed {
            return self.difference(&case, &self.source.answer(&case));
        }
        if case.len() > MOST_INPUT {
            return None;
        }
        let stream = self.source.join(&[case]);
        self.difference(&stream, &self.source.answers(&stream))
    }

    /// Compares whole streams; one that differs is gone through case by case.
    fn compare_streams(&self) -> u64 {
        let mut different = 0;
        for from in (0..self.count).step_by(BATCH as usize) {
            let to = self.count.min(from + BATCH);
            if let Some(Difference { text, hangs }) = self.stream_difference(from, to) {
                let single = if hangs { 0 } else { self.compare_cases(from, to) };
                if single == 0 {
                    let last = to - 1;
                    println!(
                        "DIFFERENT {} seed {} indexes {from} to {last} in one stream: {text}",
                        self.name, self.seed
                    );
                }
                different += single.max(1);
                if hangs {
                    break;
                }
            }
        }
        different
    }

    fn stream_difference(&self, from: u64, to: u64) -> Option<Difference> {
        let cases: Vec<Vec<u8>> =
            (from..to).map(|index| self.source.case(self.seed, index)).collect();
        let stream = self.source.join(&vectors::fit_for_stream(cases));
        self.difference(&stream, &self.source.answers(&stream))
    }

    /// What is wrong with the command's answer to an input, if anything.
    fn difference(&self, input: &[u8], expected: &[u8]) -> Option<Difference> {
        let text = match self.run(input) {
            Ok(Run::Ended(status, _)) if !status.success() => format!("ended with {status}"),
            Ok(Run::Ended(_, output)) => fault(expected, &output)?,
            Ok(Run::Hangs) => {
                let seconds = self.limit.as_secs();
                let text = format!("hangs: still running after {seconds} s, and ended");
                return Some(Difference { text, hangs: true });
            }
            Err(error) => format!("cannot run {}: {error}", self.command[0]),
        };
        Some(Difference { text, hangs: false })
    }

    fn run(&self, input: &[u8]) -> io::Result<Run> {
        let mut child = Command::new(self.command[0])
            .args(&self.command[1..])
            .stdin(Stdio::piped())
            .stdout(Stdio::piped())
            .stderr(Stdio::null())
            .spawn()?;
        feed(&mut child, input.to_vec(), self.trickle);
        let output = drain(&mut child);
        match wait(&mut child, self.limit)? {
            None => Ok(Run::Hangs),
            Some(status) => {
                let output = output.and_then(|reader| reader.join().ok()).unwrap_or_default();
                Ok(Run::Ended(status, output))
            }
        }
    }
}

/// What is wrong with an output, if anything.
fn fault(expected: &[u8], got: &[u8]) -> Option<String> {
    match text::over(&String::from_utf8_lossy(got)) {
        Some(line) => Some(format!("too many passes: {}", shown(line.as_bytes()))),
        None if got == expected => None,
        None => Some(first_difference(expected, got)),
    }
}

/// Both outputs from their first differing line on; of a long line from a little before the
/// byte that differs.
fn first_difference(expected: &[u8], got: &[u8]) -> String {
    let same = expected.iter().zip(got).take_while(|(one, other)| one == other).count();
    let is_end = |&byte: &u8| byte == b'\n';
    let line = expected[..same].iter().filter(|byte| is_end(byte)).count() + 1;
    let start = expected[..same].iter().rposition(is_end).map_or(0, |end| end + 1);
    let from = start.max(same.saturating_sub(SHOWN / 2));
    let place = if from > start { format!(" from byte {}", from - start) } else { String::new() };
    format!(
        "line {line}{place}: expected {}, got {}",
        shown(&expected[from..]),
        shown(&got[from..])
    )
}

/// An output in quotes, cut where it is long. Bytes that are no text are in hexadecimal.
fn shown(output: &[u8]) -> String {
    let part = &output[..output.len().min(SHOWN)];
    let dots = if part.len() < output.len() { "..." } else { "" };
    format!("\"{}\"{dots}", part.escape_ascii())
}

enum Run {
    Ended(ExitStatus, Vec<u8>),
    Hangs,
}

/// Writes the input beside the reading of the output, so that neither waits
/// for the other. A child that closes its input early is not at fault.
fn feed(child: &mut Child, input: Vec<u8>, trickle: Option<usize>) {
    if let Some(mut stdin) = child.stdin.take() {
        thread::spawn(move || match trickle {
            None => {
                let _ = stdin.write_all(&input);
            }
            Some(bytes) => {
                for piece in input.chunks(bytes) {
                    if stdin.write_all(piece).is_err() {
                        break;
                    }
                    thread::sleep(PAUSE);
                }
            }
        });
    }
}

fn drain(child: &mut Child) -> Option<JoinHandle<Vec<u8>>> {
    let mut stdout = child.stdout.take()?;
    Some(thread::spawn(move || {
        let mut output = Vec::new();
        let _ = stdout.read_to_end(&mut output);
        output
    }))
}

/// The child's status; none if it had to be ended.
fn wait(child: &mut Child, limit: Duration) -> io::Result<Option<ExitStatus>> {
    let start = Instant::now();
    loop {
        if let Some(status) = child.try_wait()? {
            return Ok(Some(status));
        }
        if start.elapsed() >= limit {
            child.kill()?;
            child.wait()?;
            return Ok(None);
        }
        thread::sleep(Duration::from_millis(1));
    }
}
