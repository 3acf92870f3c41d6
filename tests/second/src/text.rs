//! What the programs print. A line feed stands after each line.

use crate::book::Book;
use crate::check::Found;
use crate::dates::Window;
use crate::passes::Counts;
use crate::plan::{Answer, Plan};
use crate::refusal::Refusal;
use crate::trials::{Record, NONE};

pub fn refusal(refusal: Refusal) -> String {
    match refusal.at {
        Some(place) => format!("REFUSED {} AT {}\n", refusal.number, place),
        None => format!("REFUSED {}\n", refusal.number),
    }
}

pub fn plan(plan: Option<&Plan>) -> String {
    match plan {
        None => "NONE\n".to_string(),
        Some(plan) => {
            let grades = grades_line(&plan.lineup);
            format!("LITRES {} CHANGES {}\n{}", plan.litres, plan.changes(), grades)
        }
    }
}

/// A line for each grade in rising order.
pub fn board(ends: &[Option<Answer>]) -> String {
    let line = |(grade, end): (usize, &Option<Answer>)| match end {
        None => format!("{grade} NONE\n"),
        Some(Answer { litres, changes }) => format!("{grade} LITRES {litres} CHANGES {changes}\n"),
    };
    ends.iter().enumerate().map(line).collect()
}

/// What stands at the end of a line with more passes than 02 allows.
const OVER: &str = " OVER";

/// A line for each end in rising order.
pub fn passes(counts: &Counts) -> String {
    let line = |(end, &passes): (usize, &usize)| {
        let over = if counts.is_over(passes) { OVER } else { "" };
        format!("END {end} PASSES {passes} MOST {}{over}\n", counts.most)
    };
    counts.passes.iter().enumerate().map(line).collect()
}

/// The first line that says so, if any.
pub fn over(printed: &str) -> Option<&str> {
    printed.lines().find(|line| line.ends_with(OVER))
}

pub fn check(found: Option<Found>) -> String {
    match found {
        None => "CLEAR\n".to_string(),
        Some(Found { place, length }) => format!("RUN AT {place} LENGTH {length}\n"),
    }
}

/// The record; unless none is the answer, also its line-up.
pub fn record(record: &Record, lineup_area: &[u8]) -> String {
    let mut text = fields(record);
    if record.stage != NONE {
        text += &grades_line(&lineup_area[..record.length as usize]);
    }
    text
}

/// The numbers of a record, whatever they are.
pub fn fields(record: &Record) -> String {
    let Record { stage, start, end, known, known_at_start, failed, passed, litres, length } =
        record;
    format!(
        "STAGE {stage} START {start} END {end} KNOWN {known} AT-START {known_at_start} \
         FAILED {failed} PASSED {passed} LITRES {litres} LENGTH {length}\n"
    )
}

/// A book that reads: its counts, its changeovers, its sheets with their runs.
pub fn book(book: &Book) -> String {
    let mut text = format!(
        "GRADES {} CHANGEOVERS {} SHEETS {} RUNS {}\n",
        book.grades(),
        book.changeovers.count(),
        book.sheets.len(),
        book.runs()
    );
    for item in book.changeovers.list() {
        text += &format!("ARC {} {} {}\n", item.from, item.to, item.litres);
    }
    for sheet in &book.sheets {
        text += &format!("SHEET {}", sheet.marks);
        if let Some(Window { first, last }) = sheet.window {
            let edges = [first.day, first.month, last.day, last.month].map(|word| word.to_string());
            text += &format!(" WINDOW {}", edges.join(" "));
        }
        text += "\n";
        for run in &sheet.runs {
            text += &format!("RUN {}", grades_line(run));
        }
    }
    text
}

/// A book that is written: its length, and its bytes in hexadecimal.
pub fn written(book: &[u8]) -> String {
    let digits: String = book.iter().map(|byte| format!("{byte:02X}")).collect();
    format!("LENGTH {}\n{digits}\n", book.len())
}

fn grades_line(grades: &[u8]) -> String {
    let words: Vec<String> = grades.iter().map(u8::to_string).collect();
    words.join(" ") + "\n"
}
