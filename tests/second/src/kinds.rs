//! The kinds of cases, by the names that commands use and by the bytes of frames.

use crate::calls::{self, Call};
use crate::contents;
use crate::programs;
use crate::tables;
use crate::text;

#[derive(Clone, Copy, Debug, PartialEq, Eq)]
pub enum Kind {
    ReadBook,
    CheckLineup,
    Replay,
    Plan,
    /// One call with any record, and areas of any length and content.
    Any(Call),
    Board,
    /// One call that fills a table, with areas of any length and content.
    AnyTable,
    Passes,
    /// One book, written anew.
    Rewrite,
    /// One content, and the length of an area.
    WriteBook,
}

pub const KINDS: [Kind; 15] = [
    Kind::ReadBook,
    Kind::CheckLineup,
    Kind::Replay,
    Kind::Plan,
    Kind::Any(Call::Bind),
    Kind::Any(Call::Check),
    Kind::Any(Call::Plan),
    Kind::Any(Call::Begin),
    Kind::Any(Call::Passed),
    Kind::Any(Call::Failed),
    Kind::Board,
    Kind::AnyTable,
    Kind::Passes,
    Kind::Rewrite,
    Kind::WriteBook,
];

impl Kind {
    /// The name of the program that takes one case.
    pub fn name(self) -> &'static str {
        match self {
            Kind::ReadBook => "read_book",
            Kind::CheckLineup => "check_lineup",
            Kind::Replay => "replay",
            Kind::Plan => "plan",
            Kind::Any(Call::Bind) => "any_bind",
            Kind::Any(Call::Check) => "any_check",
            Kind::Any(Call::Plan) => "any_plan",
            Kind::Any(Call::Begin) => "any_begin",
            Kind::Any(Call::Passed) => "any_passed_report",
            Kind::Any(Call::Failed) => "any_failed_report",
            Kind::Board => "board",
            Kind::AnyTable => "any_table",
            Kind::Passes => "passes",
            Kind::Rewrite => "rewrite",
            Kind::WriteBook => "write_book",
        }
    }

    /// The word that tells the kinds' random numbers apart.
    pub fn word(self) -> u64 {
        KINDS.iter().position(|&kind| kind == self).map_or(u64::MAX, |place| place as u64)
    }

    /// The name of a framed stream of such cases.
    pub fn stream_name(self) -> String {
        match self {
            // Already has an s.
            Kind::Passes => String::from("books_passes"),
            _ => format!("{}s", self.name()),
        }
    }

    /// The first byte of a frame with such a case. 12 is none: stored frames have it
    /// as a kind that there is not.
    pub fn byte(self) -> u8 {
        match self {
            Kind::ReadBook => 0,
            Kind::CheckLineup => 1,
            Kind::Plan => 2,
            Kind::Replay => 3,
            Kind::Any(call) => 4 + call as u8,
            Kind::Board => 10,
            Kind::AnyTable => 11,
            Kind::Passes => 13,
            Kind::Rewrite => 14,
            Kind::WriteBook => 15,
        }
    }

    pub fn of_byte(byte: u8) -> Option<Kind> {
        KINDS.into_iter().find(|kind| kind.byte() == byte)
    }

    pub fn named(name: &str) -> Option<Kind> {
        KINDS.into_iter().find(|kind| kind.name() == name)
    }

    pub fn stream_named(name: &str) -> Option<Kind> {
        KINDS.into_iter().find(|kind| kind.stream_name() == name)
    }

    /// What the kind's own program prints for one case: `rewrite` the bytes of a book as
    /// they are, which a stream has in hexadecimal.
    pub fn output(self, case: &[u8]) -> Vec<u8> {
        match self {
            Kind::Rewrite => {
                programs::rewrite(case).unwrap_or_else(|refused| text::refusal(refused).into())
            }
            _ => self.run(case).into(),
        }
    }

    /// What a framed stream prints for one case.
    pub fn run(self, case: &[u8]) -> String {
        match self {
            Kind::ReadBook => programs::read_book(case),
            Kind::CheckLineup => programs::check_lineup(case),
            Kind::Replay => programs::replay(case),
            Kind::Plan => programs::plan(case),
            Kind::Any(call) => calls::run(call, case),
            Kind::Board => programs::board(case),
            Kind::AnyTable => tables::run(case),
            Kind::Passes => programs::passes(case),
            Kind::Rewrite => {
                programs::rewrite(case).map_or_else(text::refusal, |book| text::written(&book))
            }
            Kind::WriteBook => contents::run(case),
        }
    }
}
