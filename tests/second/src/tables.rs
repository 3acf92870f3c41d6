//! Single calls that fill a table, with a runs area and a table of any length and
//! content: their input, and what the kind `any_table` prints.

use crate::board;
use crate::calls::{changes, given, lengths, AreaHead};
use crate::plan::Known;
use crate::programs::{Input, CUT_SHORT};
use crate::refusal::Refusal;
use crate::text;

/// As many numbers as the table of a case may have.
pub const MOST_TABLE: usize = 256;

#[derive(Clone, Debug, PartialEq, Eq)]
pub struct TableCase {
    pub start: u8,
    pub known: u64,
    pub runs: Vec<u8>,
    pub table: Vec<u32>,
    pub book: Vec<u8>,
}

impl TableCase {
    pub fn bytes(&self) -> Vec<u8> {
        let (runs, table) = (given(&self.runs), given(&self.table));
        let mut bytes = vec![self.start];
        bytes.extend(self.known.to_be_bytes());
        bytes.extend(lengths(&self.runs, runs));
        bytes.push(self.runs.last().copied().unwrap_or(0));
        bytes.extend(lengths(&self.table, table));
        bytes.extend(self.table.last().copied().unwrap_or(0).to_be_bytes());
        bytes.extend(runs);
        bytes.extend(table.iter().flat_map(|number| number.to_be_bytes()));
        bytes.extend(&self.book);
        bytes
    }

    pub fn read(input: &[u8]) -> Result<TableCase, Refusal> {
        let mut input = Input(input);
        let start = input.byte()?;
        let known = input.number()?;
        let runs = AreaHead::read(&mut input)?;
        let (given, more) = (usize::from(input.word()?), usize::from(input.word()?));
        let value = input.double_word()?;
        if given + more > MOST_TABLE {
            return Err(CUT_SHORT);
        }
        let runs = runs.area(&mut input)?;
        let mut table = Vec::with_capacity(given + more);
        for _ in 0..given {
            table.push(input.double_word()?);
        }
        table.resize(given + more, value);
        Ok(TableCase { start, known, runs, table, book: input.0.to_vec() })
    }

    /// Makes the call: what it prints, and then each number that it changed.
    pub fn make(&self) -> String {
        let mut table = self.table.clone();
        let count = usize::try_from(self.known).unwrap_or(usize::MAX);
        let known = Known { area: &self.runs, count };
        let answer = match board::fill(&self.book, known, self.start, &mut table) {
            Ok(grades) => format!("FILLED {grades}\n"),
            Err(refused) => text::refusal(refused),
        };
        answer + &changes("TABLE", &self.table, &table)
    }
}

/// What the kind prints for an input.
pub fn run(input: &[u8]) -> String {
    TableCase::read(input).map_or_else(text::refusal, |case| case.make())
}
