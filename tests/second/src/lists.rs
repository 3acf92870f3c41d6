//! The program `plan_list`: planning from lists of changeovers. It reads a
//! stream of frames, as `frames` has them, but with no byte for a kind.
//!
//! A frame has the count of grades (2 bytes), start, end, the count of known
//! runs (2), the length of the line-up area (2), the length of the runs area
//! (2), the runs area, and then the list, six bytes an item: from, to, and
//! litres in four. Numbers have their high byte first. The bytes after the
//! last whole item are no item.

use crate::changeovers::Changeover;
use crate::frames;
use crate::plan::{self, Known, Plan};
use crate::refusal::Refusal;
use crate::text;

/// What a call of planning from a list takes.
#[derive(Clone, Debug, PartialEq, Eq)]
pub struct List {
    pub grades: u16,
    pub start: u8,
    pub end: u8,
    pub known: u16,
    pub lineup_area: u16,
    pub runs_area: Vec<u8>,
    pub items: Vec<Changeover>,
}

/// The bytes of a frame before its runs area, and of an item.
pub const HEAD: usize = 10;
pub const ITEM: usize = 6;

impl List {
    /// The frame's bytes, without its length.
    pub fn bytes(&self) -> Vec<u8> {
        let mut bytes = self.grades.to_be_bytes().to_vec();
        bytes.extend([self.start, self.end]);
        bytes.extend(self.known.to_be_bytes());
        bytes.extend(self.lineup_area.to_be_bytes());
        bytes.extend((self.runs_area.len() as u16).to_be_bytes());
        bytes.extend(&self.runs_area);
        for item in &self.items {
            bytes.extend([item.from, item.to]);
            bytes.extend(item.litres.to_be_bytes());
        }
        bytes
    }

    /// Nothing if the bytes are fewer than their lengths say.
    pub fn read(bytes: &[u8]) -> Option<List> {
        let head = bytes.get(..HEAD)?;
        let word = |at: usize| u16::from_be_bytes([head[at], head[at + 1]]);
        let items = HEAD + usize::from(word(8));
        let runs_area = bytes.get(HEAD..items)?.to_vec();
        Some(List {
            grades: word(0),
            start: head[2],
            end: head[3],
            known: word(4),
            lineup_area: word(6),
            runs_area,
            items: bytes[items..].chunks_exact(ITEM).map(item).collect(),
        })
    }

    fn plan(&self) -> Result<Option<Plan>, Refusal> {
        let mut area = vec![0; usize::from(self.lineup_area)];
        let known = Known { area: &self.runs_area, count: usize::from(self.known) };
        let grades = usize::from(self.grades);
        let answer = plan::plan_list(grades, &self.items, known, self.start, self.end, &mut area)?;
        Ok(answer.map(|answer| {
            area.truncate(answer.changes + 1);
            Plan { litres: answer.litres, lineup: area }
        }))
    }
}

fn item(bytes: &[u8]) -> Changeover {
    let litres = u32::from_be_bytes([bytes[2], bytes[3], bytes[4], bytes[5]]);
    Changeover { from: bytes[0], to: bytes[1], litres }
}

/// What the program prints for one frame.
pub fn run_frame(frame: &[u8]) -> String {
    let planned = match List::read(frame) {
        Some(list) => list.plan(),
        None => Err(Refusal::at(1, 0)),
    };
    match planned {
        Ok(plan) => text::plan(plan.as_ref()),
        Err(refused) => text::refusal(refused),
    }
}

/// What the program prints for a stream.
pub fn run(stream: &[u8]) -> String {
    frames::split(stream).into_iter().map(run_frame).collect()
}

pub fn join(cases: &[Vec<u8>]) -> Vec<u8> {
    cases.iter().flat_map(|case| frames::framed(case)).collect()
}
