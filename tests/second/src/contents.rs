//! The program `write_book`: a content and the length of the area that is lent for its book.
//!
//! An input has the count (1 byte); the number of changeovers (2) and each of them: from,
//! to, litres (4); the number of sheets (1) and each of them: marks (2), a byte that is 0 if
//! it has no window, otherwise the window (4), the number of its runs (2), and each run: its
//! length (1) and its grades; then the length of the area (4). Numbers have their high byte
//! first. Further bytes are ignored, and so is what comes after the first 1,048,576.

use crate::programs::Input;
use crate::refusal::Refusal;
use crate::text;
use crate::writing::{self, Content, GivenChangeover, GivenSheet};

/// The bytes of the longest area that the program lends.
pub const MOST_AREA: usize = 65_536;

/// The most bytes of its input that the program looks at.
pub const LONGEST_INPUT: usize = 1 << 20;

#[derive(Clone, Debug, PartialEq, Eq)]
pub struct WriteCase {
    pub content: Content,
    /// Over `MOST_AREA` counts as that.
    pub area: u32,
}

impl WriteCase {
    pub fn read(input: &[u8]) -> Result<WriteCase, Refusal> {
        let mut input = Input(&input[..input.len().min(LONGEST_INPUT)]);
        let grades = input.byte()?.into();
        let changeovers =
            (0..input.word()?).map(|_| changeover(&mut input)).collect::<Result<_, _>>()?;
        let sheets = (0..input.byte()?).map(|_| sheet(&mut input)).collect::<Result<_, _>>()?;
        let area = input.double_word()?;
        Ok(WriteCase { content: Content { grades, changeovers, sheets }, area })
    }

    /// The case as an input; its numbers are no greater than that can hold.
    pub fn bytes(&self) -> Vec<u8> {
        self.bytes_with(1)
    }

    /// With this byte, which is not 0, before each window.
    pub fn bytes_with(&self, has_window: u8) -> Vec<u8> {
        let Content { grades, changeovers, sheets } = &self.content;
        let mut bytes = vec![byte(*grades)];
        bytes.extend(word(changeovers.len()));
        for GivenChangeover { from, to, litres } in changeovers {
            bytes.extend([byte(*from), byte(*to)]);
            bytes.extend(litres.to_be_bytes());
        }
        bytes.push(byte(sheets.len()));
        for GivenSheet { marks, window, runs } in sheets {
            bytes.extend(marks.to_be_bytes());
            bytes.extend(window.map_or(vec![0], |window| [&[has_window], &window[..]].concat()));
            bytes.extend(word(runs.len()));
            for run in runs {
                bytes.push(byte(run.len()));
                bytes.extend(run);
            }
        }
        bytes.extend(self.area.to_be_bytes());
        bytes
    }

    /// The book, from an area of that length.
    pub fn write(&self) -> Result<Vec<u8>, Refusal> {
        let mut area = vec![0; MOST_AREA.min(self.area as usize)];
        let length = writing::write(&self.content, &mut area)?;
        area.truncate(length);
        Ok(area)
    }
}

fn changeover(input: &mut Input) -> Result<GivenChangeover, Refusal> {
    let (from, to) = (input.byte()?.into(), input.byte()?.into());
    Ok(GivenChangeover { from, to, litres: input.double_word()? })
}

fn sheet(input: &mut Input) -> Result<GivenSheet, Refusal> {
    let marks = input.word()?;
    let window = match input.byte()? {
        0 => None,
        _ => Some(input.double_word()?.to_be_bytes()),
    };
    let runs = (0..input.word()?).map(|_| grades(input)).collect::<Result<_, _>>()?;
    Ok(GivenSheet { marks, window, runs })
}

fn grades(input: &mut Input) -> Result<Vec<u8>, Refusal> {
    let length = input.byte()?;
    Ok(input.take(length.into())?.to_vec())
}

fn byte(number: impl TryInto<u8>) -> u8 {
    number.try_into().ok().expect("a byte holds it")
}

fn word(number: usize) -> [u8; 2] {
    u16::try_from(number).expect("two bytes hold it").to_be_bytes()
}

/// What the program prints for an input.
pub fn run(input: &[u8]) -> String {
    match WriteCase::read(input).and_then(|case| case.write()) {
        Ok(book) => text::written(&book),
        Err(refused) => text::refusal(refused),
    }
}
