//! A book under way, as a list of fields. Nothing here keeps 01's rules, so a
//! draft can hold every bad value that a test needs.

use crate::book::{TAG_CHANGEOVER, TAG_COUNT, TAG_RUN, TAG_SHEET};
use crate::changeovers::Changeover;
use crate::dates::Window;

#[derive(Clone, Debug, PartialEq, Eq)]
pub struct Field {
    pub tag: u8,
    /// The length that the head states, true or not.
    pub length: u16,
    pub body: Vec<u8>,
}

impl Field {
    pub fn new(tag: u8, body: &[u8]) -> Field {
        Field { tag, length: body.len() as u16, body: body.to_vec() }
    }

    fn window(&self) -> Option<Window> {
        match *self.body {
            [_, _, first_day, first_month, last_day, last_month] if self.tag == TAG_SHEET => {
                Window::read([first_day, first_month, last_day, last_month])
            }
            _ => None,
        }
    }

    fn bytes(&self) -> Vec<u8> {
        let [high, low] = self.length.to_be_bytes();
        let mut bytes = vec![self.tag, high, low];
        bytes.extend(&self.body);
        bytes
    }
}

#[derive(Clone, Debug, Default, PartialEq, Eq)]
pub struct Draft {
    pub fields: Vec<Field>,
}

impl Draft {
    /// A draft whose first field is the count of grades.
    pub fn new(grades: u8) -> Draft {
        Draft::default().count(grades)
    }

    /// The fields of a book, whatever they say; nothing if the last one is cut short.
    pub fn split(mut bytes: &[u8]) -> Option<Draft> {
        let mut draft = Draft::default();
        while let [tag, high, low, rest @ ..] = bytes {
            let length = usize::from(u16::from_be_bytes([*high, *low]));
            draft = draft.field(*tag, rest.get(..length)?);
            bytes = &rest[length..];
        }
        bytes.is_empty().then_some(draft)
    }

    pub fn field(mut self, tag: u8, body: &[u8]) -> Draft {
        self.fields.push(Field::new(tag, body));
        self
    }

    pub fn count(self, grades: u8) -> Draft {
        self.field(TAG_COUNT, &[grades])
    }

    pub fn changeover(self, from: u8, to: u8, litres: u32) -> Draft {
        let [a, b, c, d] = litres.to_be_bytes();
        self.field(TAG_CHANGEOVER, &[from, to, a, b, c, d])
    }

    pub fn changeovers(self, items: &[Changeover]) -> Draft {
        items.iter().fold(self, |draft, item| draft.changeover(item.from, item.to, item.litres))
    }

    pub fn sheet(self, marks: u16) -> Draft {
        self.field(TAG_SHEET, &marks.to_be_bytes())
    }

    /// A sheet in the long form: first day, first month, last day, last month.
    pub fn season(self, marks: u16, window: [u8; 4]) -> Draft {
        self.field(TAG_SHEET, &[&marks.to_be_bytes()[..], &window].concat())
    }

    pub fn run(self, grades: &[u8]) -> Draft {
        self.field(TAG_RUN, grades)
    }

    pub fn runs(self, runs: &[Vec<u8>]) -> Draft {
        runs.iter().fold(self, |draft, run| draft.run(run))
    }

    pub fn bytes(&self) -> Vec<u8> {
        self.fields.iter().flat_map(Field::bytes).collect()
    }

    /// The windows of its sheets, as far as they are good.
    pub fn windows(&self) -> Vec<Window> {
        self.fields.iter().filter_map(Field::window).collect()
    }
}
