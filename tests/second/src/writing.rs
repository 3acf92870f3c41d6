//! Writing books: 02, order 6. A content is checked item by item, and its book then laid
//! out in a lent area.

use crate::book::{self, Book, Run, Sheet};
use crate::changeovers::Changeover;
use crate::dates::Window;
use crate::draft::Draft;
use crate::refusal::Refusal;

/// What a book is written from, good or not.
#[derive(Clone, Debug, PartialEq, Eq)]
pub struct Content {
    /// The count of grades.
    pub grades: u16,
    pub changeovers: Vec<GivenChangeover>,
    pub sheets: Vec<GivenSheet>,
}

#[derive(Clone, Copy, Debug, PartialEq, Eq)]
pub struct GivenChangeover {
    pub from: u16,
    pub to: u16,
    pub litres: u32,
}

#[derive(Clone, Debug, PartialEq, Eq)]
pub struct GivenSheet {
    pub marks: u16,
    /// First day, first month, last day, last month.
    pub window: Option<[u8; 4]>,
    pub runs: Vec<Run>,
}

/// What comes after the count.
#[derive(Clone, Copy, Debug)]
pub enum Item<'a> {
    Changeover(GivenChangeover),
    Sheet(&'a GivenSheet),
    Run(&'a [u8]),
}

impl Content {
    /// The content of a book that was read.
    pub fn of_book(book: &Book) -> Content {
        let changeover = |Changeover { from, to, litres }| GivenChangeover {
            from: u16::from(from),
            to: u16::from(to),
            litres,
        };
        let sheet = |Sheet { marks, window, runs }: &Sheet| GivenSheet {
            marks: *marks,
            window: window.map(Window::bytes),
            runs: runs.clone(),
        };
        Content {
            grades: book.grades() as u16,
            changeovers: book.changeovers.list().into_iter().map(changeover).collect(),
            sheets: book.sheets.iter().map(sheet).collect(),
        }
    }

    /// The items in the order in which they are checked. The first has index 1.
    pub fn items(&self) -> Vec<Item<'_>> {
        let mut items: Vec<Item> = self.changeovers.iter().copied().map(Item::Changeover).collect();
        for sheet in &self.sheets {
            items.push(Item::Sheet(sheet));
            items.extend(sheet.runs.iter().map(|run| Item::Run(run)));
        }
        items
    }
}

/// The book that reading what is written gives, or the refusal of the first bad item.
pub fn check(content: &Content) -> Result<Book, Refusal> {
    let count = Book::new(content.grades.into());
    let mut book = count.map_err(|number| Refusal::at(number, 0))?;
    for (item, index) in content.items().into_iter().zip(1..) {
        add_item(&mut book, item).map_err(|number| Refusal::at(number, index))?;
    }
    Ok(book)
}

fn add_item(book: &mut Book, item: Item) -> Result<(), u8> {
    match item {
        Item::Changeover(given) => book.changeovers.add(changeover(given)?),
        Item::Sheet(given) => book.add_sheet(sheet(given)?),
        Item::Run(run) if !book::run_has_good_length(run) => Err(3),
        Item::Run(run) => book.add_run(run),
    }
}

/// No book has a grade over 255.
fn changeover(given: GivenChangeover) -> Result<Changeover, u8> {
    let grade = |number| u8::try_from(number).map_err(|_| 4);
    Ok(Changeover { from: grade(given.from)?, to: grade(given.to)?, litres: given.litres })
}

fn sheet(given: &GivenSheet) -> Result<Sheet, u8> {
    let window = given.window.map(|bytes| Window::read(bytes).ok_or(14)).transpose()?;
    Ok(Sheet { marks: given.marks, window, runs: Vec::new() })
}

/// Writes the book of a content to the first bytes of an area, and gives its length.
/// A refusal writes nothing.
pub fn write(content: &Content, area: &mut [u8]) -> Result<usize, Refusal> {
    let bytes = draft(&check(content)?).bytes();
    let lent = area.get_mut(..bytes.len()).ok_or_else(|| Refusal::plain(18))?;
    lent.copy_from_slice(&bytes);
    Ok(bytes.len())
}

/// Changeovers in rising order, sheets without a window in the short form.
fn draft(book: &Book) -> Draft {
    let draft = Draft::new(book.grades() as u8).changeovers(&book.changeovers.list());
    book.sheets.iter().fold(draft, |draft, Sheet { marks, window, runs }| {
        let draft = match window {
            None => draft.sheet(*marks),
            Some(window) => draft.season(*marks, window.bytes()),
        };
        draft.runs(runs)
    })
}
