//! A refusal: its number in 01 or 02, and for 1 to 6 and 14 where it lies.

#[derive(Clone, Copy, Debug, PartialEq, Eq)]
pub struct Refusal {
    pub number: u8,
    /// The byte at which the bad field starts; in the list form of planning and in
    /// writing the index of the bad item. Refusals 7 to 13 and 15 to 18 have none.
    pub at: Option<usize>,
}

impl Refusal {
    pub fn at(number: u8, place: usize) -> Refusal {
        Refusal { number, at: Some(place) }
    }

    pub fn plain(number: u8) -> Refusal {
        Refusal { number, at: None }
    }
}
