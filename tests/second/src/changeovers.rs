//! The changeovers of a book as a table over ordered pairs of grades, and the
//! rules that a single changeover keeps (refusals 4 and 5).

pub const MOST_GRADES: usize = 64;
pub const MOST_LITRES: u32 = 1_000_000;

/// Stands in the table for a pair that is no changeover.
const NO_CHANGEOVER: u32 = u32::MAX;

#[derive(Clone, Copy, Debug, PartialEq, Eq)]
pub struct Changeover {
    pub from: u8,
    pub to: u8,
    pub litres: u32,
}

#[derive(Clone, Debug, PartialEq, Eq)]
pub struct Changeovers {
    grades: usize,
    count: usize,
    table: Vec<u32>,
}

impl Changeovers {
    /// No changeovers yet, over `grades` grades; refusal 4 for a bad count.
    pub fn new(grades: usize) -> Result<Changeovers, u8> {
        if grades == 0 || grades > MOST_GRADES {
            return Err(4);
        }
        let table = vec![NO_CHANGEOVER; grades * grades];
        Ok(Changeovers { grades, count: 0, table })
    }

    pub fn grades(&self) -> usize {
        self.grades
    }

    pub fn count(&self) -> usize {
        self.count
    }

    pub fn has_grade(&self, grade: u8) -> bool {
        usize::from(grade) < self.grades
    }

    /// Adds a changeover; otherwise the number of its refusal, 4 before 5.
    pub fn add(&mut self, item: Changeover) -> Result<(), u8> {
        let known_grades = self.has_grade(item.from) && self.has_grade(item.to);
        if !known_grades || item.from == item.to || item.litres > MOST_LITRES {
            return Err(4);
        }
        if self.litres(item.from, item.to).is_some() {
            return Err(5);
        }
        let index = self.index(item.from, item.to);
        self.table[index] = item.litres;
        self.count += 1;
        Ok(())
    }

    /// The litres of a pair, both below the count, if it is a changeover.
    pub fn litres(&self, from: u8, to: u8) -> Option<u32> {
        match self.table[self.index(from, to)] {
            NO_CHANGEOVER => None,
            litres => Some(litres),
        }
    }

    /// The changeovers in rising order of from, then to.
    pub fn list(&self) -> Vec<Changeover> {
        let mut list = Vec::with_capacity(self.count);
        for from in 0..self.grades as u8 {
            for to in 0..self.grades as u8 {
                if let Some(litres) = self.litres(from, to) {
                    list.push(Changeover { from, to, litres });
                }
            }
        }
        list
    }

    fn index(&self, from: u8, to: u8) -> usize {
        usize::from(from) * self.grades + usize::from(to)
    }

    /// The litres of a list of grades, or nothing if it is no line-up.
    pub fn lineup_litres(&self, lineup: &[u8]) -> Option<u64> {
        if lineup.is_empty() || !lineup.iter().all(|&grade| self.has_grade(grade)) {
            return None;
        }
        let mut sum = 0;
        for pair in lineup.windows(2) {
            sum += u64::from(self.litres(pair[0], pair[1])?);
        }
        Some(sum)
    }
}
