//! Days of the year, windows of such days, and dates of the Gregorian calendar:
//! 02, order 4.

/// The years that a batch's date may have.
pub const FIRST_YEAR: u16 = 1900;
pub const LAST_YEAR: u16 = 2199;

/// The days of a leap year, which has every day that some year has.
pub const LONGEST_YEAR: usize = 366;

/// The days of a month, and 0 of a month that there is not.
fn days_of(month: u8, in_leap_year: bool) -> u8 {
    match month {
        2 if in_leap_year => 29,
        2 => 28,
        4 | 6 | 9 | 11 => 30,
        1..=12 => 31,
        _ => 0,
    }
}

/// Every fourth year, but of the years that end a century only every fourth.
pub fn is_leap_year(year: u16) -> bool {
    let count = if year % 100 == 0 { year / 100 } else { year };
    count % 4 == 0
}

/// A day and a month, whether there is such a day or not.
#[derive(Clone, Copy, Debug, PartialEq, Eq)]
pub struct Day {
    pub day: u8,
    pub month: u8,
}

impl Day {
    pub const fn new(day: u8, month: u8) -> Day {
        Day { day, month }
    }

    /// 29 February is one.
    pub fn some_year_has(self) -> bool {
        (1..=days_of(self.month, true)).contains(&self.day)
    }

    /// How many days of a leap year come before it; some year has it.
    pub fn place(self) -> usize {
        let before: usize = (1..self.month).map(|month| usize::from(days_of(month, true))).sum();
        before + usize::from(self.day) - 1
    }

    /// The day before which so many days of a leap year come; counted on over the
    /// year's end.
    pub fn at_place(place: usize) -> Day {
        let mut left = place % LONGEST_YEAR;
        let mut month = 1;
        while left >= usize::from(days_of(month, true)) {
            left -= usize::from(days_of(month, true));
            month += 1;
        }
        Day { day: left as u8 + 1, month }
    }

    /// How many days of a leap year later it is the other day, counted on over the
    /// year's end.
    fn days_to(self, other: Day) -> usize {
        (other.place() + LONGEST_YEAR - self.place()) % LONGEST_YEAR
    }
}

/// The days of a year on which a sheet holds, from the first to the last. Some
/// year has each of the two.
#[derive(Clone, Copy, Debug, PartialEq, Eq)]
pub struct Window {
    pub first: Day,
    pub last: Day,
}

impl Window {
    /// From the four bytes of a field: first day, first month, last day, last
    /// month. Nothing if no year has one of the two days.
    pub fn read(bytes: [u8; 4]) -> Option<Window> {
        let [first_day, first_month, last_day, last_month] = bytes;
        let first = Day::new(first_day, first_month);
        let last = Day::new(last_day, last_month);
        (first.some_year_has() && last.some_year_has()).then_some(Window { first, last })
    }

    pub fn bytes(self) -> [u8; 4] {
        [self.first.day, self.first.month, self.last.day, self.last.month]
    }

    /// Whether it has the day: that comes no later after the first day than the
    /// last day does. A window whose last day comes before its first so runs over
    /// the year's end, and one whose days are equal has that day alone.
    pub fn has(self, day: Day) -> bool {
        self.first.days_to(day) <= self.first.days_to(self.last)
    }
}

/// A batch's date as it is given, good or not.
#[derive(Clone, Copy, Debug, PartialEq, Eq)]
pub struct Date {
    pub day: u8,
    pub month: u8,
    pub year: u16,
}

impl Date {
    pub const fn new(day: u8, month: u8, year: u16) -> Date {
        Date { day, month, year }
    }

    /// Its day of the year; nothing if its year lacks that, or is outside 1900 to
    /// 2199, which is refusal 15.
    pub fn day_of_year(self) -> Option<Day> {
        let days = days_of(self.month, is_leap_year(self.year));
        let good = (FIRST_YEAR..=LAST_YEAR).contains(&self.year) && (1..=days).contains(&self.day);
        good.then_some(Day::new(self.day, self.month))
    }

    pub fn is_good(self) -> bool {
        self.day_of_year().is_some()
    }

    /// As inputs have it: day, month, and the year in two bytes, high byte first.
    pub fn bytes(self) -> [u8; 4] {
        let [high, low] = self.year.to_be_bytes();
        [self.day, self.month, high, low]
    }
}
