//! Entries and systems.

use crate::grains::Interval;
use crate::refusal::Refusal;

/// The greatest number of rows.
pub const MAX_SIZE: usize = 6;

/// How many entries a system of the greatest size has.
pub const MAX_PLACES: usize = MAX_SIZE * (MAX_SIZE + 1);

/// The greatest end of an entry; the least is its negative.
pub const MAX_END: i32 = 65_536;

/// An interval for each component; what is beyond the size is zero.
pub type Row = [Interval; MAX_SIZE];

/// A number known only to lie between two whole numbers, in ones.
#[derive(Clone, Copy, Debug, PartialEq, Eq)]
pub struct Entry {
    low: i32,
    high: i32,
}

impl Entry {
    pub const ZERO: Self = Self { low: 0, high: 0 };

    pub fn new(low: i32, high: i32) -> Result<Self, Refusal> {
        let range = -MAX_END..=MAX_END;
        if !range.contains(&low) || !range.contains(&high) {
            return Err(Refusal::EndOutOfRange);
        }
        if low > high {
            return Err(Refusal::EndsOutOfOrder);
        }
        Ok(Self { low, high })
    }

    pub fn low(self) -> i32 {
        self.low
    }

    pub fn high(self) -> i32 {
        self.high
    }

    pub fn width(self) -> i32 {
        self.high - self.low
    }

    pub fn is_wide(self) -> bool {
        self.low != self.high
    }

    pub fn at_low(self) -> Self {
        Self::thin(self.low)
    }

    pub fn at_high(self) -> Self {
        Self::thin(self.high)
    }

    /// The thin entry halfway between the ends, rounded down.
    pub fn midpoint(self) -> Self {
        Self::thin((self.low + self.high) >> 1)
    }

    #[inline(always)]
    pub fn in_grains(self) -> Interval {
        Interval::from_ones(self.low, self.high)
    }

    fn thin(end: i32) -> Self {
        Self {
            low: end,
            high: end,
        }
    }
}

/// n rows, each of n matrix entries and a right-hand entry.
#[derive(Clone, Copy, Debug, PartialEq, Eq)]
pub struct System {
    size: usize,
    entries: [Entry; MAX_PLACES],
}

impl System {
    /// A system of that size with every entry zero.
    pub fn new(size: usize) -> Result<Self, Refusal> {
        if !(1..=MAX_SIZE).contains(&size) {
            return Err(Refusal::SizeOutOfRange);
        }
        Ok(Self {
            size,
            entries: [Entry::ZERO; MAX_PLACES],
        })
    }

    /// Replaces the entry at a place; a refused one stays as it was.
    pub fn set(&mut self, place: usize, low: i32, high: i32) -> Result<(), Refusal> {
        if place >= self.places() {
            return Err(Refusal::PlaceOutOfRange);
        }
        self.entries[place] = Entry::new(low, high)?;
        Ok(())
    }

    pub fn size(&self) -> usize {
        self.size
    }

    pub fn places(&self) -> usize {
        self.size * (self.size + 1)
    }

    /// All entries, by place.
    pub fn entries(&self) -> &[Entry] {
        &self.entries[..self.places()]
    }

    /// The rows, each with its right-hand entry last.
    pub fn rows(&self) -> impl Iterator<Item = &[Entry]> {
        self.entries().chunks_exact(self.size + 1)
    }

    pub fn wide_entries(&self) -> u32 {
        self.entries().iter().map(|e| u32::from(e.is_wide())).sum()
    }

    /// The system with every entry replaced by its midpoint.
    pub fn midpoint(&self) -> Self {
        let mut middle = *self;
        for entry in middle.entries_mut() {
            *entry = entry.midpoint();
        }
        middle
    }

    pub(crate) fn entries_mut(&mut self) -> &mut [Entry] {
        let places = self.places();
        &mut self.entries[..places]
    }
}

#[cfg(test)]
mod tests {
    use super::*;

    #[test]
    fn ends_are_checked_for_range_then_order() {
        assert!(Entry::new(-65_536, 65_536).is_ok());
        assert_eq!(Entry::new(-65_537, 0), Err(Refusal::EndOutOfRange));
        assert_eq!(Entry::new(0, 65_537), Err(Refusal::EndOutOfRange));
        assert_eq!(Entry::new(65_537, 0), Err(Refusal::EndOutOfRange));
        assert_eq!(Entry::new(1, 0), Err(Refusal::EndsOutOfOrder));
    }

    #[test]
    fn midpoints_round_down() {
        let middle = |low, high| Entry::new(low, high).unwrap().midpoint().low();
        assert_eq!(middle(-3, 0), -2);
        assert_eq!(middle(0, 3), 1);
        assert_eq!(middle(-65_536, 65_536), 0);
        assert_eq!(middle(7, 7), 7);
    }

    #[test]
    fn sizes_and_places_at_the_limits() {
        assert_eq!(System::new(0), Err(Refusal::SizeOutOfRange));
        assert_eq!(System::new(7), Err(Refusal::SizeOutOfRange));
        let places = |size| System::new(size).unwrap().places();
        assert_eq!((places(1), places(2), places(6)), (2, 6, 42));

        let mut system = System::new(6).unwrap();
        assert_eq!(system.set(41, 1, 2), Ok(()));
        let before = system;
        assert_eq!(system.set(42, 1, 2), Err(Refusal::PlaceOutOfRange));
        assert_eq!(system.set(0, 65_537, 0), Err(Refusal::EndOutOfRange));
        assert_eq!(system.set(0, 2, 1), Err(Refusal::EndsOutOfOrder));
        assert_eq!(system, before);
        assert_eq!(system.wide_entries(), 1);
        assert_eq!(system.midpoint().wide_entries(), 0);
    }
}
