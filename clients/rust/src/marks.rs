//! Which entries of a system are fixed, and at which end.

use crate::system::{Entry, System};

#[derive(Clone, Copy, Debug, PartialEq, Eq)]
pub enum End {
    Low,
    High,
}

impl End {
    /// The thin entry at this end.
    pub fn of(self, entry: Entry) -> Entry {
        match self {
            End::Low => entry.at_low(),
            End::High => entry.at_high(),
        }
    }
}

/// One bit for each place.
#[derive(Clone, Copy, Debug, PartialEq, Eq)]
pub struct Marks {
    fixed: u64,
    ends: u64,
}

impl Marks {
    pub const NONE: Self = Self { fixed: 0, ends: 0 };

    /// The marks with the entry at this place, which is not fixed yet, fixed too.
    pub fn fix(self, place: usize, end: End) -> Self {
        let bit = 1 << place;
        debug_assert!(self.fixed & bit == 0);
        Self {
            fixed: self.fixed | bit,
            ends: match end {
                End::Low => self.ends,
                End::High => self.ends | bit,
            },
        }
    }

    /// How many entries are fixed.
    pub fn count(self) -> u32 {
        self.fixed.count_ones()
    }

    /// The system with the fixed entries thin.
    pub fn boxed(self, system: &System) -> System {
        let mut boxed = *system;
        let entries = boxed.entries_mut();
        let mut left = self.fixed;
        while left != 0 {
            let place = left.trailing_zeros() as usize;
            entries[place] = self.end(place).of(entries[place]);
            left &= left - 1;
        }
        boxed
    }

    fn end(self, place: usize) -> End {
        if self.ends >> place & 1 == 0 {
            End::Low
        } else {
            End::High
        }
    }
}

#[cfg(test)]
mod tests {
    use super::*;

    #[test]
    fn a_box_has_the_marked_entries_thin() {
        let mut system = System::new(6).unwrap();
        system.set(0, 1, 3).unwrap();
        system.set(20, -4, 4).unwrap();
        system.set(41, -2, 5).unwrap();
        assert_eq!(Marks::NONE.boxed(&system), system);

        let marks = Marks::NONE.fix(0, End::Low).fix(41, End::High);
        let boxed = marks.boxed(&system);
        assert_eq!(marks.count(), 2);
        assert_eq!(boxed.wide_entries(), 1);
        assert_eq!(boxed.entries()[0], Entry::new(1, 1).unwrap());
        assert_eq!(boxed.entries()[20], Entry::new(-4, 4).unwrap());
        assert_eq!(boxed.entries()[41], Entry::new(5, 5).unwrap());
    }
}
