//! Which entry to fix next.

use crate::system::{Row, System};

/// Answers the place of a wide entry, or none where all are thin.
pub trait Rule {
    fn choose(&self, system: &System, row: &Row) -> Option<usize>;
}

/// The widest entry, and among equals the one at the lowest place.
pub struct Widest;

impl Rule for Widest {
    fn choose(&self, system: &System, _row: &Row) -> Option<usize> {
        let mut widest = None;
        let mut width = 0;
        for (place, entry) in system.entries().iter().enumerate() {
            if entry.width() > width {
                width = entry.width();
                widest = Some(place);
            }
        }
        widest
    }
}

#[cfg(test)]
mod tests {
    use super::*;
    use crate::grains::Interval;
    use crate::testing::system;

    fn widest(rows: &[&[(i32, i32)]]) -> Option<usize> {
        Widest.choose(&system(rows), &[Interval::ZERO; 6])
    }

    #[test]
    fn the_first_of_the_widest() {
        assert_eq!(
            widest(&[&[(2, 4), (-2, 1), (-2, 2)], &[(-1, 2), (2, 4), (-2, 2)]]),
            Some(2)
        );
        assert_eq!(widest(&[&[(2, 2), (1, 1)]]), None);
        assert_eq!(widest(&[&[(2, 2), (0, 1)]]), Some(1));
        assert_eq!(widest(&[&[(-65_536, 65_536), (-65_536, 65_536)]]), Some(0));
    }
}
