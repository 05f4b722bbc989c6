//! Systems and rows for tests.

use crate::system::{Row, System};

/// The system of these rows, each with its right side last.
pub fn system(rows: &[&[(i32, i32)]]) -> System {
    let mut system = System::new(rows.len()).unwrap();
    for (place, &(low, high)) in rows.iter().copied().flatten().enumerate() {
        system.set(place, low, high).unwrap();
    }
    system
}

/// Ten wide entries, and every component zero in every solution.
pub fn filling() -> System {
    system(&[
        &[(8, 9), (0, 1), (0, 1), (0, 1), (0, 0)],
        &[(0, 1), (8, 9), (0, 1), (0, 1), (0, 0)],
        &[(0, 0), (0, 0), (8, 9), (0, 0), (0, 0)],
        &[(0, 0), (0, 0), (0, 0), (8, 9), (0, 0)],
    ])
}

/// The ends of the first intervals.
pub fn row_of(row: &Row, size: usize) -> Vec<(i64, i64)> {
    row[..size].iter().map(|i| (i.low(), i.high())).collect()
}
