//! One Gauss-Seidel sweep above another method.

use crate::grains::{ArithmeticError, Interval};
use crate::method::Method;
use crate::refusal::Refusal;
use crate::system::{Entry, Row, System};

/// Narrows the row of the method below.
pub struct Sweep<M> {
    pub below: M,
}

impl<M: Method> Method for Sweep<M> {
    fn enclose(&self, system: &System) -> Result<Row, Refusal> {
        let mut row = self.below.enclose(system)?;
        sweep(system, &mut row);
        Ok(row)
    }
}

/// Narrows each component by its own equation, with those before it narrowed
/// already. A component whose equation gives nothing stays.
pub fn sweep(system: &System, row: &mut Row) {
    for (i, entries) in system.rows().enumerate() {
        if let Ok(solved) = solved_for(i, entries, row) {
            row[i] = row[i].common(solved).unwrap_or(row[i]);
        }
    }
}

/// The equation solved for component i.
fn solved_for(i: usize, entries: &[Entry], row: &Row) -> Result<Interval, ArithmeticError> {
    let n = entries.len() - 1;
    let mut left = entries[n].in_grains();
    for (j, (entry, component)) in entries[..n].iter().zip(row).enumerate() {
        if j != i {
            left = left.difference(entry.in_grains().product(*component)?)?;
        }
    }
    left.quotient(entries[i].in_grains())
}

#[cfg(test)]
mod tests {
    use super::*;
    use crate::elimination::Elimination;
    use crate::testing::{row_of, system};

    fn swept(rows: &[&[(i32, i32)]], ends: &[(i64, i64)]) -> Vec<(i64, i64)> {
        let mut row = [Interval::ZERO; 6];
        for (interval, &(low, high)) in row.iter_mut().zip(ends) {
            *interval = Interval::new(low, high).unwrap();
        }
        sweep(&system(rows), &mut row);
        row_of(&row, ends.len())
    }

    #[test]
    fn worked_figures() {
        let rows: &[&[_]] = &[&[(4, 4), (1, 1), (5, 5)], &[(1, 1), (4, 4), (5, 5)]];
        assert_eq!(
            swept(rows, &[(-27307, 27307); 2]),
            [(13653, 27307), (13653, 17067)]
        );
    }

    #[test]
    fn over_elimination() {
        let demo = system(&[&[(2, 4), (-2, 1), (-2, 2)], &[(-1, 2), (2, 4), (-2, 2)]]);
        let method = Sweep { below: Elimination };
        let row = method.enclose(&demo).unwrap();
        assert_eq!(row_of(&row, 2), [(-81920, 81920), (-65536, 65536)]);
        let refused = method.enclose(&system(&[&[(0, 1), (1, 3)]]));
        assert_eq!(refused, Err(Refusal::PivotContainsZero));
    }

    #[test]
    fn a_component_without_an_answer_stays() {
        // A diagonal entry with zero, a step outside the span, nothing in common.
        assert_eq!(swept(&[&[(0, 1), (1, 1)]], &[(3, 9)]), [(3, 9)]);
        let far = (1_i64 << 31, 1_i64 << 31);
        let rows: &[&[_]] = &[&[(1, 1), (2, 2), (0, 0)], &[(0, 0), (1, 1), (9, 9)]];
        assert_eq!(swept(rows, &[(-5, 5), far]), [(-5, 5), far]);
        assert_eq!(swept(&[&[(1, 1), (7, 7)]], &[(3, 9)]), [(3, 9)]);
    }
}
