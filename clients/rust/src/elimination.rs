//! Gaussian elimination with intervals, rows in the order they come.

use crate::grains::{ArithmeticError, Interval};
use crate::method::Method;
use crate::refusal::Refusal;
use crate::system::{Row, System, MAX_SIZE};

pub struct Elimination;

/// A row at work: the matrix entries and then the right side.
type Line = [Interval; MAX_SIZE + 1];

impl Method for Elimination {
    fn enclose(&self, system: &System) -> Result<Row, Refusal> {
        let mut lines = scaled(system);
        let lines = &mut lines[..system.size()];
        eliminate(lines)?;
        Ok(substitute(lines)?)
    }
}

fn scaled(system: &System) -> [Line; MAX_SIZE] {
    let mut lines = [[Interval::ZERO; MAX_SIZE + 1]; MAX_SIZE];
    for (line, row) in lines.iter_mut().zip(system.rows()) {
        for (interval, entry) in line.iter_mut().zip(row) {
            *interval = entry.in_grains();
        }
    }
    lines
}

/// Takes multiples of each row from those below it. A quotient looks at its
/// divisor first, so that is the test of the pivot.
fn eliminate(lines: &mut [Line]) -> Result<(), ArithmeticError> {
    let n = lines.len();
    for k in 0..n {
        let (above, below) = lines.split_at_mut(k + 1);
        let pivot = &above[k];
        for line in below {
            let multiple = line[k].quotient(pivot[k])?;
            for (interval, over) in line[k + 1..=n].iter_mut().zip(&pivot[k + 1..=n]) {
                *interval = interval.difference(multiple.product(*over)?)?;
            }
        }
    }
    Ok(())
}

/// The components from the last to the first.
fn substitute(lines: &[Line]) -> Result<Row, ArithmeticError> {
    let n = lines.len();
    let mut row = [Interval::ZERO; MAX_SIZE];
    for (i, line) in lines.iter().enumerate().rev() {
        let mut left = line[n];
        for (factor, component) in line[i + 1..n].iter().zip(&row[i + 1..n]) {
            left = left.difference(factor.product(*component)?)?;
        }
        row[i] = left.quotient(line[i])?;
    }
    Ok(row)
}

#[cfg(test)]
mod tests {
    use super::*;
    use crate::testing::{row_of, system};

    fn enclosed(rows: &[&[(i32, i32)]]) -> Result<Vec<(i64, i64)>, u32> {
        let system = system(rows);
        let row = Elimination.enclose(&system).map_err(Refusal::number)?;
        Ok(row_of(&row, system.size()))
    }

    #[test]
    fn worked_figures_of_one_row() {
        assert_eq!(enclosed(&[&[(0, 1), (1, 3)]]), Err(6));
        assert_eq!(enclosed(&[&[(-1, 0), (0, 0)]]), Err(6));
        assert_eq!(
            enclosed(&[&[(1, 1), (65_536, 65_536)]]),
            Ok(vec![(1_073_741_824, 1_073_741_824)])
        );
        assert_eq!(enclosed(&[&[(2, 4), (1, 3)]]), Ok(vec![(4096, 24576)]));
    }

    fn coupled(c: i32) -> Result<Vec<(i64, i64)>, u32> {
        enclosed(&[&[(1, 1), (c, c), (1, 1)], &[(c, c), (1, 1), (0, 0)]])
    }

    #[test]
    fn worked_figures_of_two_rows() {
        assert_eq!(coupled(362), Ok(vec![(-268, 94), (45, 46)]));
        assert_eq!(coupled(363), Err(7));
        assert_eq!(
            enclosed(&[&[(2, 4), (-2, 1), (-2, 2)], &[(-1, 2), (2, 4), (-2, 2)]]),
            Ok(vec![(-81920, 81920), (-65536, 65536)])
        );
        assert_eq!(
            enclosed(&[&[(4, 4), (1, 1), (5, 5)], &[(1, 1), (4, 4), (5, 5)]]),
            Ok(vec![(16384, 16384); 2])
        );
    }

    #[test]
    fn worked_figures_of_three_rows() {
        assert_eq!(
            enclosed(&[
                &[(199, 224), (-106, -95), (0, 0), (1140, 1272)],
                &[(-106, -95), (199, 224), (-106, -95), (0, 0)],
                &[(0, 0), (-106, -95), (104, 118), (0, 0)],
            ]),
            Ok(vec![
                (114_709, 276_184),
                (73_864, 321_887),
                (59_464, 328_086)
            ])
        );
    }

    #[test]
    fn rows_are_not_exchanged() {
        assert_eq!(
            enclosed(&[&[(0, 3), (1, 3), (1, 1)], &[(-1, -1), (0, 1), (-2, -2)]]),
            Err(6)
        );
        let narrower = enclosed(&[&[(3, 3), (1, 3), (1, 1)], &[(-1, -1), (0, 1), (-2, -2)]]);
        assert_eq!(narrower.unwrap()[0], (10_012, 87_389));
    }

    #[test]
    fn the_step_that_fails_first_decides() {
        // The first pivot holds zero, though the rest would leave the span.
        assert_eq!(
            enclosed(&[
                &[(0, 0), (65_536, 65_536), (1, 1)],
                &[(1, 1), (1, 1), (1, 1)]
            ]),
            Err(6)
        );
        // The elimination leaves the span before the last pivot is met.
        assert_eq!(
            enclosed(&[&[(1, 1), (363, 363), (1, 1)], &[(363, 363), (0, 0), (1, 1)]]),
            Err(7)
        );
        // The last pivot becomes zero.
        assert_eq!(
            enclosed(&[&[(1, 1), (1, 1), (1, 1)], &[(1, 1), (1, 1), (1, 1)]]),
            Err(6)
        );
    }
}
