//! What the program prints.

use std::fmt::Write;

use crate::{job, solve_system};

/// The program looks at this many bytes of its input and no more.
pub const INPUT_BYTES: usize = 512;

/// How many splits each component gets.
const BUDGET: u32 = 100;

/// A header and a line for each component, or one line for a refused job.
pub fn lines(input: &[u8]) -> String {
    let job = &input[..input.len().min(INPUT_BYTES)];
    let system = match job::read(job) {
        Ok(system) => system,
        Err(refusal) => return format!("{refusal}\n"),
    };
    let mut text = String::from("comp low high waiting splits stop\n");
    for component in 1..=system.size() as u32 {
        let written = match solve_system(&system, component, BUDGET) {
            Ok(a) => writeln!(
                text,
                "{component} {} {} {} {} {}",
                a.low,
                a.high,
                a.waiting,
                a.splits,
                a.stop.word()
            ),
            Err(refusal) => writeln!(text, "{component} {refusal}"),
        };
        written.expect("a string takes every line");
    }
    text
}

#[cfg(test)]
mod tests {
    use super::*;
    use crate::testing::{filling, system};

    const HEADER: &str = "comp low high waiting splits stop\n";

    #[test]
    fn the_worked_job() {
        let job = b"SZ\x01EN\x00\0\0\0\x02\0\0\0\x04EN\x01\0\0\0\x01\0\0\0\x03ZZ";
        assert_eq!(lines(job), format!("{HEADER}1 4096 4096 1 2 settled\n"));
    }

    #[test]
    fn refused_jobs_and_components() {
        assert_eq!(lines(b""), "refused 9\n");
        assert_eq!(lines(b"SZ\x01ZZ\x00"), "refused 13\n");
        assert_eq!(lines(b"SZ\x01ZZ"), format!("{HEADER}1 refused 6\n"));
        let span = job::write(&system(&[
            &[(1, 1), (363, 363), (1, 1)],
            &[(363, 363), (1, 1), (0, 0)],
        ]));
        let both = format!("{HEADER}1 refused 7\n2 refused 7\n");
        assert_eq!(lines(&span), both);
    }

    #[test]
    fn the_budget_is_a_hundred() {
        let text = lines(&job::write(&filling()));
        let line = |component| format!("{component} 0 0 101 100 budget\n");
        assert_eq!(
            text,
            HEADER.to_owned() + &line(1) + &line(2) + &line(3) + &line(4)
        );
    }

    #[test]
    fn only_the_first_bytes_count() {
        assert_eq!(lines(&[b'S'; 2000]), "refused 10\n");
        let mut job = job::write(&filling());
        job.resize(4000, b'Z');
        assert_eq!(lines(&job), "refused 13\n");
    }
}
