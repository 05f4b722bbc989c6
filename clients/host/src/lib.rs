//! A safe call of the lowline library: a figure that one component of an
//! interval linear system is never below.
//!
//! ```
//! use lowline_host::{solve, Stop};
//!
//! // Size 1, matrix [2, 4], right side [1, 3].
//! let job = b"SZ\x01EN\x00\0\0\0\x02\0\0\0\x04EN\x01\0\0\0\x01\0\0\0\x03ZZ";
//!
//! let answer = solve(job, 1, 100)?;
//! assert_eq!(answer.low, 4096);
//! assert_eq!(answer.high, 4096);
//! assert_eq!((answer.waiting, answer.splits), (1, 2));
//! assert_eq!(answer.stop, Stop::Settled);
//!
//! // There is no second component.
//! assert_eq!(solve(job, 2, 100), Err(5));
//! # Ok::<(), u32>(())
//! ```

/// How many bytes an answer takes.
pub const FRAME: usize = 40;

/// Why a search stopped.
#[derive(Clone, Copy, Debug, PartialEq, Eq, Hash)]
pub enum Stop {
    /// Nothing is left to split.
    Settled = 1,
    /// 512 boxes wait.
    Full = 2,
    /// The budget is used.
    Budget = 3,
}

/// Where a search ended. Figures are in grains; 16384 make one.
#[derive(Clone, Copy, Debug, PartialEq, Eq, Hash)]
pub struct Answer {
    /// No solution of any system inside the job's has the component below it.
    pub low: i64,
    /// One solution has the component at most at it.
    pub high: i64,
    /// How many boxes wait.
    pub waiting: u64,
    /// How many splits were made.
    pub splits: u64,
    /// Why it ended.
    pub stop: Stop,
}

mod library {
    extern "C" {
        pub fn lowline_solve(
            job: *const u8,
            job_len: usize,
            component: u32,
            budget: u32,
            out: *mut u8,
            out_len: usize,
        ) -> u32;
    }
}

/// Reads a job and searches for one component, counted from 1, with at most
/// `budget` splits. An error is the number of the refusal, as `lowline.h` lists
/// them.
pub fn solve(job: &[u8], component: u32, budget: u32) -> Result<Answer, u32> {
    let mut out = [0; FRAME];
    match solve_into(job, component, budget, &mut out) {
        0 => Ok(answer_of(&out)),
        refusal => Err(refusal),
    }
}

/// The call itself. It answers 0 and writes low, high, waiting, splits and stop
/// into the first 40 bytes of `out`, eight bytes each, the highest byte first.
/// Any other answer is the number of a refusal, and `out` is as it was.
pub fn solve_into(job: &[u8], component: u32, budget: u32, out: &mut [u8]) -> u32 {
    // SAFETY: each pointer comes with the length of its slice. A slice's pointer
    // is never null, also where it is empty, and `out` is borrowed alone, so the
    // two do not overlap. The call keeps neither.
    unsafe {
        library::lowline_solve(
            job.as_ptr(),
            job.len(),
            component,
            budget,
            out.as_mut_ptr(),
            out.len(),
        )
    }
}

fn answer_of(out: &[u8; FRAME]) -> Answer {
    let [low, high, waiting, splits, stop] = numbers(out);
    Answer {
        low: low as i64,
        high: high as i64,
        waiting,
        splits,
        stop: match stop {
            1 => Stop::Settled,
            2 => Stop::Full,
            3 => Stop::Budget,
            _ => unreachable!("the library writes 1, 2 or 3, not {stop}"),
        },
    }
}

fn numbers(out: &[u8; FRAME]) -> [u64; 5] {
    let mut numbers = [0; 5];
    for (number, bytes) in numbers.iter_mut().zip(out.chunks_exact(8)) {
        *number = bytes.iter().fold(0, |n, &byte| n << 8 | u64::from(byte));
    }
    numbers
}

#[cfg(test)]
mod tests {
    use super::*;

    const WORKED: &[u8] = b"SZ\x01EN\x00\0\0\0\x02\0\0\0\x04EN\x01\0\0\0\x01\0\0\0\x03ZZ";

    #[test]
    fn the_worked_job_with_each_budget() {
        let answer = |low, high, waiting, splits, stop| {
            Ok(Answer {
                low,
                high,
                waiting,
                splits,
                stop,
            })
        };
        assert_eq!(solve(WORKED, 1, 0), answer(4096, 10923, 1, 0, Stop::Budget));
        assert_eq!(solve(WORKED, 1, 1), answer(4096, 8192, 2, 1, Stop::Budget));
        assert_eq!(
            solve(WORKED, 1, u32::MAX),
            answer(4096, 4096, 1, 2, Stop::Settled)
        );
    }

    #[test]
    fn negative_figures() {
        // Size 1, matrix 2, right side -3.
        let job = b"SZ\x01EN\x00\0\0\0\x02\0\0\0\x02EN\x01\xFF\xFF\xFF\xFD\xFF\xFF\xFF\xFDZZ";
        let answer = solve(job, 1, 0).unwrap();
        assert_eq!((answer.low, answer.high), (-24576, -24576));
    }

    #[test]
    fn empty_slices() {
        assert_eq!(solve(&[], 1, 100), Err(9));
        assert_eq!(solve_into(&[], 1, 100, &mut []), 9);
        assert_eq!(solve_into(WORKED, 1, 100, &mut []), 14);
    }

    #[test]
    fn later_bytes_stay() {
        let mut out = [0xA5; 48];
        assert_eq!(solve_into(WORKED, 1, 100, &mut out), 0);
        assert_eq!(out[..8], [0, 0, 0, 0, 0, 0, 0x10, 0]);
        assert_eq!(out[FRAME..], [0xA5; 8]);
    }
}
