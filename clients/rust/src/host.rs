//! The call for a host: bytes in, bytes out, a number as the answer.

use crate::refusal::Refusal;
use crate::{job, solve_system, Answer};

/// How many bytes an answer takes.
pub const OUT_BYTES: usize = 40;

/// Writes low, high, waiting, splits and stop into the first 40 bytes of `out`,
/// eight bytes each, the highest first, and answers 0. A refusal answers its
/// number and leaves `out` as it was.
pub fn host_call(job: &[u8], component: u32, budget: u32, out: &mut [u8]) -> u32 {
    match call(job, component, budget, out) {
        Ok(()) => 0,
        Err(refusal) => refusal.number(),
    }
}

fn call(job: &[u8], component: u32, budget: u32, out: &mut [u8]) -> Result<(), Refusal> {
    let system = job::read(job)?;
    let out = out
        .first_chunk_mut::<OUT_BYTES>()
        .ok_or(Refusal::BufferTooShort)?;
    let answer = solve_system(&system, component, budget)?;
    put(&answer, out);
    Ok(())
}

fn put(answer: &Answer, out: &mut [u8; OUT_BYTES]) {
    let fields = [
        answer.low.to_be_bytes(),
        answer.high.to_be_bytes(),
        answer.waiting.to_be_bytes(),
        answer.splits.to_be_bytes(),
        u64::from(answer.stop.number()).to_be_bytes(),
    ];
    for (place, field) in out.chunks_exact_mut(8).zip(fields) {
        place.copy_from_slice(&field);
    }
}

#[cfg(test)]
mod tests {
    use super::*;
    use crate::testing::{filling, system};

    const WORKED: &[u8] = b"SZ\x01EN\x00\0\0\0\x02\0\0\0\x04EN\x01\0\0\0\x01\0\0\0\x03ZZ";

    fn fields(out: &[u8]) -> Vec<i64> {
        out[..OUT_BYTES]
            .chunks_exact(8)
            .map(|field| i64::from_be_bytes(field.try_into().unwrap()))
            .collect()
    }

    #[test]
    fn the_worked_job() {
        let mut out = [0xA5; 48];
        assert_eq!(host_call(WORKED, 1, 100, &mut out), 0);
        assert_eq!(out[..8], [0, 0, 0, 0, 0, 0, 0x10, 0]);
        assert_eq!(fields(&out), [4096, 4096, 1, 2, 1]);
        assert_eq!(out[40..], [0xA5; 8]);

        let mut exact = [0; 40];
        assert_eq!(host_call(WORKED, 1, 0, &mut exact), 0);
        assert_eq!(fields(&exact), [4096, 10923, 1, 0, 3]);
    }

    #[test]
    fn negative_figures_are_in_twos_complement() {
        let job = job::write(&system(&[&[(2, 2), (-3, -3)]]));
        let mut out = [0; 40];
        assert_eq!(host_call(&job, 1, 0, &mut out), 0);
        assert_eq!(out[..8], [0xFF, 0xFF, 0xFF, 0xFF, 0xFF, 0xFF, 0xA0, 0]);
        assert_eq!(fields(&out), [-24576, -24576, 1, 0, 1]);
    }

    #[test]
    fn a_search_that_fills_up() {
        let job = job::write(&filling());
        let mut out = [0; 40];
        assert_eq!(host_call(&job, 1, 1000, &mut out), 0);
        assert_eq!(fields(&out), [0, 0, 512, 511, 2]);
        assert_eq!(host_call(&job, 4, u32::MAX, &mut out), 0);
        assert_eq!(fields(&out), [0, 0, 512, 511, 2]);
    }

    fn refused(job: &[u8], component: u32, room: usize, number: u32) {
        let mut out = vec![0xA5; room];
        assert_eq!(host_call(job, component, 100, &mut out), number);
        assert!(out.iter().all(|&byte| byte == 0xA5));
    }

    #[test]
    fn refusals_in_order_leave_every_byte() {
        let pivot = job::write(&system(&[&[(0, 1), (1, 3)]]));
        let span = job::write(&system(&[
            &[(1, 1), (363, 363), (1, 1)],
            &[(363, 363), (1, 1), (0, 0)],
        ]));
        refused(b"", 0, 0, 9);
        refused(b"SZ\x07ZZ", 0, 39, 1);
        refused(WORKED, 0, 39, 14);
        refused(&pivot, 1, 0, 14);
        refused(&pivot, 0, 40, 5);
        refused(&pivot, 2, 40, 5);
        refused(&pivot, 1, 48, 6);
        refused(&span, 2, 48, 7);
        refused(WORKED, u32::MAX, 48, 5);
    }
}
