//! The lowest value that one component of the solution takes over an interval
//! linear system: elimination under one sweep, the widest entry split first.

pub mod elimination;
pub mod feed;
pub mod grains;
pub mod job;
pub mod marks;
pub mod method;
pub mod refusal;
pub mod rule;
pub mod search;
pub mod sweep;
pub mod system;

mod host;
mod program;
#[cfg(test)]
mod testing;

pub use host::{host_call, OUT_BYTES};
pub use program::{lines, INPUT_BYTES};
pub use search::Stop;

use elimination::Elimination;
use refusal::Refusal;
use rule::Widest;
use search::Search;
use sweep::Sweep;
use system::System;

/// Where a search ended.
#[derive(Clone, Copy, Debug, PartialEq, Eq)]
pub struct Answer {
    pub low: i64,
    pub high: i64,
    pub waiting: u64,
    pub splits: u64,
    pub stop: Stop,
}

/// Reads a job and searches for the lowest value of one component, counted
/// from 1. An error is the number of the refusal.
pub fn solve(job: &[u8], component: u32, budget: u32) -> Result<Answer, u32> {
    job::read(job)
        .and_then(|system| solve_system(&system, component, budget))
        .map_err(Refusal::number)
}

/// As `solve`, for a system that is read already.
pub fn solve_system(system: &System, component: u32, budget: u32) -> Result<Answer, Refusal> {
    let method = Sweep { below: Elimination };
    let mut search = Search::start(*system, method, Widest, component)?;
    let stop = search.run(budget)?;
    let reading = search.reading();
    Ok(Answer {
        low: reading.low,
        high: reading.high,
        waiting: reading.waiting,
        splits: reading.splits,
        stop,
    })
}
