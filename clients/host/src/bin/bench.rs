//! How long a split takes: the library against the twin, in turns, on the same
//! jobs, and the best of some batches of each. A ratio above 1 says that the
//! library is the slower one.

use std::hint::black_box;
use std::time::{Duration, Instant};

use lowline_host::{solve, solve_into, Answer, Stop, FRAME};
use lowline_twin::system::System;
use lowline_twin::{host_call, job};

const BATCHES: u32 = 15;
const BATCH: Duration = Duration::from_millis(5);

type Call = fn(&[u8], u32, u32, &mut [u8]) -> u32;

/// A system of some size, by the row and the column of each entry and a shift
/// from 0 to 6.
type Entries = fn(usize, usize, usize, i32) -> (i32, i32);

fn main() {
    splits();
    waiting();
    no_splits();
}

fn splits() {
    println!("ns for a split, the start of the call included");
    println!();
    println!("size  system   budget  stop     splits   library      twin  ratio");
    for size in 1..=6 {
        for (system, entries) in [("general", general as Entries), ("kept", kept)] {
            for (budget, name) in [(u32::MAX, "most"), (100, "100")] {
                let job = job_of(size, entries);
                let answer = answer_of(&job, budget);
                if name == "100" && answer.stop != Stop::Budget {
                    continue;
                }
                let stop = word(answer.stop);
                let splits = answer.splits;
                let ends = figures(&job, budget, splits);
                println!("{size:4}  {system:7}  {name:>6}  {stop:7}  {splits:6}  {ends}");
            }
        }
    }
    println!();
}

fn waiting() {
    println!("ns for a split where every record is kept, by how many wait in the end");
    println!();
    println!("size  waiting   library      twin  ratio");
    for size in [3, 6] {
        for budget in [50, 100, 200, 400] {
            let job = job_of(size, kept);
            let Answer {
                waiting, splits, ..
            } = answer_of(&job, budget);
            let ends = figures(&job, budget, splits);
            println!("{size:4}  {waiting:7}  {ends}");
        }
    }
    println!();
}

fn no_splits() {
    println!("ns for a call with budget 0");
    println!();
    println!("size   library      twin  ratio");
    for size in 1..=6 {
        let ends = figures(&job_of(size, general), 0, 1);
        println!("{size:4}  {ends}");
    }
}

/// Every entry wide, figures of both signs.
fn general(size: usize, row: usize, column: usize, shift: i32) -> (i32, i32) {
    if column == size {
        (shift - 3, shift + 4)
    } else if column == row {
        (60 + shift, 70 + 2 * shift)
    } else {
        (shift - 5, shift)
    }
}

/// Every entry wide, and solutions of less than a grain: no record is dropped.
fn kept(_size: usize, row: usize, column: usize, _shift: i32) -> (i32, i32) {
    if column == row {
        (40_000, 60_000)
    } else {
        (0, 1)
    }
}

fn job_of(size: usize, entries: Entries) -> Vec<u8> {
    let mut system = System::new(size).expect("the size is from 1 to 6");
    for place in 0..system.places() {
        let (row, column) = (place / (size + 1), place % (size + 1));
        let (low, high) = entries(size, row, column, (place * 5 % 7) as i32);
        system.set(place, low, high).expect("the ends are in order");
    }
    job::write(&system)
}

/// The answer, which has to be the same from both.
fn answer_of(job: &[u8], budget: u32) -> Answer {
    let (mut ours, mut theirs) = ([0; FRAME], [0; FRAME]);
    assert_eq!(solve_into(job, 1, budget, &mut ours), 0);
    assert_eq!(host_call(job, 1, budget, &mut theirs), 0);
    assert_eq!(ours, theirs);
    solve(job, 1, budget).expect("it was accepted before")
}

fn word(stop: Stop) -> &'static str {
    match stop {
        Stop::Settled => "settled",
        Stop::Full => "full",
        Stop::Budget => "budget",
    }
}

/// The last three columns: nanoseconds by `parts` of a call, and the ratio.
fn figures(job: &[u8], budget: u32, parts: u64) -> String {
    let calls = calls_in_a_batch(job, budget);
    let (mut library, mut twin) = (f64::INFINITY, f64::INFINITY);
    for _ in 0..BATCHES {
        library = library.min(nanoseconds(solve_into, job, budget, calls));
        twin = twin.min(nanoseconds(host_call, job, budget, calls));
    }
    let (library, twin) = (library / parts as f64, twin / parts as f64);
    format!("{library:8.0}  {twin:8.0}  {:5.2}", library / twin)
}

fn calls_in_a_batch(job: &[u8], budget: u32) -> u32 {
    let mut calls = 1;
    loop {
        let taken = nanoseconds(solve_into, job, budget, calls) * f64::from(calls);
        if taken >= BATCH.as_nanos() as f64 {
            return calls;
        }
        calls *= 2;
    }
}

/// Nanoseconds for one of so many calls.
fn nanoseconds(call: Call, job: &[u8], budget: u32, calls: u32) -> f64 {
    let mut out = [0; FRAME];
    let begin = Instant::now();
    for _ in 0..calls {
        black_box(call(black_box(job), 1, black_box(budget), &mut out));
        black_box(&out);
    }
    begin.elapsed().as_nanos() as f64 / f64::from(calls)
}
