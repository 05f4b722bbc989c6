//! Nanoseconds for a split of a system of six rows with every entry wide: the
//! best of some batches, with the program's budget and with no limit.

use std::hint::black_box;
use std::time::Instant;

use lowline_twin::system::System;
use lowline_twin::{job, solve, solve_system};

const BATCHES: u32 = 10;
const ROUNDS: u32 = 50;

fn main() {
    let system = all_wide();
    for budget in [100, u32::MAX] {
        let best = (0..BATCHES)
            .map(|_| nanoseconds_per_split(&system, budget))
            .fold(f64::INFINITY, f64::min);
        println!("budget {budget}: {best:.0} ns for a split");
    }
    let answer = solve(&job::write(&system), 1, u32::MAX).expect("it is accepted");
    println!("{answer:?}");
}

fn nanoseconds_per_split(system: &System, budget: u32) -> f64 {
    let mut splits = 0;
    let begin = Instant::now();
    for _ in 0..ROUNDS {
        let answer = solve_system(black_box(system), 1, budget).expect("it is accepted");
        splits += black_box(answer).splits;
    }
    begin.elapsed().as_nanos() as f64 / splits as f64
}

fn all_wide() -> System {
    let mut system = System::new(6).expect("six rows are allowed");
    for place in 0..system.places() {
        let (row, column) = (place / 7, place % 7);
        let shift = (place * 5 % 7) as i32;
        let (low, high) = match column {
            6 => (shift - 3, shift + 4),
            _ if column == row => (60 + shift, 70 + 2 * shift),
            _ => (shift - 5, shift),
        };
        system.set(place, low, high).expect("the ends are in order");
    }
    system
}
