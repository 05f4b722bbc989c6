//! The library and the twin on the same calls: the answer and every byte of the
//! buffer have to be the same.

use std::collections::BTreeMap;
use std::thread;

use lowline_host::{solve, solve_into, Answer, Stop};
use lowline_twin::{feed, host_call, job, search, system::System};

const WORKED: &[u8] = b"SZ\x01EN\x00\0\0\0\x02\0\0\0\x04EN\x01\0\0\0\x01\0\0\0\x03ZZ";

/// The buffer lies inside so many bytes, at this offset.
const ROOM: usize = 64;
const OFFSET: usize = 9;

/// What a call came to.
#[derive(Clone, Copy, Debug, PartialEq, Eq, PartialOrd, Ord)]
enum Outcome {
    Settled,
    Full,
    Budget,
    Refused(u32),
}

/// How often each outcome occurred.
type Outcomes = BTreeMap<Outcome, u64>;

/// A system whose waiting boxes are never dropped: ten wide entries, and every
/// component zero in every solution.
fn filling() -> Vec<u8> {
    let mut system = System::new(4).unwrap();
    for i in 0..4 {
        system.set(i * 5 + i, 8, 9).unwrap();
    }
    for place in [1, 2, 3, 5, 7, 8] {
        system.set(place, 0, 1).unwrap();
    }
    job::write(&system)
}

fn pattern(job: &[u8], budget: u32) -> [u8; ROOM] {
    let first = job.len() as u8 ^ budget as u8;
    std::array::from_fn(|i| first.wrapping_add(37 * i as u8))
}

/// Makes the same call of both and compares. The bytes around the buffer are
/// compared too.
fn same(job: &[u8], component: u32, budget: u32, room: usize) -> Outcome {
    let before = pattern(job, budget);
    let inside = OFFSET..OFFSET + room;
    let (mut ours, mut theirs) = (before, before);
    let answer = solve_into(job, component, budget, &mut ours[inside.clone()]);
    let expected = host_call(job, component, budget, &mut theirs[inside.clone()]);
    let call = || format!("component {component}, budget {budget}, {room} bytes: {job:02X?}");
    assert_eq!(answer, expected, "{}", call());
    assert_eq!(ours, theirs, "{}", call());
    if answer != 0 {
        assert_eq!(ours, before, "{}", call());
        return Outcome::Refused(answer);
    }
    let written = OFFSET..OFFSET + 40;
    assert_eq!(ours[..written.start], before[..written.start]);
    assert_eq!(ours[written.end..], before[written.end..]);
    match ours[written][32..] {
        [0, 0, 0, 0, 0, 0, 0, 1] => Outcome::Settled,
        [0, 0, 0, 0, 0, 0, 0, 2] => Outcome::Full,
        [0, 0, 0, 0, 0, 0, 0, 3] => Outcome::Budget,
        _ => panic!("no such stop: {}", call()),
    }
}

/// Every component, and some that are not there.
fn components(job: &[u8]) -> impl Iterator<Item = u32> {
    let size = job::read(job).map_or(1, |system| system.size() as u32);
    (0..=size + 1).chain([u32::MAX])
}

/// All components with all lengths of the buffer, for these budgets.
fn same_calls(job: &[u8], budgets: &[u32], outcomes: &mut Outcomes) {
    for component in components(job) {
        for &budget in budgets {
            for room in [0, 39, 40, 48] {
                let outcome = same(job, component, budget, room);
                *outcomes.entry(outcome).or_default() += 1;
            }
        }
    }
}

#[test]
fn every_call_is_the_same() {
    let mut outcomes = Outcomes::new();
    let mut jobs = 0;
    for seed in [feed::SEED, 2, 3] {
        for (index, job) in feed::jobs(seed).iter().enumerate() {
            same_calls(job, &[0, 1, 7], &mut outcomes);
            // The long searches, each into one buffer.
            let budgets: &[u32] = match index % 8 {
                0 => &[100, 100_000],
                _ => &[100],
            };
            let room = [40, 48][index % 2];
            for component in components(job) {
                for &budget in budgets {
                    let outcome = same(job, component, budget, room);
                    *outcomes.entry(outcome).or_default() += 1;
                }
            }
            jobs += 1;
        }
    }
    same_calls(&filling(), &[510, 511, 512, u32::MAX], &mut outcomes);
    jobs += 1;

    println!("{jobs} jobs, {} calls", outcomes.values().sum::<u64>());
    for (outcome, count) in &outcomes {
        println!("{outcome:?}: {count}");
    }
    let refusals = [1, 2, 3, 4, 5, 6, 7, 9, 10, 11, 12, 13, 14].map(Outcome::Refused);
    let stops = [Outcome::Settled, Outcome::Full, Outcome::Budget];
    let kinds: Vec<Outcome> = stops.into_iter().chain(refusals).collect();
    assert!(outcomes.keys().eq(&kinds), "{outcomes:?}");
}

#[test]
fn the_filling_job_is_full_after_511_splits() {
    let full = |splits, stop| {
        Ok(Answer {
            low: 0,
            high: 0,
            waiting: splits + 1,
            splits,
            stop,
        })
    };
    for component in 1..=4 {
        assert_eq!(solve(&filling(), component, 510), full(510, Stop::Budget));
        assert_eq!(solve(&filling(), component, 511), full(511, Stop::Full));
        assert_eq!(
            solve(&filling(), component, u32::MAX),
            full(511, Stop::Full)
        );
    }
}

#[test]
fn answers_read_from_the_bytes_are_the_same() {
    let stop = |stop| match stop {
        search::Stop::Settled => Stop::Settled,
        search::Stop::Full => Stop::Full,
        search::Stop::Budget => Stop::Budget,
    };
    for job in feed::jobs(feed::SEED).iter().step_by(3) {
        let expected = lowline_twin::solve(job, 1, 20).map(|answer| Answer {
            low: answer.low,
            high: answer.high,
            waiting: answer.waiting,
            splits: answer.splits,
            stop: stop(answer.stop),
        });
        assert_eq!(solve(job, 1, 20), expected, "{job:02X?}");
    }
}

#[test]
fn every_beginning_and_every_changed_byte() {
    let mut outcomes = Outcomes::new();
    for length in 0..=WORKED.len() {
        same_calls(&WORKED[..length], &[0, 100], &mut outcomes);
    }
    for place in 0..WORKED.len() {
        for byte in 0..=255 {
            let mut job = WORKED.to_vec();
            job[place] = byte;
            same(&job, 1, 100, 40);
        }
    }
    assert!(outcomes.contains_key(&Outcome::Settled));
    assert!(outcomes.contains_key(&Outcome::Refused(9)));
}

#[test]
fn calls_from_several_threads() {
    thread::scope(|scope| {
        for start in 0..4 {
            scope.spawn(move || {
                for job in feed::jobs(feed::SEED).iter().skip(start).step_by(9) {
                    same(job, 1, 50, 40);
                }
            });
        }
    });
}
