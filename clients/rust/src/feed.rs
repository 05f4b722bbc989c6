//! Jobs for comparing two programs: the same ones for the same seed.

use crate::job;
use crate::system::{System, MAX_END, MAX_SIZE};

/// The seed that the programs use where none is given.
pub const SEED: u64 = 1;

/// About three thousand jobs, good and bad.
pub fn jobs(seed: u64) -> Vec<Vec<u8>> {
    let mut feed = Feed {
        random: Random(seed),
        jobs: Vec::new(),
    };
    feed.blank();
    feed.accepted_often();
    feed.any_systems();
    feed.bad_records();
    feed.beginnings();
    feed.changed_bytes();
    feed.random_bytes();
    feed.extra_bytes();
    feed.jobs
}

struct Feed {
    random: Random,
    jobs: Vec<Vec<u8>>,
}

impl Feed {
    fn system(&mut self, system: &System) {
        self.jobs.push(job::write(system));
    }

    fn blank(&mut self) {
        for size in 1..=MAX_SIZE {
            self.system(&blank(size));
        }
    }

    /// Diagonals that outweigh their rows, with no wide entry up to all wide.
    fn accepted_often(&mut self) {
        for size in 1..=MAX_SIZE {
            for round in 0..140 {
                let share = [0, 5, 10, 20, 35, 60, 100][round % 7];
                let scale = [1, 3, 10, 400, 5000][round % 5];
                let density = [30, 70, 100][round % 3];
                let system = self.random.dominant(size, share, scale, density);
                self.system(&system);
            }
        }
    }

    /// Systems without any order, small and large: many have no answer.
    fn any_systems(&mut self) {
        for size in 1..=MAX_SIZE {
            for round in 0..60 {
                let reach = [2, 9, 400, MAX_END][round % 4];
                let share = [0, 20, 100][round % 3];
                let system = self.random.any(size, share, reach);
                self.system(&system);
            }
        }
    }

    /// Every check of the reader, at a random record of a good job.
    fn bad_records(&mut self) {
        for round in 0..400 {
            let system = self.random.good();
            let job = bad_record(&mut self.random, &system, round % 12);
            self.jobs.push(job);
        }
    }

    fn beginnings(&mut self) {
        for size in 1..=3 {
            let system = self.random.dominant(size, 50, 3, 100);
            let job = job::write(&system);
            self.jobs.extend((0..job.len()).map(|n| job[..n].to_vec()));
        }
        for _ in 0..40 {
            let mut job = job::write(&self.random.good());
            job.truncate(self.random.below(job.len() as u64) as usize);
            self.jobs.push(job);
        }
    }

    fn changed_bytes(&mut self) {
        let mut worked = blank(1);
        put(&mut worked, 0, 2, 4);
        put(&mut worked, 1, 1, 3);
        let worked = job::write(&worked);
        for place in 0..worked.len() {
            for value in [0, 1, 2, 0x45, 0x5A, 0x7F, 0x80, 0xFF] {
                let mut job = worked.clone();
                job[place] = value;
                self.jobs.push(job);
            }
        }
        for _ in 0..350 {
            let mut job = job::write(&self.random.good());
            let place = self.random.below(job.len() as u64) as usize;
            job[place] = self.random.byte();
            self.jobs.push(job);
        }
    }

    fn random_bytes(&mut self) {
        for round in 0..120 {
            let length = self.random.below(80) as usize;
            let mut job = match round % 4 {
                0 => Vec::new(),
                1 => b"SZ".to_vec(),
                2 => b"SZ\x02".to_vec(),
                _ => b"SZ\x03EN".to_vec(),
            };
            job.extend(self.random.bytes(length));
            self.jobs.push(job);
        }
    }

    fn extra_bytes(&mut self) {
        for round in 0..120 {
            let mut job = job::write(&self.random.good());
            let extra = match round % 4 {
                0 => 1,
                1 => 1 + self.random.below(60) as usize,
                // Just below, at or just above what the program looks at.
                2 => (508 - job.len()) + self.random.below(9) as usize,
                _ => 513 + self.random.below(2000) as usize,
            };
            let more = self.random.bytes(extra);
            job.extend(more);
            self.jobs.push(job);
        }
        for length in [511, 512, 513, 600, 4000] {
            let job = self.random.bytes(length);
            self.jobs.push(job);
        }
        // A good job, and the end mark on both sides of the limit.
        let largest = job::write(&self.random.dominant(MAX_SIZE, 100, 10, 100));
        for length in [468, 510, 511, 512, 513, 514] {
            let mut job = largest.clone();
            job.resize(length, b'Z');
            self.jobs.push(job);
        }
    }
}

/// A good job with one record replaced by, or followed by, one that is refused.
fn bad_record(random: &mut Random, system: &System, kind: usize) -> Vec<u8> {
    let places = system.places() as u64;
    let mut job = job::write(system);
    job.truncate(job.len() - 2);
    let records = (job.len() - 3) / 11;
    let kept = random.below(records as u64 + 1) as usize;
    job.truncate(3 + 11 * kept);
    let next = match kept {
        0 => 0,
        _ => u64::from(job[job.len() - 9]) + 1,
    };
    let place = (next + random.below((places - next).max(1))) as u8;
    match kind {
        0 => job[2] = [0, 7, 8, 0x53, 0xFF][random.below(5) as usize],
        1 => job.extend(record((places + random.below(256 - places)) as u8, 1, 2)),
        2 => job.extend(record(place, 65_537, 3)),
        3 => job.extend(record(place, -65_537, i32::MAX)),
        4 => job.extend(record(place, 1 + random.below(9) as i32, 0)),
        5 => job.extend(record(place, 0, 0)),
        6 => job.extend(record(random.below(next.max(1)) as u8, -1, 1)),
        7 => job.extend(random.bytes(2)),
        8 => job.extend(b"SZ\x01"),
        9 => job[random.below(2) as usize] = random.byte(),
        10 => return [b"EN", &job[..]].concat(),
        // Several faults in one record.
        _ => {
            let low = random.end(200_000);
            let high = random.end(200_000);
            job.extend(record(random.byte() % 50, low, high));
        }
    }
    job.extend(b"ZZ");
    job
}

fn record(place: u8, low: i32, high: i32) -> Vec<u8> {
    let (low, high) = (low.to_be_bytes(), high.to_be_bytes());
    [b"EN", &[place][..], &low, &high].concat()
}

fn blank(size: usize) -> System {
    System::new(size).expect("the size is from 1 to 6")
}

fn put(system: &mut System, place: usize, low: i32, high: i32) {
    system
        .set(place, low, high)
        .expect("the place is there and the ends are in order and range");
}

/// SplitMix64.
struct Random(u64);

impl Random {
    fn next(&mut self) -> u64 {
        self.0 = self.0.wrapping_add(0x9E37_79B9_7F4A_7C15);
        let mut z = self.0;
        z = (z ^ (z >> 30)).wrapping_mul(0xBF58_476D_1CE4_E5B9);
        z = (z ^ (z >> 27)).wrapping_mul(0x94D0_49BB_1331_11EB);
        z ^ (z >> 31)
    }

    fn below(&mut self, bound: u64) -> u64 {
        self.next() % bound
    }

    fn byte(&mut self) -> u8 {
        self.next() as u8
    }

    fn bytes(&mut self, length: usize) -> Vec<u8> {
        (0..length).map(|_| self.byte()).collect()
    }

    fn percent(&mut self, share: u64) -> bool {
        self.below(100) < share
    }

    /// From -reach to reach.
    fn end(&mut self, reach: i32) -> i32 {
        self.below(2 * reach as u64 + 1) as i32 - reach
    }

    /// Some system that is mostly accepted.
    fn good(&mut self) -> System {
        let size = 1 + self.below(MAX_SIZE as u64) as usize;
        let share = self.below(60);
        self.dominant(size, share, 4, 80)
    }

    /// `share` percent of the entries are wide and `density` percent not zero.
    fn dominant(&mut self, size: usize, share: u64, scale: i32, density: u64) -> System {
        // A diagonal entry is below 21 times the scale, also at size 6.
        let scale = scale.min(MAX_END / 21);
        let mut system = blank(size);
        for i in 0..size {
            let mut weight = 0;
            for j in 0..=size {
                let place = i * (size + 1) + j;
                if j != i && self.percent(density) {
                    let width = self.width(share, scale);
                    let low = self.end(2 * scale);
                    let high = low + width;
                    if j < size {
                        weight += low.abs().max(high.abs());
                    }
                    put(&mut system, place, low, high);
                }
            }
            let low = weight + 1 + self.below(4 * scale as u64) as i32;
            let high = low + self.width(share, scale);
            if self.percent(70) {
                put(&mut system, i * (size + 1) + i, low, high);
            } else {
                put(&mut system, i * (size + 1) + i, -high, -low);
            }
        }
        system
    }

    fn any(&mut self, size: usize, share: u64, reach: i32) -> System {
        let mut system = blank(size);
        for place in 0..system.places() {
            let low = self.end(reach);
            let high = (low + self.width(share, reach)).min(MAX_END);
            put(&mut system, place, low, high);
        }
        system
    }

    fn width(&mut self, share: u64, scale: i32) -> i32 {
        if self.percent(share) {
            1 + self.below(scale as u64) as i32
        } else {
            0
        }
    }
}

#[cfg(test)]
mod tests {
    use super::*;
    use crate::lines;

    #[test]
    fn the_feed_has_every_kind_of_job() {
        let jobs = jobs(SEED);
        assert!((2500..=3500).contains(&jobs.len()), "{}", jobs.len());
        for number in [1, 2, 3, 4, 9, 10, 11, 12, 13] {
            let refusals = jobs
                .iter()
                .filter_map(|job| job::read(job).err())
                .filter(|refusal| refusal.number() == number);
            assert!(refusals.count() >= 20, "refusal {number}");
        }
        assert!(jobs.iter().any(|job| job.len() > 512));
    }

    #[test]
    fn the_feed_has_every_outcome() {
        let texts: Vec<String> = jobs(SEED).iter().step_by(5).map(|j| lines(j)).collect();
        for ending in [" settled", " budget", " refused 6", " refused 7"] {
            let found = texts.iter().flat_map(|t| t.lines());
            let count = found.filter(|line| line.ends_with(ending)).count();
            assert!(count >= 20, "{count} lines with{ending}");
        }
    }

    #[test]
    fn the_same_seed_gives_the_same_jobs() {
        assert_eq!(jobs(7), jobs(7));
        assert_ne!(jobs(7), jobs(8));
    }
}
