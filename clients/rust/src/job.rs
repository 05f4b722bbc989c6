//! Systems as bytes.
//!
//! A size record, entry records by rising place, an end record. Entries that
//! are zero have no record.

use crate::refusal::Refusal;
use crate::system::{Entry, System};

const SIZE_MARK: [u8; 2] = *b"SZ";
const ENTRY_MARK: [u8; 2] = *b"EN";
const END_MARK: [u8; 2] = *b"ZZ";

/// Reads a whole job.
pub fn read(job: &[u8]) -> Result<System, Refusal> {
    let mut rest = job;
    let mut system = read_size(&mut rest)?;
    let mut last_place = None;
    loop {
        match take(&mut rest)? {
            ENTRY_MARK => last_place = Some(read_entry(&mut rest, &mut system, last_place)?),
            END_MARK if rest.is_empty() => return Ok(system),
            END_MARK => return Err(Refusal::BytesAfterEnd),
            _ => return Err(Refusal::MarkNotAllowed),
        }
    }
}

fn read_size(rest: &mut &[u8]) -> Result<System, Refusal> {
    if take(rest)? != SIZE_MARK {
        return Err(Refusal::MarkNotAllowed);
    }
    let [size] = take(rest)?;
    System::new(usize::from(size))
}

/// Reads what follows an entry mark and answers the entry's place.
fn read_entry(
    rest: &mut &[u8],
    system: &mut System,
    last_place: Option<usize>,
) -> Result<usize, Refusal> {
    let [place, l0, l1, l2, l3, h0, h1, h2, h3] = take(rest)?;
    let place = usize::from(place);
    if place >= system.places() {
        return Err(Refusal::PlaceOutOfRange);
    }
    if last_place.is_some_and(|last| place <= last) {
        return Err(Refusal::PlaceNotRising);
    }
    let low = i32::from_be_bytes([l0, l1, l2, l3]);
    let high = i32::from_be_bytes([h0, h1, h2, h3]);
    system.set(place, low, high)?;
    if low == 0 && high == 0 {
        return Err(Refusal::EntryIsZero);
    }
    Ok(place)
}

/// Takes the next N bytes.
fn take<const N: usize>(rest: &mut &[u8]) -> Result<[u8; N], Refusal> {
    let (bytes, after) = rest.split_first_chunk().ok_or(Refusal::JobEndsEarly)?;
    *rest = after;
    Ok(*bytes)
}

/// The one job of a system.
pub fn write(system: &System) -> Vec<u8> {
    let mut job = Vec::new();
    job.extend(SIZE_MARK);
    job.push(system.size() as u8);
    for (place, entry) in (0u8..).zip(system.entries()) {
        if *entry != Entry::ZERO {
            job.extend(ENTRY_MARK);
            job.push(place);
            job.extend(entry.low().to_be_bytes());
            job.extend(entry.high().to_be_bytes());
        }
    }
    job.extend(END_MARK);
    job
}

#[cfg(test)]
mod tests {
    use super::*;

    const WORKED: &[u8] = b"SZ\x01EN\x00\0\0\0\x02\0\0\0\x04EN\x01\0\0\0\x01\0\0\0\x03ZZ";

    fn refused(job: &[u8], number: u32) {
        let answer = read(job).map_err(Refusal::number);
        assert_eq!(answer, Err(number), "{job:02X?}");
    }

    #[test]
    fn the_worked_job_is_read_and_written() {
        let mut system = System::new(1).unwrap();
        system.set(0, 2, 4).unwrap();
        system.set(1, 1, 3).unwrap();
        assert_eq!(read(WORKED), Ok(system));
        assert_eq!(write(&system), WORKED);
    }

    #[test]
    fn every_shorter_beginning_ends_early() {
        for length in 0..WORKED.len() {
            refused(&WORKED[..length], 9);
        }
    }

    #[test]
    fn each_refusal() {
        refused(b"SZ\x00ZZ", 1);
        refused(b"SZ\x07ZZ", 1);
        refused(b"ZZ", 10);
        refused(b"SZ\x01", 9);
        refused(b"SZ\x01SZ\x01ZZ", 10);
        refused(b"SZ\x01EN\x02\0\0\0\x02\0\0\0\x04ZZ", 2);
        refused(b"SZ\x01EN\x00\x80\0\0\0\0\0\0\x04ZZ", 3);
        refused(b"SZ\x01EN\x00\0\0\0\x02\xFF\xFF\xFF\xFFZZ", 4);
        refused(
            b"SZ\x01EN\x00\0\0\0\x02\0\0\0\x04EN\x00\0\0\0\x02\0\0\0\x04ZZ",
            11,
        );
        refused(b"SZ\x01EN\x00\0\0\0\0\0\0\0\0ZZ", 12);
        refused(b"SZ\x01ZZ\x00", 13);
    }

    #[test]
    fn the_first_failing_check_decides() {
        // A wrong mark comes before a record that is cut short.
        refused(b"XX", 10);
        refused(b"SZ\x01XX", 10);
        refused(b"SZ\x01EN\x09", 9);
        // Size before what follows it.
        refused(b"SZ\x09XX", 1);
        // Place, then rising, then range, then order, then zero.
        refused(b"SZ\x01EN\x02\x7F\0\0\0\0\0\0\0ZZ", 2);
        refused(
            b"SZ\x01EN\x01\0\0\0\x01\0\0\0\x01EN\x02\0\0\0\0\0\0\0\0ZZ",
            2,
        );
        refused(
            b"SZ\x01EN\x01\0\0\0\x01\0\0\0\x01EN\x00\x7F\0\0\0\0\0\0\0ZZ",
            11,
        );
        refused(
            b"SZ\x01EN\x01\0\0\0\x01\0\0\0\x01EN\x01\0\0\0\0\0\0\0\0ZZ",
            11,
        );
        refused(b"SZ\x01EN\x00\x7F\0\0\0\0\0\0\0ZZ", 3);
        refused(b"SZ\x01EN\x00\0\0\0\x01\0\0\0\0ZZ", 4);
        // A second end mark is only bytes after the end.
        refused(b"SZ\x01ZZZZ", 13);
    }

    #[test]
    fn the_limits_are_read() {
        assert_eq!(read(b"SZ\x01ZZ"), System::new(1));
        assert_eq!(read(b"SZ\x06ZZ"), System::new(6));
        let ends = b"SZ\x06EN\x29\xFF\xFF\0\0\0\x01\0\0ZZ";
        assert_eq!(
            read(ends).unwrap().entries()[41],
            Entry::new(-65_536, 65_536).unwrap()
        );
        refused(b"SZ\x06EN\x2A\xFF\xFF\0\0\0\x01\0\0ZZ", 2);
        refused(b"SZ\x06EN\x29\xFF\xFF\0\0\0\x01\0\x01ZZ", 3);
        refused(b"SZ\x06EN\x29\xFF\xFE\xFF\xFF\0\x01\0\0ZZ", 3);

        let mut largest = System::new(6).unwrap();
        for place in 0..42 {
            largest.set(place, -1, place as i32).unwrap();
        }
        let job = write(&largest);
        assert_eq!(job.len(), 467);
        assert_eq!(read(&job), Ok(largest));
    }
}
