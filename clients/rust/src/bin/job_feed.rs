//! Writes the jobs of the feed: for each its length in four bytes, the highest
//! first, and then its bytes. The seed may be given on the command line.

use std::io::{self, BufWriter, Write};

use lowline_twin::feed;

fn main() -> Result<(), Box<dyn std::error::Error>> {
    let seed = match std::env::args().nth(1) {
        Some(text) => text.parse()?,
        None => feed::SEED,
    };
    let mut out = BufWriter::new(io::stdout().lock());
    for job in feed::jobs(seed) {
        out.write_all(&u32::try_from(job.len())?.to_be_bytes())?;
        out.write_all(&job)?;
    }
    out.flush()?;
    Ok(())
}
