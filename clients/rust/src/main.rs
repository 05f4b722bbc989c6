use std::io::{self, Read, Write};

use lowline_twin::{lines, INPUT_BYTES};

fn main() -> io::Result<()> {
    let mut input = Vec::with_capacity(INPUT_BYTES);
    io::stdin()
        .lock()
        .take(INPUT_BYTES as u64)
        .read_to_end(&mut input)?;
    io::stdout().lock().write_all(lines(&input).as_bytes())
}
