//! Document 01's program over the reference. tests/program/run holds the proved one to it.

use reference::program::{output, MOST_INPUT};
use std::io::{stdin, stdout, Read, Result, Write};

fn main() -> Result<()> {
    let mut input = Vec::new();
    // A byte more than the longest input that is not malformed settles it, whatever follows. What cannot be read is malformed as well.
    if stdin().take(MOST_INPUT as u64 + 1).read_to_end(&mut input).is_err() {
        input.clear();
    }
    stdout().write_all(output(&input).as_bytes())
}
