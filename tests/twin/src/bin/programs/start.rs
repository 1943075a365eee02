// Starts the program on one book and gathers what it writes. The book goes in by one write or in pieces.
// The program need not read to the end: one byte past the longest book is enough to refuse it.

use std::io::{ErrorKind, Result, Write};
use std::path::Path;
use std::thread::sleep;
use std::time::Duration;
use twin::kit::command;

/// What the program wrote, and whether it ended well.
pub struct Wrote {
    pub output: Vec<u8>,
    pub error: Vec<u8>,
    pub ended_well: bool,
}

/// The parts of the bytes between the cuts, which rise.
fn pieces<'a>(bytes: &'a [u8], cuts: &[usize]) -> Vec<&'a [u8]> {
    let ends = cuts.iter().copied().chain([bytes.len()]);
    let mut from = 0;
    ends.map(|end| &bytes[std::mem::replace(&mut from, end)..end]).collect()
}

/// Long enough for the program to read what is there and to wait for more.
const PAUSE: Duration = Duration::from_millis(20);

pub fn plan(program: &Path, bytes: &[u8], cuts: &[usize], paused: bool) -> Result<Wrote> {
    let mut process = command(program).spawn()?;
    let mut input = process.stdin.take().ok_or_else(|| std::io::Error::other("the program has no pipe"))?;
    for piece in pieces(bytes, cuts) {
        match input.write_all(piece) {
            Err(error) if error.kind() == ErrorKind::BrokenPipe => break,
            written => written?,
        }
        if paused {
            sleep(PAUSE);
        }
    }
    drop(input);
    let done = process.wait_with_output()?;
    Ok(Wrote { output: done.stdout, error: done.stderr, ended_well: done.status.success() })
}
