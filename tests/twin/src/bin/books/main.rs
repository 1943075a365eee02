// Compares reading, writing and parts of books with the twin's: `books [SEED] [COUNT]`.
// A difference is kept as a file; `books one FILE ROOM` and `books write FILE ROOM` ask it of both again.

mod compare;
mod run;
mod tour;

use run::Run;
use std::io::Result;
use std::process::ExitCode;
use twin::library::{Asked, Library};
use twin::random::Random;
use twin::terms::Answer;
use twin::{book, damage};

const COUNT: u64 = 20_000;

fn all(library: Library, seed: u64, count: u64) -> ExitCode {
    println!("books: seed {seed}, count {count}");
    let mut run = Run::new(library, seed);
    tour::all(&mut run, count);
    let whole = run.reached.report();
    let Run { readings, writings, settings, parts, differ, .. } = run;
    println!("books: {readings} readings, {writings} writings, {settings} settings, {parts} parts, {differ} differ");
    if differ == 0 && whole { ExitCode::SUCCESS } else { ExitCode::FAILURE }
}

/// Prints what the twin answers and what differs from it.
fn show(twin: Answer, differences: &[String]) -> ExitCode {
    println!("twin: {twin}");
    for difference in differences {
        println!("DIFFERS {difference}");
    }
    if differences.is_empty() {
        println!("library: the same");
        return ExitCode::SUCCESS;
    }
    ExitCode::FAILURE
}

/// Reads the book of a file again, with a list of so many words, and asks for every setting and signal.
fn one(mut library: Library, path: &str, list_words: usize) -> Result<ExitCode> {
    let bytes = std::fs::read(path)?;
    let list = damage::words(&mut Random::new(1), list_words);
    let asked = Asked { settings: (0..=128).collect(), parts: (0..=700).chain([u32::MAX]).collect() };
    let differences = compare::reading(&mut library, &bytes, &list, &asked)?;
    Ok(show(book::read(&bytes, list_words).answer, &differences))
}

/// Writes the settings and the list of a file again, into room of so many bytes.
fn write(mut library: Library, path: &str, room_bytes: usize) -> Result<ExitCode> {
    let kept = std::fs::read(path)?;
    let words: Vec<u32> = kept.chunks_exact(4).map(|b| u32::from_le_bytes([b[0], b[1], b[2], b[3]])).collect();
    let Some((settings, list)) = words.split_first_chunk::<5>() else {
        return Err(std::io::Error::other("the file holds five settings, then the list, as little-endian words"));
    };
    let room = damage::bytes(&mut Random::new(1), room_bytes);
    let differences = compare::writing(&mut library, settings, list, &room)?;
    Ok(show(book::write(settings, list, room_bytes).0, &differences))
}

fn usage() -> ExitCode {
    eprintln!("books [SEED] [COUNT], or books one FILE LIST_WORDS, or books write FILE ROOM_BYTES");
    ExitCode::from(2)
}

/// What the arguments ask for; None where they ask for nothing known.
fn asked(library: Library, arguments: &[&str]) -> Option<Result<ExitCode>> {
    let number = |text: &str| text.parse::<u64>().ok();
    match *arguments {
        ["one", path, room] => Some(one(library, path, number(room)? as usize)),
        ["write", path, room] => Some(write(library, path, number(room)? as usize)),
        [] => Some(Ok(all(library, 1, COUNT))),
        [seed] => Some(Ok(all(library, number(seed)?, COUNT))),
        [seed, count] => Some(Ok(all(library, number(seed)?, number(count)?))),
        _ => None,
    }
}

fn main() -> ExitCode {
    let arguments: Vec<String> = std::env::args().skip(1).collect();
    let words: Vec<&str> = arguments.iter().map(String::as_str).collect();
    let done = Library::start().and_then(|library| asked(library, &words).unwrap_or_else(|| Ok(usage())));
    done.unwrap_or_else(|error| {
        eprintln!("books: {error}");
        ExitCode::from(2)
    })
}
