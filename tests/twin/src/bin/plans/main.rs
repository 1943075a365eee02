// Compares plans of the library with the twin's: `plans [--lists] [SEED] [COUNT]`; with --lists no books are planned.
// A difference is kept as a file; `plans one FILE [BYTES]` and `plans list FILE CELLS RESULTS` ask it of both again.

mod books;
mod compare;
mod faults;
mod kinds;
mod run;
mod tour;

use compare::Compared;
use run::{needed, Run};
use std::io::{Error, Result};
use std::process::ExitCode;
use twin::book;
use twin::damage;
use twin::library::{words_of, Library};
use twin::random::Random;
use twin::terms::Settings;

const COUNT: u64 = 1_500;
/// The stack of `noctelvia_plan` stays below this many bytes.
const STACK: u64 = 128 * 1_024;

fn all(library: Library, seed: u64, count: u64, with_books: bool) -> ExitCode {
    println!("plans: seed {seed}, count {count}{}", if with_books { "" } else { ", lists alone" });
    let mut run = Run::new(library, seed, with_books);
    tour::all(&mut run, count);
    let whole = run.reached.report();
    let shallow = !with_books || stays_below(&mut run.library, STACK);
    let Run { lists, books, walked, searched, differ, .. } = run;
    println!("plans: {lists} lists, {books} books, {walked} ages walked, {searched} lists searched, {differ} differ");
    if differ == 0 && whole && shallow { ExitCode::SUCCESS } else { ExitCode::FAILURE }
}

/// Whether planning the books took stack, and less than the limit.
fn stays_below(library: &mut Library, limit: u64) -> bool {
    let deepest = library.deepest().unwrap_or(u64::MAX);
    let below = (1..limit).contains(&deepest);
    println!("  {}: {deepest} bytes of {limit}", if below { "stack" } else { "STACK NOT BELOW ITS LIMIT" });
    below
}

/// Prints what the twin answers and what differs from it; whether nothing does.
fn show(what: &str, Compared { answer, differences, .. }: Compared) -> bool {
    println!("{what}, twin: {answer}");
    for difference in &differences {
        println!("{what}, DIFFERS {difference}");
    }
    if differences.is_empty() {
        println!("{what}, library: the same");
    }
    differences.is_empty()
}

/// Plans settings and list of a file again: those of its book or, where it holds none, its words.
fn list(library: &mut Library, bytes: &[u8], rooms: Option<(usize, usize)>) -> Result<bool> {
    let reading = book::read(bytes, usize::MAX);
    let words = words_of(bytes);
    let (settings, list) = match words.split_first_chunk::<5>() {
        _ if reading.answer.number == 0 => (reading.settings, &reading.list[..]),
        Some((settings, list)) => (*settings, list),
        None => return Err(Error::other("the file holds no book, and no five settings with a list behind them")),
    };
    let settings = Settings::from_words(settings);
    let (cells, results) = rooms.unwrap_or(needed(&settings, list));
    let mut random = Random::new(1);
    let (cells, results) = (damage::words(&mut random, cells), damage::words(&mut random, results));
    Ok(show("list", compare::list(library, &settings, list, &cells, &results)?))
}

/// Plans the book of a file again, and the list in it, each in exactly the room it needs if none is given.
fn one(mut library: Library, bytes: &[u8], result_bytes: Option<usize>) -> Result<ExitCode> {
    let signals = book::judged(bytes);
    let mut agree = Vec::new();
    if signals.is_ok() && library.has_plan_list()? {
        agree.push(list(&mut library, bytes, None)?);
    }
    if library.has_plan()? {
        let room = damage::bytes(&mut Random::new(1), result_bytes.unwrap_or(16 * signals.unwrap_or(0)));
        agree.push(show("book", compare::book(&mut library, bytes, &room)?));
    } else {
        println!("book: noctelvia_plan is not in the library");
    }
    match agree[..] {
        [] => Err(Error::other("the library has no call that plans this file")),
        _ => Ok(if agree.contains(&false) { ExitCode::FAILURE } else { ExitCode::SUCCESS }),
    }
}

fn usage() -> ExitCode {
    eprintln!("plans [--lists] [SEED] [COUNT], or plans one FILE [BYTES], or plans list FILE CELLS RESULTS");
    ExitCode::from(2)
}

/// An error where the library lacks a call that is to be compared.
fn must_have(library: &mut Library, with_books: bool) -> Result<()> {
    if !library.has_plan_list()? {
        return Err(Error::other("noctelvia_plan_list is not in the library"));
    }
    if with_books && !library.has_plan()? {
        return Err(Error::other("noctelvia_plan is not in the library; --lists does without"));
    }
    Ok(())
}

fn number(text: &str) -> Option<u64> {
    text.parse().ok()
}

fn run_all(mut library: Library, arguments: &[&str], with_books: bool) -> Option<Result<ExitCode>> {
    let (seed, count) = match *arguments {
        [] => (1, COUNT),
        [seed] => (number(seed)?, COUNT),
        [seed, count] => (number(seed)?, number(count)?),
        _ => return None,
    };
    Some(must_have(&mut library, with_books).map(|()| all(library, seed, count, with_books)))
}

/// What the arguments ask for; None where they ask for nothing known.
fn asked(mut library: Library, arguments: &[&str]) -> Option<Result<ExitCode>> {
    let again = |path: &str| std::fs::read(path);
    match *arguments {
        ["one", path] => Some(again(path).and_then(|bytes| one(library, &bytes, None))),
        ["one", path, room] => {
            let room = number(room)? as usize;
            Some(again(path).and_then(|bytes| one(library, &bytes, Some(room))))
        }
        ["list", path, cells, results] => {
            let rooms = (number(cells)? as usize, number(results)? as usize);
            let agree = again(path).and_then(|bytes| list(&mut library, &bytes, Some(rooms)));
            Some(agree.map(|agree| if agree { ExitCode::SUCCESS } else { ExitCode::FAILURE }))
        }
        ["--lists", ref rest @ ..] => run_all(library, rest, false),
        ref rest => run_all(library, rest, true),
    }
}

fn main() -> ExitCode {
    let arguments: Vec<String> = std::env::args().skip(1).collect();
    let words: Vec<&str> = arguments.iter().map(String::as_str).collect();
    let done = Library::start().and_then(|library| asked(library, &words).unwrap_or_else(|| Ok(usage())));
    done.unwrap_or_else(|error| {
        eprintln!("plans: {error}");
        ExitCode::from(2)
    })
}
