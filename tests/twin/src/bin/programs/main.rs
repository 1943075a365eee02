// Compares the planning program with the twin, book by book: `programs [SEED] [COUNT]`; a seed brings a run back.
// NOCTELVIA_PROGRAM may name another program. `programs one FILE [CUT ..]` asks a kept book again.

mod run;
mod start;
mod tour;

use run::{Found, Run};
use std::env;
use std::io::Result;
use std::path::Path;
use std::process::ExitCode;
use std::thread;
use twin::kit::{self, beside_program};

const COUNT: u64 = 30_000;

/// Shares the books out among as many threads as there are processors.
fn compare(program: &Path, seed: u64, count: u64) -> Run<'_> {
    let threads = thread::available_parallelism().map_or(1, |threads| threads.get() as u64);
    let mut whole = Run::new(program, count);
    tour::named(&mut whole);
    thread::scope(|scope| {
        let share = |first| {
            let mut run = Run::new(program, count);
            scope.spawn(move || {
                (first..count).step_by(threads as usize).for_each(|index| run.drawn(seed, index));
                run
            })
        };
        let shares: Vec<_> = (0..threads).map(share).collect();
        for share in shares {
            whole.add(share.join().expect("no thread panics"));
        }
    });
    whole
}

/// Keeps the books that were found, and says how to ask them again.
fn keep(found: &[Found]) {
    for (at, Found { name, what, book, cuts }) in found.iter().enumerate() {
        let path = beside_program(&format!("differs-program-{}.book", at + 1));
        let cuts: String = cuts.iter().map(|cut| format!(" {cut}")).collect();
        match path.and_then(|path| std::fs::write(&path, book).map(|()| path)) {
            Ok(path) => println!("DIFFERS {name}: {what}; again with: programs one {}{cuts}", path.display()),
            Err(error) => println!("DIFFERS {name}: {what}; it could not be kept: {error}"),
        }
    }
}

fn all(seed: u64, count: u64) -> Result<ExitCode> {
    println!("programs: seed {seed}, count {count}");
    let program = kit::program()?;
    let run = compare(&program, seed, count);
    // Both are reported, whatever the first says.
    let reached = [run.numbers.report(), run.kinds.report()];
    keep(&run.found);
    println!("programs: {} books through the program, {} differ", run.books, run.differ);
    let well = reached == [true, true] && run.differ == 0;
    Ok(if well { ExitCode::SUCCESS } else { ExitCode::FAILURE })
}

/// Asks the book of a file again, in pieces with pauses where cuts are given.
fn one(path: &str, cuts: &[usize]) -> Result<ExitCode> {
    let book = std::fs::read(path)?;
    let program = kit::program()?;
    let mut run = Run::new(&program, 0);
    run.book(path, &book, cuts, !cuts.is_empty());
    println!("{}", run.found.first().map_or("the same", |found| &found.what));
    Ok(if run.differ == 0 { ExitCode::SUCCESS } else { ExitCode::FAILURE })
}

/// What the arguments ask for; None where they ask for nothing known.
fn asked(arguments: &[&str]) -> Option<Result<ExitCode>> {
    let number = |text: &str| text.parse::<u64>().ok();
    match *arguments {
        ["one", path, ref cuts @ ..] => {
            let cuts: Option<Vec<usize>> = cuts.iter().map(|cut| cut.parse().ok()).collect();
            Some(one(path, &cuts?))
        }
        [] => Some(all(1, COUNT)),
        [seed] => Some(all(number(seed)?, COUNT)),
        [seed, count] => Some(all(number(seed)?, number(count)?)),
        _ => None,
    }
}

fn main() -> ExitCode {
    let arguments: Vec<String> = env::args().skip(1).collect();
    let words: Vec<&str> = arguments.iter().map(String::as_str).collect();
    let done = asked(&words).unwrap_or_else(|| {
        eprintln!("programs [SEED] [COUNT], or programs one FILE [CUT ..]");
        Ok(ExitCode::from(2))
    });
    done.unwrap_or_else(|error| {
        eprintln!("programs: {error}");
        ExitCode::from(2)
    })
}
