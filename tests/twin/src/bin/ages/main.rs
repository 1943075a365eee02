// Compares ages and repetitions of the library with the twin's: `ages [SEED] [COUNT]`.
// A difference is printed as its words; `ages one W1 .. W13` (or W10) asks it of both again.

mod run;
mod tour;

use run::Run;
use std::process::ExitCode;
use twin::age::{age_by_formula, age_walked, releases_in_pattern, times};
use twin::library::Library;
use twin::rule::{repetition_by_formula, repetition_walked};
use twin::terms::{Frame, Question, Settings, Signal, REPETITIONS};

/// More releases than this are not walked for a single answer.
const PATIENCE: u64 = 500_000_000;

/// How many releases walking every repetition at every place would look at.
fn releases_to_walk(settings: &Settings, signal: &Signal) -> u64 {
    let of_one = |repetition| {
        let frame = Frame { slot: 1, repetition, base: 0 };
        let times = times(&Question { settings: *settings, signal: *signal, frame });
        releases_in_pattern(&times) * u64::from(repetition) * u64::from(settings.slots)
    };
    if settings.in_range() { REPETITIONS.into_iter().map(of_one).sum() } else { 0 }
}

fn show(library: u32, by_formula: u32, walked: Option<u32>) -> ExitCode {
    println!("library {library}");
    println!("twin by formula {by_formula}");
    match walked {
        Some(walked) => println!("twin by walking {walked}"),
        None => println!("twin by walking: too long to wait for"),
    }
    let agree = library == by_formula && walked.is_none_or(|walked| walked == library);
    if agree { ExitCode::SUCCESS } else { ExitCode::FAILURE }
}

fn one(mut library: Library, words: &[u32]) -> std::io::Result<ExitCode> {
    if let Ok(words) = <[u32; 13]>::try_from(words) {
        let question = Question::from_words(words);
        return Ok(show(library.age(&words)?, age_by_formula(&question), Some(age_walked(&question))));
    }
    if let Ok(words) = <[u32; 10]>::try_from(words) {
        let [a, b, c, d, e, f, g, h, i, j] = words;
        let (settings, signal) = (Settings::from_words([a, b, c, d, e]), Signal::from_words([f, g, h, i, j]));
        let short = releases_to_walk(&settings, &signal) <= PATIENCE;
        let walked = short.then(|| repetition_walked(&settings, &signal));
        return Ok(show(library.repetition(&words)?, repetition_by_formula(&settings, &signal), walked));
    }
    Ok(usage())
}

fn usage() -> ExitCode {
    eprintln!("ages [SEED] [COUNT], or ages one W1 .. W13 for an age, or ages one W1 .. W10 for a repetition");
    ExitCode::from(2)
}

fn all(library: Library, seed: u64, count: u64) -> ExitCode {
    println!("ages: seed {seed}, count {count}");
    let mut run = Run::new(library, seed);
    tour::all(&mut run, count);
    let whole = run.reached.report();
    println!("ages: {} ages, {} repetitions, {} differ", run.ages, run.repetitions, run.differ);
    if run.differ == 0 && whole { ExitCode::SUCCESS } else { ExitCode::FAILURE }
}

/// What the arguments ask for; None where they ask for nothing known.
fn asked(library: Library, arguments: &[String]) -> Option<std::io::Result<ExitCode>> {
    if arguments.first().is_some_and(|first| first == "one") {
        let words: Result<Vec<u32>, _> = arguments[1..].iter().map(|text| text.parse()).collect();
        return Some(one(library, &words.ok()?));
    }
    let numbers: Result<Vec<u64>, _> = arguments.iter().map(|text| text.parse()).collect();
    match numbers.ok()?[..] {
        [] => Some(Ok(all(library, 1, 240_000))),
        [seed] => Some(Ok(all(library, seed, 240_000))),
        [seed, count] => Some(Ok(all(library, seed, count))),
        _ => None,
    }
}

fn main() -> ExitCode {
    let arguments: Vec<String> = std::env::args().skip(1).collect();
    let done = Library::start().and_then(|library| asked(library, &arguments).unwrap_or_else(|| Ok(usage())));
    done.unwrap_or_else(|error| {
        eprintln!("ages: {error}");
        ExitCode::from(2)
    })
}
