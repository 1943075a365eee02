// The whole way, a book in and a plan out: `noctelvia_plan` and the program, each against the twin's.
// `whole books FOLDER` writes the books that are measured; `whole library|twin|nothing BOOK` plans one once, to be counted;
// `whole program` is the twin's program, a book in and lines out; `whole times FOLDER PROGRAM ROUNDS` takes the times.

use std::fs::{self, File};
use std::hint::black_box;
use std::io::{Read, Result, Write};
use std::path::Path;
use std::process::{Command, Stdio};
use std::time::{Duration, Instant};
use twin::book::{self, BLOCK_BYTES, MOST_BLOCKS};
use twin::random::Random;
use twin::terms::{Answer, Settings, Signal, MOST_SIGNALS};
use twin::{lists, plan, program};

extern "C" {
    fn noctelvia_plan(book: *const u8, book_bytes: usize, results: *mut u8, result_bytes: usize) -> u64;
}

const ROOM: usize = 16 * MOST_SIGNALS;
/// One plan of a small book takes microseconds, so one timed run plans it many times over.
const TIMES: u32 = 20;

fn by_library(bytes: &[u8]) -> (Answer, Vec<u8>) {
    let mut results = vec![0; ROOM];
    // Safety: each pointer is lent with the length of its own slice, and the two do not overlap.
    let answer = unsafe { noctelvia_plan(bytes.as_ptr(), bytes.len(), results.as_mut_ptr(), results.len()) };
    (Answer::unpacked(answer), results)
}

fn by_twin(bytes: &[u8]) -> (Answer, Vec<u8>) {
    let (answer, mut results) = plan::plan_book(bytes, ROOM);
    results.resize(ROOM, 0);
    (answer, results)
}

/// A list that is accepted: repetitions from 16 to 64, over as many units as leave room in the slots.
fn list(signals: usize, slots: u32) -> Vec<u8> {
    let settings = Settings { cycle_length: 2_500, slot_length: 16, slots, packing: 100, payload: 8 };
    let units = (slots as usize / 4).max(1);
    let drawn = lists::large(&mut Random::new(5), &settings, signals, units, &[16, 32, 64]).signals;
    let words: Vec<u32> = drawn.iter().flat_map(Signal::words).collect();
    book::write(&settings.words(), &words, BLOCK_BYTES * MOST_BLOCKS).1
}

/// The books: by number of signals at 128 slots, and by number of slots with 60 signals.
fn books(folder: &Path) -> Result<()> {
    fs::create_dir_all(folder)?;
    for signals in [3, 37, 75, 150, 300, 600] {
        fs::write(folder.join(format!("signals-{signals:03}.book")), list(signals, 128))?;
    }
    for slots in [8, 16, 32, 64, 128] {
        fs::write(folder.join(format!("slots-{slots:03}.book")), list(60, slots))?;
    }
    Ok(())
}

/// The best of some times in microseconds: what else the machine does only adds to a time.
fn best(times: &[Duration]) -> f64 {
    times.iter().min().map_or(0.0, Duration::as_secs_f64) * 1e6
}

/// Both sides in turn, the one that goes first changing from round to round: the best of each in microseconds.
fn in_turn(rounds: usize, mut library: impl FnMut(), mut twin: impl FnMut()) -> (f64, f64) {
    let timed = |work: &mut dyn FnMut()| {
        let start = Instant::now();
        work();
        start.elapsed()
    };
    let (mut of_library, mut of_twin) = (Vec::new(), Vec::new());
    for round in 0..rounds {
        if round % 2 == 0 {
            of_library.push(timed(&mut library));
            of_twin.push(timed(&mut twin));
        } else {
            of_twin.push(timed(&mut twin));
            of_library.push(timed(&mut library));
        }
    }
    (best(&of_library), best(&of_twin))
}

/// A program from its start to its end, the book at its standard input.
fn started(words: &[&str], book: &Path) -> Vec<u8> {
    let input = File::open(book).expect("the book is there");
    let done = Command::new(words[0]).args(&words[1..]).stdin(input).stderr(Stdio::null()).output();
    done.expect("the program starts").stdout
}

fn times(folder: &Path, shipped: &str, rounds: usize) -> Result<()> {
    let own = std::env::current_exe()?.display().to_string();
    let mut names: Vec<_> = fs::read_dir(folder)?.map(|entry| entry.map(|entry| entry.path())).collect::<Result<_>>()?;
    names.sort();
    println!("{:16} {:>10} {:>10} {:>6} {:>12} {:>10} {:>6}", "book", "call µs", "twin µs", "ratio", "program µs", "twin µs", "ratio");
    for path in names {
        let bytes = fs::read(&path)?;
        assert_eq!(by_library(&bytes), by_twin(&bytes), "{}", path.display());
        assert_eq!(started(&[shipped], &path), started(&[&own, "program"], &path), "{}", path.display());
        let many = |plan: fn(&[u8]) -> (Answer, Vec<u8>)| (0..TIMES).for_each(|_| drop(black_box(plan(black_box(&bytes)))));
        let (call, twin) = in_turn(rounds, || many(by_library), || many(by_twin));
        let (call, twin) = (call / f64::from(TIMES), twin / f64::from(TIMES));
        let (start, other) = in_turn(rounds, || drop(started(&[shipped], &path)), || drop(started(&[&own, "program"], &path)));
        let name = path.file_stem().unwrap_or_default().to_string_lossy().into_owned();
        println!("{name:16} {call:10.1} {twin:10.1} {:6.2} {start:12.0} {other:10.0} {:6.2}", call / twin, start / other);
    }
    Ok(())
}

fn main() -> Result<()> {
    let arguments: Vec<String> = std::env::args().skip(1).collect();
    let asked: Vec<&str> = arguments.iter().map(String::as_str).collect();
    match asked[..] {
        ["books", folder] => books(Path::new(folder))?,
        ["library", book] => drop(black_box(by_library(&fs::read(book)?))),
        ["twin", book] => drop(black_box(by_twin(&fs::read(book)?))),
        ["nothing", book] => drop(black_box(fs::read(book)?)),
        ["program"] => {
            let mut bytes = Vec::new();
            std::io::stdin().read_to_end(&mut bytes)?;
            std::io::stdout().write_all(program::written(&bytes).1.as_bytes())?;
        }
        ["times", folder, shipped, rounds] => times(Path::new(folder), shipped, rounds.parse().unwrap_or(15))?,
        _ => eprintln!("whole books FOLDER, whole library|twin|nothing BOOK, whole program, whole times FOLDER PROGRAM ROUNDS"),
    }
    Ok(())
}
