// Measures repetitions, books and plans of 600 signals at 128 slots, library and twin in turn: `bench [ROUNDS]`.
// `bench SIDE MIX` (library, twin or nothing; a name that `bench mixes` lists) does the work once, to be counted.

mod book;
mod plan;

use std::hint::black_box;
use std::process::ExitCode;
use std::time::{Duration, Instant};
use twin::random::Random;
use twin::rule::{repetition_by_formula, worst_age};
use twin::terms::{Settings, Signal};

const SETTINGS: Settings = Settings { cycle_length: 2_500, slot_length: 16, slots: 128, packing: 100, payload: 8 };
const SIGNALS: usize = 600;
/// From one start to the next at repetition 64.
const LONGEST: u32 = 64 * SETTINGS.cycle_length;

extern "C" {
    fn noctelvia_repetition(
        cycle: u32, slot_length: u32, slots: u32, packing: u32, payload: u32,
        unit: u32, period: u32, offset: u32, size: u32, bound: u32,
    ) -> u32;
}

/// Signals that the first repetition tried, 64, keeps: every one of its 8,192 places is looked at.
fn kept_at_first() -> Vec<Signal> {
    let mut random = Random::new(1);
    let drawn = |_| {
        let some = LONGEST + random.between(200, 2_000_000);
        let period = random.pick(&[200_000, 250_000, 2 * LONGEST, 1_000_000, 100_000_000, some, some, some]);
        let offset = random.below(period);
        Signal { unit: random.between(1, 255), period, offset, size: random.between(1, 128), bound: period }
    };
    (0..SIGNALS).map(drawn).collect()
}

/// Signals whose bound fails at repetition 64 only in the last slot at the last base; 32 keeps them.
fn failing_late() -> Vec<Signal> {
    let mut random = Random::new(2);
    let last_start = 63 * SETTINGS.cycle_length + 127 * SETTINGS.slot_length;
    let drawn = |_| {
        // Due just after the last place's start, the value waits longest there, a slot longer than anywhere else.
        let offset = last_start - SETTINGS.packing + 1 + random.below(100);
        let period = LONGEST * random.between(2, 600);
        let mut signal = Signal { unit: random.between(1, 255), period, offset, size: 8, bound: period };
        signal.bound = worst_age(&SETTINGS, &signal, 64) - random.between(1, SETTINGS.slot_length - 1);
        signal
    };
    (0..SIGNALS).map(drawn).collect()
}

fn library(signals: &[Signal]) -> u32 {
    let [a, b, c, d, e] = SETTINGS.words();
    let one = |signal: &Signal| {
        let [f, g, h, i, j] = black_box(signal).words();
        // Safety: numbers alone pass.
        unsafe { noctelvia_repetition(a, b, c, d, e, f, g, h, i, j) }
    };
    signals.iter().map(one).sum()
}

fn twin(signals: &[Signal]) -> u32 {
    signals.iter().map(|signal| repetition_by_formula(black_box(&SETTINGS), black_box(signal))).sum()
}

fn timed(work: fn(&[Signal]) -> u32, signals: &[Signal]) -> Duration {
    let start = Instant::now();
    black_box(work(signals));
    start.elapsed()
}

fn milliseconds(time: Duration) -> f64 {
    time.as_secs_f64() * 1_000.0
}

/// The median and the best of some times.
fn median_and_best(mut times: Vec<Duration>) -> (f64, f64) {
    times.sort();
    (milliseconds(times[times.len() / 2]), milliseconds(times[0]))
}

/// Both sides in turn, the one that goes first changing from round to round.
fn measure(Mix { name, signals, library, twin, .. }: &Mix, rounds: usize) {
    let (mut of_library, mut of_twin) = (Vec::new(), Vec::new());
    for round in 0..rounds {
        if round % 2 == 0 {
            of_library.push(timed(*library, signals));
            of_twin.push(timed(*twin, signals));
        } else {
            of_twin.push(timed(*twin, signals));
            of_library.push(timed(*library, signals));
        }
    }
    let (library, twin) = (median_and_best(of_library), median_and_best(of_twin));
    println!("{name}: {} signals, {} slots, {rounds} rounds", signals.len(), SETTINGS.slots);
    for (which, library, twin) in [("median", library.0, twin.0), ("best", library.1, twin.1)] {
        println!("  {which}: library {library:.2} ms, twin {twin:.2} ms, library/twin {:.2}", library / twin);
    }
}

/// One measure: the work of both sides on the same signals, and what both must give where that is known.
struct Mix {
    name: &'static str,
    signals: Vec<Signal>,
    library: fn(&[Signal]) -> u32,
    twin: fn(&[Signal]) -> u32,
    wanted: Option<u32>,
}

/// The measures that the library has the calls for.
fn mixes() -> Vec<Mix> {
    let sum = |repetition: u32| Some(repetition * SIGNALS as u32);
    let mut mixes = vec![
        Mix { name: "first", signals: kept_at_first(), library, twin, wanted: sum(64) },
        Mix { name: "late", signals: failing_late(), library, twin, wanted: sum(32) },
        Mix { name: "read", signals: kept_at_first(), library: book::read_by_library, twin: book::read_by_twin, wanted: None },
        Mix { name: "write", signals: kept_at_first(), library: book::write_by_library, twin: book::write_by_twin, wanted: None },
    ];
    match plan::LIBRARY {
        Some(library) => {
            mixes.push(Mix { name: "plan", signals: plan::signals(), library, twin: plan::twin, wanted: None });
        }
        None => eprintln!("plan: skipped, noctelvia_plan_list is not in the library"),
    }
    mixes
}

fn once(side: &str, mix: &str) -> Option<ExitCode> {
    let mix = mixes().into_iter().find(|known| known.name == mix)?;
    let given = match side {
        "library" => (mix.library)(&mix.signals),
        "twin" => (mix.twin)(&mix.signals),
        "nothing" => 0,
        _ => return None,
    };
    println!("{side} {}: {given}", mix.name);
    Some(ExitCode::SUCCESS)
}

fn all(rounds: usize) -> ExitCode {
    for mix in mixes() {
        let (given, by_twin) = ((mix.library)(&mix.signals), (mix.twin)(&mix.signals));
        if given != by_twin || mix.wanted.is_some_and(|wanted| wanted != given) {
            println!("{}: library gives {given}, twin {by_twin}, wanted {:?}", mix.name, mix.wanted);
            return ExitCode::FAILURE;
        }
        measure(&mix, rounds);
    }
    ExitCode::SUCCESS
}

fn names() -> ExitCode {
    mixes().iter().for_each(|mix| println!("{}", mix.name));
    ExitCode::SUCCESS
}

fn main() -> ExitCode {
    let arguments: Vec<String> = std::env::args().skip(1).collect();
    let asked: Vec<&str> = arguments.iter().map(String::as_str).collect();
    let done = match asked[..] {
        [] => Some(all(15)),
        ["mixes"] => Some(names()),
        [rounds] => rounds.parse().ok().filter(|&rounds| rounds > 0).map(all),
        [side, mix] => once(side, mix),
        _ => None,
    };
    done.unwrap_or_else(|| {
        eprintln!("bench [ROUNDS], or bench mixes, or bench library|twin|nothing MIX");
        ExitCode::from(2)
    })
}
