// The static segment paper's own experiment (its section 4): slots used by load, with 01's rule in place of BSF.
// `experiment [SETS]`: so many signal sets at each load, the same sets for every bound; tables on standard output.

use std::process::ExitCode;
use twin::age::{first_start, formula_with, gcd, Times};
use twin::plan::{plan, slots_needed};
use twin::random::Random;
use twin::rule::repetition_by_formula;
use twin::terms::{Settings, Signal, MOST_SIGNALS, REPETITIONS};

/// The paper's macrotick is 2 microseconds, so a cycle of 2,500 is its 5 ms and a slot of 16 its 32 microseconds.
const MACROTICKS_IN_MS: u32 = 500;
const SETTINGS: Settings = Settings { cycle_length: 2_500, slot_length: 16, slots: 93, packing: 0, payload: 8 };
/// Figure 3's periods in milliseconds, with their weights.
const PERIODS: [(u32, u32); 7] = [(10, 5), (20, 5), (50, 5), (100, 5), (200, 5), (1_000, 5), (2_000, 2)];
const SIZE: u32 = 64;
/// The loads' lower ends in tenths of a Mbit/s; each range is a tenth wide.
const LOADS: [u32; 7] = [3, 4, 5, 6, 7, 8, 9];

/// What is varied over the same sets of signals.
struct Experiment {
    name: &'static str,
    longest_bound_ms: u32,
    offsets: bool,
}

const EXPERIMENTS: [Experiment; 4] = [
    Experiment { name: "bound = period, no offsets (tables 2 and 3)", longest_bound_ms: 2_000, offsets: false },
    Experiment { name: "bound = min(period, 30 ms), no offsets (4, 5)", longest_bound_ms: 30, offsets: false },
    Experiment { name: "bound = period, random offsets", longest_bound_ms: 2_000, offsets: true },
    Experiment { name: "bound = min(period, 30 ms), random offsets", longest_bound_ms: 30, offsets: true },
];

/// A period in milliseconds, drawn by weight.
fn period(random: &mut Random) -> u32 {
    let weights: u32 = PERIODS.iter().map(|(_, weight)| weight).sum();
    let mut at = random.below(weights);
    for (period, weight) in PERIODS {
        if at < weight {
            return period;
        }
        at -= weight;
    }
    unreachable!("the weights cover what was drawn")
}

/// A set whose load, in bits in a second, lies in the range of a tenth of a Mbit/s from the lower end on.
fn drawn(random: &mut Random, low: u32) -> Vec<Signal> {
    let wanted = random.between(low * 100_000, (low + 1) * 100_000);
    let units = random.between(5, 15);
    let (mut load, mut signals) = (0.0, Vec::new());
    loop {
        let milliseconds = period(random);
        let more = f64::from(SIZE) * 1_000.0 / f64::from(milliseconds);
        if load + more > f64::from(wanted) {
            return signals;
        }
        load += more;
        let period = milliseconds * MACROTICKS_IN_MS;
        let offset = random.below(period);
        signals.push(Signal { unit: random.between(1, units), period, offset, size: SIZE, bound: period });
    }
}

fn varied(signals: &[Signal], experiment: &Experiment) -> Vec<Signal> {
    let bound = experiment.longest_bound_ms * MACROTICKS_IN_MS;
    let vary = |signal: &Signal| Signal {
        bound: signal.bound.min(bound),
        offset: if experiment.offsets { signal.offset } else { 0 },
        ..*signal
    };
    signals.iter().map(vary).collect()
}

/// Equation 2: the largest repetition within the period, whatever the bound.
fn natural(signal: &Signal) -> u32 {
    let within = |&repetition: &u32| repetition * SETTINGS.cycle_length <= signal.period;
    REPETITIONS.into_iter().rev().find(within).expect("no period is below a cycle")
}

/// Equation 8: the largest repetition with at least one slot and base at which the age keeps the bound.
fn somewhere(signal: &Signal) -> u32 {
    let keeps = |&repetition: &u32| {
        let mut times = Times {
            first_start: 0,
            between_starts: u64::from(repetition * SETTINGS.cycle_length),
            offset: u64::from(signal.offset),
            period: u64::from(signal.period),
            packing: u64::from(SETTINGS.packing),
            slot_length: u64::from(SETTINGS.slot_length),
        };
        let g = gcd(times.period, times.between_starts);
        (1..=SETTINGS.slots).any(|slot| {
            (0..repetition).any(|base| {
                times.first_start = first_start(&SETTINGS, slot, base);
                formula_with(&times, g) <= u64::from(signal.bound)
            })
        })
    };
    REPETITIONS.into_iter().rev().find(keeps).expect("some place keeps every bound of the experiment")
}

/// What became of the sets at one load: how many were accepted and how many slots they took.
#[derive(Default)]
struct Tally {
    accepted: u32,
    slots: u32,
}

impl Tally {
    fn add(&mut self, slots: usize) {
        if slots <= SETTINGS.slots as usize {
            self.accepted += 1;
            self.slots += slots as u32;
        }
    }

    fn average(&self) -> String {
        match self.accepted {
            0 => "NA".to_string(),
            accepted => format!("{:.1}", f64::from(self.slots) / f64::from(accepted)),
        }
    }
}

/// One column: tests 1 and 2 of the paper, and the planner, each over the sets that it does not refuse.
fn column(sets: &[Vec<Signal>], experiment: &Experiment) -> [Tally; 3] {
    let mut tallies = [Tally::default(), Tally::default(), Tally::default()];
    for set in sets {
        let signals = varied(set, experiment);
        let by = |repetition: fn(&Signal) -> u32| {
            slots_needed(&signals, &signals.iter().map(repetition).collect::<Vec<u32>>())
        };
        tallies[0].add(by(natural));
        tallies[1].add(by(somewhere));
        let list: Vec<u32> = signals.iter().flat_map(Signal::words).collect();
        let answer = plan(&SETTINGS, &list, usize::MAX, usize::MAX).answer;
        assert!([0, 9].contains(&answer.number), "{answer}");
        tallies[2].add(answer.place as usize);
    }
    tallies
}

fn show(experiment: &Experiment, all: &[Vec<Vec<Signal>>], sets: usize) {
    println!("\n{}\n", experiment.name);
    let columns: Vec<[Tally; 3]> = all.iter().map(|sets| column(sets, experiment)).collect();
    let loads = LOADS.map(|low| format!("0.{low} to {:.1}", f64::from(low + 1) / 10.0));
    println!("| load, Mbit/s | {} |", loads.join(" | "));
    println!("|---|{}", "---|".repeat(LOADS.len()));
    for (row, name) in ["test 1", "test 2", "planner"].iter().enumerate() {
        let line = |of: fn(&Tally) -> String| columns.iter().map(|c| of(&c[row])).collect::<Vec<_>>().join(" | ");
        println!("| {name}, accepted of {sets} | {} |", line(|tally| tally.accepted.to_string()));
        println!("| {name}, slots | {} |", line(Tally::average));
    }
}

/// The repetition that tests 1 and 2 and the rule give a signal of each period, without an offset.
fn show_repetitions() {
    println!("\nrepetitions without offsets: test 1, test 2 and rule\n");
    println!("| period, ms | bound = period | bound = min(period, 30 ms) |\n|---|---|---|");
    for (milliseconds, _) in PERIODS {
        let period = milliseconds * MACROTICKS_IN_MS;
        let of = |experiment: &Experiment| {
            let signal = varied(&[Signal { unit: 1, period, offset: 0, size: SIZE, bound: period }], experiment)[0];
            let given = [natural(&signal), somewhere(&signal), repetition_by_formula(&SETTINGS, &signal)];
            given.map(|repetition| repetition.to_string()).join(", ")
        };
        println!("| {milliseconds} | {} | {} |", of(&EXPERIMENTS[0]), of(&EXPERIMENTS[1]));
    }
}

fn main() -> ExitCode {
    let arguments: Vec<String> = std::env::args().skip(1).collect();
    let sets = match &arguments[..] {
        [] => Some(100),
        [sets] => sets.parse().ok(),
        _ => None,
    };
    let Some(sets) = sets else {
        eprintln!("experiment [SETS]");
        return ExitCode::from(2);
    };
    // A set that no list can hold is drawn again; seeds are numbered through, so that a run comes back.
    let fitting = |low: u32, seed: usize| {
        let mut random = Random::new(1_000 * u64::from(low) + seed as u64);
        std::iter::repeat_with(|| drawn(&mut random, low)).find(|set| set.len() <= MOST_SIGNALS).unwrap_or_default()
    };
    let at_load = |low: u32| (0..sets).map(|seed| fitting(low, seed)).collect();
    let all: Vec<Vec<Vec<Signal>>> = LOADS.into_iter().map(at_load).collect();
    let counts = all.iter().map(|sets| sets.iter().map(Vec::len).sum::<usize>() / sets.len().max(1));
    println!("signals in a set, on average: {}", counts.map(|count| count.to_string()).collect::<Vec<_>>().join(", "));
    show_repetitions();
    for experiment in &EXPERIMENTS {
        show(experiment, &all, sets);
    }
    ExitCode::SUCCESS
}
