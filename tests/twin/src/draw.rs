// Settings, signals and frames drawn at random, all in range: ordinary, small and extreme ones.
// Offsets and bounds are drawn near the values at which an age or a repetition changes.

use crate::age::first_start;
use crate::random::Random;
use crate::rule::worst_age;
use crate::terms::{Frame, Question, Settings, Signal, REPETITIONS};

const LONGEST_PERIOD: u32 = 100_000_000;

/// Settings and periods such as those of 01's examples.
pub fn ordinary(random: &mut Random) -> Question {
    let cycle_length = random.pick(&[1_000, 1_250, 2_500, 2_500, 3_000, 5_000, 10_000, 16_000]);
    let slot_length = random.pick(&[4, 16, 16, 16, 24, 32, 50, 100]);
    let most = (cycle_length / slot_length).min(128);
    let settings = Settings {
        cycle_length,
        slot_length,
        slots: if random.once_in(2) { most.min(93) } else { random.between(2, most) },
        packing: random.pick(&[0, 0, 1, 100, slot_length, cycle_length, 16_000]),
        payload: random.pick(&[1, 8, 8, 16, 127]),
    };
    let cycles = random.pick(&[1, 2, 4, 5, 8, 10, 16, 20, 40, 64, 100, 128]);
    let period = match random.below(4) {
        0 => 100 * random.between(1, 2_000),
        1 => random.between(1, 400_000),
        _ => cycles * cycle_length,
    };
    asked(random, settings, period)
}

/// Settings so small that every release of every place can be walked.
pub fn small(random: &mut Random) -> Question {
    let cycle_length = random.between(10, 18);
    let slot_length = random.between(1, cycle_length / 2);
    let settings = Settings {
        cycle_length,
        slot_length,
        slots: random.between(2, (cycle_length / slot_length).min(6)),
        packing: if random.once_in(2) { random.between(0, 4) } else { random.between(0, 3 * cycle_length) },
        payload: random.between(1, 4),
    };
    let starts = random.pick(&REPETITIONS) * cycle_length;
    let period = match random.below(4) {
        0 => random.between(1, 60),
        1 => starts * random.between(1, 4),
        2 => random.between(cycle_length, 128 * cycle_length),
        _ => starts + random.between(1, starts),
    };
    asked(random, settings, period)
}

/// Settings and signals at the ends of their ranges.
pub fn extreme(random: &mut Random) -> Question {
    let settings = extreme_settings(random);
    let starts = random.pick(&REPETITIONS) * settings.cycle_length;
    let period = match random.below(7) {
        0 => 1,
        1 => LONGEST_PERIOD,
        2 => LONGEST_PERIOD - random.between(1, 100),
        3 => starts,
        4 => starts + 1,
        5 => starts - 1,
        _ => random.wild().clamp(1, LONGEST_PERIOD),
    };
    asked(random, settings, period)
}

fn extreme_settings(random: &mut Random) -> Settings {
    let longest = match random.below(4) {
        0 => 10,
        1 => 16_000,
        2 => random.between(10, 40),
        _ => random.between(10, 16_000),
    };
    let most = longest.min(128);
    let slots = match random.below(3) {
        0 => 2,
        1 => most,
        _ => random.between(2, most),
    };
    let slot_length = if random.once_in(3) { 1 } else { longest / slots };
    let exact = slots * slot_length;
    Settings {
        cycle_length: if exact >= 10 && random.once_in(2) { exact } else { longest },
        slot_length,
        slots,
        packing: match random.below(6) {
            0 => 0,
            1 => 1,
            2 => 16_000,
            3 => longest,
            4 => slot_length,
            _ => random.between(0, 16_000),
        },
        payload: random.pick(&[1, 2, 126, 127]),
    }
}

/// A frame and a signal of the given period under the settings.
fn asked(random: &mut Random, settings: Settings, period: u32) -> Question {
    let frame = frame(random, &settings);
    let bits = 16 * settings.payload;
    let signal = Signal {
        unit: random.pick(&[1, 2, 3, 254, 255]),
        period,
        offset: offset(random, &settings, &frame, period),
        size: if random.once_in(3) { random.pick(&[1, bits]) } else { random.between(1, bits) },
        bound: if random.once_in(3) { random.pick(&[1, period]) } else { random.between(1, period) },
    };
    Question { settings, signal, frame }
}

fn frame(random: &mut Random, settings: &Settings) -> Frame {
    let repetition = random.pick(&REPETITIONS);
    let (some_slot, some_base) = (random.between(1, settings.slots), random.below(repetition));
    Frame {
        slot: random.pick(&[1, settings.slots, some_slot, some_slot]),
        repetition,
        base: random.pick(&[0, repetition - 1, some_base, some_base]),
    }
}

/// An offset at an end of its range, anywhere, or so that a release is due about when a frame starts.
fn offset(random: &mut Random, settings: &Settings, frame: &Frame, period: u32) -> u32 {
    let start = first_start(settings, frame.slot, frame.base) as i64;
    let near = start - i64::from(settings.packing) + i64::from(random.below(5)) - 2;
    match random.below(6) {
        0 => 0,
        1 => period - 1,
        2 | 3 => near.rem_euclid(i64::from(period)) as u32,
        _ => random.below(period),
    }
}

/// Sets the bound to the worst age of some repetition, or one beside it, as far as the period allows.
pub fn bound_near_worst(random: &mut Random, settings: &Settings, signal: &mut Signal) {
    for _ in 0..6 {
        let worst = worst_age(settings, signal, random.pick(&REPETITIONS));
        if worst <= signal.period {
            signal.bound = random.pick(&[worst - 1, worst, worst, worst + 1]).clamp(1, signal.period);
            return;
        }
    }
    signal.bound = signal.period;
}

#[cfg(test)]
mod tests {
    use super::*;

    #[test]
    fn all_that_is_drawn_is_in_range() {
        let mut random = Random::new(8);
        for _ in 0..20_000 {
            for drawn in [ordinary(&mut random), small(&mut random), extreme(&mut random)] {
                assert!(drawn.in_range(), "{drawn:?}");
            }
        }
    }
}
