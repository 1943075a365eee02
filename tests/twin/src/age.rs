// The age of a signal in a frame, once by the definition and once by the static segment paper's formula.
// The definition is walked release by release; the two share nothing but the first start.

use crate::terms::{Question, Settings};

/// The times on which an age depends, all in macroticks.
#[derive(Clone, Copy, Debug, PartialEq, Eq)]
pub struct Times {
    pub first_start: u64,
    /// From one start of the frame to the next: the repetition times the cycle length.
    pub between_starts: u64,
    pub offset: u64,
    pub period: u64,
    pub packing: u64,
    pub slot_length: u64,
}

/// The largest age, and the first release that has it.
#[derive(Clone, Copy, Debug, PartialEq, Eq)]
pub struct Worst {
    pub age: u64,
    pub release: u64,
}

/// Base times cycle length plus the slot's start.
pub fn first_start(settings: &Settings, slot: u32, base: u32) -> u64 {
    u64::from(base) * u64::from(settings.cycle_length)
        + u64::from(slot - 1) * u64::from(settings.slot_length)
}

/// The times of a question that is in range.
pub fn times(question: &Question) -> Times {
    let Question { settings, signal, frame } = question;
    Times {
        first_start: first_start(settings, frame.slot, frame.base),
        between_starts: u64::from(frame.repetition) * u64::from(settings.cycle_length),
        offset: u64::from(signal.offset),
        period: u64::from(signal.period),
        packing: u64::from(settings.packing),
        slot_length: u64::from(settings.slot_length),
    }
}

/// The first start at or after `due`; a start exactly at `due` is that one.
pub fn first_start_from(times: &Times, due: u64) -> u64 {
    if due <= times.first_start {
        return times.first_start;
    }
    times.first_start + (due - times.first_start).div_ceil(times.between_starts) * times.between_starts
}

/// The definition: every release in turn, until one stands where the first stood between two starts.
/// From there on all repeats, for the frame's first start lies within its first R cycles.
pub fn walk(times: &Times) -> Worst {
    let mut worst = Worst { age: 0, release: times.offset };
    let mut release = times.offset;
    loop {
        let start = first_start_from(times, release + times.packing);
        let age = start - release + times.slot_length;
        if age > worst.age {
            worst = Worst { age, release };
        }
        release += times.period;
        if (release - times.offset).is_multiple_of(times.between_starts) {
            return worst;
        }
    }
}

/// How many releases `walk` looks at: the length of the whole pattern over the period.
pub fn releases_in_pattern(times: &Times) -> u64 {
    times.between_starts / gcd(times.period, times.between_starts)
}

pub fn gcd(a: u64, b: u64) -> u64 {
    let (mut a, mut b) = (a, b);
    while b != 0 {
        (a, b) = (b, a % b);
    }
    a
}

/// The remainder of (first start - offset) by g, from 0 to g - 1 also where the offset is the larger.
pub fn distance(times: &Times, g: u64) -> u64 {
    (times.first_start as i64 - times.offset as i64).rem_euclid(g as i64) as u64
}

/// The paper's equations 6 and 7, with g the greatest common divisor of period and time between starts.
pub fn formula_with(times: &Times, g: u64) -> u64 {
    let d = distance(times, g);
    let p_max = (times.packing + times.between_starts - d).div_ceil(g) - 1;
    p_max * g + d + times.slot_length
}

pub fn formula(times: &Times) -> u64 {
    formula_with(times, gcd(times.period, times.between_starts))
}

/// The age by the definition, 0 exactly where something is out of range.
pub fn age_walked(question: &Question) -> u32 {
    if question.in_range() { walk(&times(question)).age as u32 } else { 0 }
}

/// The age by the formula, 0 exactly where something is out of range.
pub fn age_by_formula(question: &Question) -> u32 {
    if question.in_range() { formula(&times(question)) as u32 } else { 0 }
}

#[cfg(test)]
mod tests {
    use super::*;
    use crate::draw;
    use crate::random::Random;

    /// The definition once more with additions alone: starts and releases each passed one by one.
    fn step(times: &Times, releases: u64) -> u64 {
        let (mut start, mut release, mut age) = (times.first_start, times.offset, 0);
        for _ in 0..releases {
            while start < release + times.packing {
                start += times.between_starts;
            }
            age = age.max(start - release + times.slot_length);
            release += times.period;
        }
        age
    }

    #[test]
    fn walking_steps_and_formula_agree_on_small_times() {
        let mut random = Random::new(1);
        for _ in 0..20_000 {
            let times = times(&draw::small(&mut random));
            let releases = releases_in_pattern(&times);
            assert_eq!(walk(&times).age, formula(&times), "{times:?}");
            assert_eq!(walk(&times).age, step(&times, 2 * releases + 3), "{times:?}");
        }
    }

    #[test]
    fn walking_and_formula_agree_on_large_times() {
        let mut random = Random::new(2);
        for round in 0..300 {
            let question = if round % 2 == 0 { draw::ordinary(&mut random) } else { draw::extreme(&mut random) };
            assert_eq!(age_walked(&question), age_by_formula(&question), "{question:?}");
        }
    }

    #[test]
    fn the_pattern_is_as_long_as_the_common_multiple() {
        let times = Times { first_start: 3, between_starts: 40, offset: 5, period: 24, packing: 0, slot_length: 2 };
        assert_eq!(releases_in_pattern(&times), 5);
        assert_eq!(120 / times.period, releases_in_pattern(&times));
    }

    #[test]
    fn a_start_equal_to_the_time_due_carries_the_value() {
        let times = Times { first_start: 10, between_starts: 40, offset: 3, period: 40, packing: 7, slot_length: 2 };
        assert_eq!(walk(&times).age, 9);
        assert_eq!(walk(&Times { packing: 8, ..times }).age, 49);
    }
}
