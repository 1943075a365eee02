// The rule of repetitions: the largest R whose age keeps the bound at every slot and every base.
// By walking for small settings, by the formula for large ones; both try the places themselves.

use crate::age::{age_walked, first_start, formula_with, gcd, Times};
use crate::terms::{Frame, Question, Settings, Signal, REPETITIONS};

/// Whether the walked age is at most the bound at every slot and base. Settings and signal are in range.
pub fn keeps_walked(settings: &Settings, signal: &Signal, repetition: u32) -> bool {
    (1..=settings.slots).all(|slot| {
        (0..repetition).all(|base| {
            let frame = Frame { slot, repetition, base };
            age_walked(&Question { settings: *settings, signal: *signal, frame }) <= signal.bound
        })
    })
}

/// The largest repetition that keeps the bound by the definition; 0 where 01 says so.
pub fn repetition_walked(settings: &Settings, signal: &Signal) -> u32 {
    largest(settings, signal, keeps_walked)
}

/// The times of the frame in slot 1 with base 0; the other places differ in their first start alone.
fn times_of_first_place(settings: &Settings, signal: &Signal, repetition: u32) -> Times {
    Times {
        first_start: 0,
        between_starts: u64::from(repetition) * u64::from(settings.cycle_length),
        offset: u64::from(signal.offset),
        period: u64::from(signal.period),
        packing: u64::from(settings.packing),
        slot_length: u64::from(settings.slot_length),
    }
}

/// The same by the formula, its divisor found once for the repetition.
pub fn keeps_by_formula(settings: &Settings, signal: &Signal, repetition: u32) -> bool {
    let mut times = times_of_first_place(settings, signal, repetition);
    let g = gcd(times.period, times.between_starts);
    for slot in 1..=settings.slots {
        for base in 0..repetition {
            times.first_start = first_start(settings, slot, base);
            if formula_with(&times, g) > u64::from(signal.bound) {
                return false;
            }
        }
    }
    true
}

/// The largest repetition that keeps the bound by the formula; 0 where 01 says so.
pub fn repetition_by_formula(settings: &Settings, signal: &Signal) -> u32 {
    largest(settings, signal, keeps_by_formula)
}

fn largest(settings: &Settings, signal: &Signal, keeps: impl Fn(&Settings, &Signal, u32) -> bool) -> u32 {
    if !settings.in_range() || !signal.in_range(settings) {
        return 0;
    }
    REPETITIONS.into_iter().rev().find(|&repetition| keeps(settings, signal, repetition)).unwrap_or(0)
}

/// The largest age over every slot and base: the least bound that the repetition keeps.
pub fn worst_age(settings: &Settings, signal: &Signal, repetition: u32) -> u32 {
    let mut times = times_of_first_place(settings, signal, repetition);
    let g = gcd(times.period, times.between_starts);
    let mut worst = 0;
    for slot in 1..=settings.slots {
        for base in 0..repetition {
            times.first_start = first_start(settings, slot, base);
            worst = worst.max(formula_with(&times, g));
        }
    }
    worst as u32
}

#[cfg(test)]
mod tests {
    use super::*;
    use crate::draw;
    use crate::random::Random;

    #[test]
    fn both_ways_give_the_same_repetition() {
        let mut random = Random::new(3);
        for _ in 0..300 {
            let Question { settings, mut signal, .. } = draw::small(&mut random);
            draw::bound_near_worst(&mut random, &settings, &mut signal);
            let walked = repetition_walked(&settings, &signal);
            assert_eq!(walked, repetition_by_formula(&settings, &signal), "{settings:?} {signal:?}");
        }
    }

    #[test]
    fn what_keeps_the_bound_keeps_it_at_every_smaller_repetition_and_within_the_period() {
        let mut random = Random::new(4);
        let mut kept = 0;
        for _ in 0..2_000 {
            let Question { settings, mut signal, .. } = draw::small(&mut random);
            draw::bound_near_worst(&mut random, &settings, &mut signal);
            let keeps = REPETITIONS.map(|repetition| keeps_by_formula(&settings, &signal, repetition));
            assert!(keeps.windows(2).all(|pair| pair[0] || !pair[1]), "{settings:?} {signal:?}");
            let largest = repetition_by_formula(&settings, &signal);
            assert!(largest * settings.cycle_length <= signal.period, "{settings:?} {signal:?}");
            kept += u32::from(largest > 1);
        }
        assert!(kept > 100, "too few signals had anything to keep");
    }

    #[test]
    fn the_worst_age_is_the_least_bound_kept() {
        let mut random = Random::new(5);
        for _ in 0..500 {
            let Question { settings, mut signal, frame } = draw::small(&mut random);
            let worst = worst_age(&settings, &signal, frame.repetition);
            if (2..=signal.period).contains(&worst) {
                signal.bound = worst;
                assert!(keeps_walked(&settings, &signal, frame.repetition));
                signal.bound = worst - 1;
                assert!(!keeps_walked(&settings, &signal, frame.repetition));
            }
        }
    }
}
