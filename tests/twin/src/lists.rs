// Lists drawn at random with the repetitions that their signals shall get: small, middling, crowded and large.
// A signal's bound is drawn between the worst ages of its repetition and of the next, its ends most often.

use crate::draw;
use crate::random::Random;
use crate::rule::worst_age;
use crate::terms::{Settings, Signal, MOST_SIGNALS, REPETITIONS};

#[derive(Clone, Debug, PartialEq, Eq)]
pub struct List {
    pub settings: Settings,
    pub signals: Vec<Signal>,
}

impl List {
    pub fn words(&self) -> Vec<u32> {
        self.signals.iter().flat_map(Signal::words).collect()
    }
}

/// A signal that gets exactly the given repetition.
pub fn signal(random: &mut Random, settings: &Settings, unit: u32, repetition: u32) -> Signal {
    let starts = repetition * settings.cycle_length;
    // No age of the repetition is larger, so no bound needs to be.
    let least = settings.packing + starts + settings.slot_length;
    let period = match random.below(4) {
        0 => least.next_multiple_of(starts) * random.between(1, 3),
        1 => least.next_multiple_of(settings.cycle_length),
        2 => least,
        _ => random.between(least, 3 * least),
    };
    let bits = 16 * settings.payload;
    let some = random.between(1, bits);
    let offset = random.below(period);
    let offset = random.pick(&[0, period - 1, offset, offset, offset]);
    let mut signal = Signal { unit, period, offset, size: random.pick(&[1, bits, some]), bound: period };
    let low = worst_age(settings, &signal, repetition);
    let high = if repetition == 64 { period } else { (worst_age(settings, &signal, 2 * repetition) - 1).min(period) };
    let some = random.between(low, high);
    signal.bound = random.pick(&[low, high, some]);
    signal
}

/// Ordinary, small or extreme settings, with at most so many slots.
fn settings(random: &mut Random, most: u32) -> Settings {
    let drawn = match random.below(3) {
        0 => draw::ordinary(random).settings,
        1 => draw::small(random).settings,
        _ => draw::extreme(random).settings,
    };
    Settings { slots: drawn.slots.min(random.between(2, most)), ..drawn }
}

/// Numbers of units, among them the ends of their range, in no order.
fn units(random: &mut Random, count: usize) -> Vec<u32> {
    let mut all: Vec<u32> = (1..=255).collect();
    shuffle(random, &mut all);
    all.truncate(count);
    if count > 1 && random.once_in(3) && !all.contains(&255) {
        all[0] = 255;
    }
    all
}

/// From one to so many units.
fn some_units(random: &mut Random, most: usize) -> Vec<u32> {
    let count = 1 + random.index(most);
    units(random, count)
}

pub fn shuffle<T>(random: &mut Random, items: &mut [T]) {
    for last in (1..items.len()).rev() {
        items.swap(last, random.index(last + 1));
    }
}

/// So few slots, signals and short repetitions that every assignment can be tried.
pub fn small(random: &mut Random) -> List {
    let settings = settings(random, 4);
    let units = some_units(random, 3);
    let longest = random.pick(&[1, 2, 2, 3]) as usize;
    let signals = (0..1 + random.index(2 + 2 * longest))
        .map(|_| {
            let repetition = REPETITIONS[random.index(longest + 1)];
            let unit = random.pick(&units);
            signal(random, &settings, unit, repetition)
        })
        .collect();
    List { settings, signals }
}

/// Any repetitions, a few units, up to forty signals; accepted or refused 9.
pub fn middling(random: &mut Random) -> List {
    let settings = settings(random, 24);
    let units = some_units(random, 6);
    let shortest = random.index(6);
    let signals = (0..random.index(40))
        .map(|_| {
            let repetition = REPETITIONS[shortest + random.index(7 - shortest)];
            let unit = random.pick(&units);
            signal(random, &settings, unit, repetition)
        })
        .collect();
    List { settings, signals }
}

/// Signals whose bounds lie about where any repetition stops to keep; often refused 8.
pub fn tight(random: &mut Random) -> List {
    let settings = settings(random, 12);
    let signals = (0..1 + random.index(12))
        .map(|_| {
            let period = random.pick(&REPETITIONS) * settings.cycle_length * random.between(1, 3);
            let unit = random.pick(&[1, 2, 255]);
            let mut signal = Signal { unit, period, offset: random.below(period), size: 1, bound: period };
            draw::bound_near_worst(random, &settings, &mut signal);
            signal
        })
        .collect();
    List { settings, signals }
}

/// The repetitions of one full slot: a whole one halved again and again.
fn full_slot(random: &mut Random, most: usize) -> Vec<u32> {
    let mut parts = vec![1];
    for _ in 0..random.index(most.min(20)) {
        let at = random.index(parts.len());
        if parts[at] < 64 {
            parts[at] *= 2;
            parts.push(parts[at]);
        }
    }
    parts
}

/// A list that leaves no cell free in any of the slots.
pub fn exactly_full(random: &mut Random, settings: &Settings) -> List {
    let units = units(random, settings.slots as usize);
    let mut signals = Vec::new();
    let few = 1 + random.index(units.len());
    for slot in 0..settings.slots as usize {
        // What is left for this slot, after one signal for each of the slots behind it.
        let most = MOST_SIGNALS - signals.len() - (settings.slots as usize - slot - 1);
        for repetition in full_slot(random, most) {
            signals.push(signal(random, settings, units[slot % few], repetition));
        }
    }
    shuffle(random, &mut signals);
    List { settings: *settings, signals }
}

pub fn crowded(random: &mut Random) -> List {
    let settings = settings(random, 10);
    exactly_full(random, &settings)
}

/// The list with one more signal, of a unit that it has or of another.
pub fn with_one_more(random: &mut Random, list: &List) -> List {
    let mut more = list.clone();
    let (unit, repetition) = (random.between(1, 255), random.pick(&REPETITIONS));
    let unit = if random.once_in(2) { list.signals[random.index(list.signals.len())].unit } else { unit };
    let added = signal(random, &list.settings, unit, repetition);
    more.signals.insert(random.index(list.signals.len() + 1), added);
    more
}

/// So many signals over so many units, with repetitions from those given.
pub fn large(random: &mut Random, settings: &Settings, signals: usize, units: usize, repetitions: &[u32]) -> List {
    let units = self::units(random, units);
    let mut signals: Vec<Signal> = (0..signals)
        .map(|index| {
            let repetition = random.pick(repetitions);
            signal(random, settings, units[index % units.len()], repetition)
        })
        .collect();
    shuffle(random, &mut signals);
    List { settings: *settings, signals }
}

#[cfg(test)]
mod tests {
    use super::*;
    use crate::plan::{plan, repetitions};
    use crate::rule::repetition_by_formula;
    use crate::terms::Answer;

    #[test]
    fn a_signal_gets_the_repetition_that_was_meant() {
        let mut random = Random::new(13);
        for _ in 0..1_000 {
            let settings = settings(&mut random, 24);
            let repetition = random.pick(&REPETITIONS);
            let signal = signal(&mut random, &settings, 7, repetition);
            assert!(settings.in_range() && signal.in_range(&settings), "{settings:?} {signal:?}");
            assert_eq!(repetition_by_formula(&settings, &signal), repetition, "{settings:?} {signal:?}");
        }
    }

    #[test]
    fn a_full_table_takes_no_more() {
        let mut random = Random::new(14);
        for _ in 0..100 {
            let list = crowded(&mut random);
            let slots = list.settings.slots as usize;
            let full = plan(&list.settings, &list.words(), 8_192, 2_400);
            assert_eq!(full.answer, Answer::new(0, slots), "{list:?}");
            assert!(full.cells.iter().all(|&cell| cell != 0), "{list:?}");
            let more = with_one_more(&mut random, &list);
            assert_eq!(plan(&more.settings, &more.words(), 8_192, 2_400).answer, Answer::new(9, slots + 1), "{more:?}");
        }
    }

    #[test]
    fn tight_lists_are_refused_at_times() {
        let mut random = Random::new(15);
        let refused = |list: &List| repetitions(&list.settings, &list.signals).contains(&0);
        assert!((30..270).contains(&(0..300).map(|_| tight(&mut random)).filter(refused).count()));
    }
}
