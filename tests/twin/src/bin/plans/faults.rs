// Lists with one fault and with several: the earliest in 01's order of planning decides.
// Every fault is made so that its number and place are known beforehand, without planning.

use crate::run::{needed, Run};
use twin::lists::{self, List};
use twin::plan::{repetitions, slots_needed};
use twin::terms::{Answer, Settings, Signal};

/// The faults in the order in which they are judged.
const ORDER: [&str; 7] = ["6", "4", "10 for cells", "10 for results", "7", "8", "9"];

/// The five words of a signal that can leave their range, and towards which end.
const FIELDS: [&str; 9] = [
    "unit too low", "unit too high", "period too low", "period too high", "offset too high",
    "size too low", "size too high", "bound too low", "bound too high",
];

pub fn kinds() -> Vec<String> {
    let mut kinds: Vec<String> = FIELDS.iter().map(|field| format!("list gives 7, {field}")).collect();
    for (later, second) in ORDER.iter().enumerate() {
        kinds.extend(ORDER[..later].iter().map(|first| pair(first, second)));
    }
    kinds
}

fn pair(first: &str, second: &str) -> String {
    format!("two faults: {first} goes before {second}")
}

/// Settings with one word out of range, and which word that is.
fn strays(settings: &Settings) -> Vec<(Settings, u32)> {
    let fits = settings.cycle_length / settings.slot_length;
    let values: [(usize, &[u32]); 5] = [
        (0, &[0, 9, 16_001, 1 << 31, u32::MAX]),
        (1, &[0, 16_001, 1 << 31, u32::MAX]),
        (2, &[0, 1, 129, fits + 1, (1 << 31) + settings.slots, u32::MAX]),
        (3, &[16_001, 1 << 16, u32::MAX]),
        (4, &[0, 128, 1 << 28, u32::MAX]),
    ];
    let mut strays = Vec::new();
    for (index, values) in values {
        for &value in values {
            let mut words = settings.words();
            words[index] = value;
            strays.push((Settings::from_words(words), index as u32 + 2));
        }
    }
    strays
}

/// The signal with one field out of range, in the order of `FIELDS`, at times far out.
fn stray_signal(run: &mut Run, settings: &Settings, signal: &Signal, field: usize) -> Signal {
    let far = if run.random.once_in(3) { u32::MAX } else { 0 };
    let out = |value: u32| value.max(far);
    let mut stray = *signal;
    match field {
        0 => stray.unit = 0,
        1 => stray.unit = out(256),
        2 => stray.period = 0,
        3 => stray.period = out(100_000_001),
        4 => stray.offset = out(signal.period),
        5 => stray.size = 0,
        6 => stray.size = out(16 * settings.payload + 1),
        7 => stray.bound = 0,
        _ => stray.bound = out(signal.period + 1),
    }
    stray
}

/// A list with its room, before anything is wrong with it.
fn sound(run: &mut Run) -> List {
    loop {
        let list = lists::small(&mut run.random);
        if slots_needed(&list.signals, &repetitions(&list.settings, &list.signals)) <= list.settings.slots as usize {
            return list;
        }
    }
}

fn insert(run: &mut Run, list: &mut List, signal: Signal) {
    let at = run.random.index(list.signals.len() + 1);
    list.signals.insert(at, signal);
}

/// Makes the signals' own faults: too many for the slots, a bound that none keeps, a field out of range.
fn harm_signals(run: &mut Run, list: &mut List, faults: &[usize]) {
    let settings = list.settings;
    if faults.contains(&6) {
        for _ in 0..=settings.slots {
            let whole = lists::signal(&mut run.random, &settings, 9, 1);
            insert(run, list, whole);
        }
    }
    if faults.contains(&5) {
        for _ in 0..run.random.between(1, 3) {
            let tight = Signal { bound: 1, ..lists::signal(&mut run.random, &settings, 8, 2) };
            insert(run, list, tight);
        }
    }
    if faults.contains(&4) {
        for _ in 0..run.random.between(1, 3) {
            let field = run.random.index(FIELDS.len());
            let good = lists::signal(&mut run.random, &settings, 7, 4);
            let stray = stray_signal(run, &settings, &good, field);
            insert(run, list, stray);
        }
    }
}

/// The lowest signal, from 1, of which something holds.
fn lowest(list: &List, holds: impl Fn(&Signal) -> bool) -> usize {
    1 + list.signals.iter().position(holds).expect("the fault was made")
}

/// Plans a list with the given faults, rising in `ORDER`; the first of them decides.
fn with_faults(run: &mut Run, faults: &[usize]) {
    let mut list = sound(run);
    harm_signals(run, &mut list, faults);
    let mut settings = list.settings;
    let mut words = list.words();
    let (exact_cells, exact_results) = needed(&settings, &words);
    let short = |run: &mut Run, exact: usize, so: bool| {
        let less = [1, exact, 1 + run.random.index(exact)][run.random.index(3)];
        if so { exact - less } else { exact + run.random.index(3) }
    };
    let cells = short(run, exact_cells, faults.contains(&2));
    let results = short(run, exact_results, faults.contains(&3));
    if faults.contains(&1) {
        let length = [words.len() + 1 + run.random.index(4), 3_005 + run.random.index(20)][run.random.index(2)];
        words = words.iter().copied().cycle().take(length).collect();
    }
    let mut stray_word = 0;
    if faults.contains(&0) {
        let all = strays(&settings);
        (settings, stray_word) = all[run.random.index(all.len())];
    }
    let wanted = match faults[0] {
        0 => Answer::new(6, stray_word as usize),
        1 => Answer::new(4, 0),
        2 => Answer::new(10, exact_cells),
        3 => Answer::new(10, exact_results),
        4 => Answer::new(7, lowest(&list, |signal| !signal.in_range(&list.settings))),
        5 => Answer::new(8, lowest(&list, |signal| signal.bound == 1)),
        _ => Answer::new(9, slots_needed(&list.signals, &repetitions(&list.settings, &list.signals))),
    };
    run.list_gives(wanted, &settings, &words, cells, results);
}

/// Each fault alone, each two together, then any of them at once.
pub fn all(run: &mut Run, rounds: u64) {
    for _ in 0..rounds {
        for (later, second) in ORDER.iter().enumerate() {
            with_faults(run, &[later]);
            for (earlier, first) in ORDER[..later].iter().enumerate() {
                with_faults(run, &[earlier, later]);
                run.reached.count(&pair(first, second));
            }
        }
        let some: Vec<usize> = (0..ORDER.len()).filter(|_| run.random.once_in(2)).collect();
        if !some.is_empty() {
            with_faults(run, &some);
        }
    }
}

/// Every setting out of range at its ends, alone and with a higher one out too.
pub fn settings(run: &mut Run) {
    for _ in 0..20 {
        let list = sound(run);
        let words = list.words();
        let (cells, results) = needed(&list.settings, &words);
        for (stray, word) in strays(&list.settings) {
            let wanted = Answer::new(6, word as usize);
            run.list_gives(wanted, &stray, &words, cells, results);
            let both = Settings { payload: 0, ..stray };
            run.list_gives(wanted, &both, &words, cells, results);
        }
    }
}

/// Every field out of range, at the first, at some and at the last signal of a list.
pub fn fields(run: &mut Run) {
    for round in 0..3 * FIELDS.len() {
        let (mut list, field) = (sound(run), round % FIELDS.len());
        if round == 0 {
            list.signals = list.signals.iter().copied().cycle().take(600).collect();
        }
        let count = list.signals.len();
        for at in [0, run.random.index(count), count - 1] {
            let mut harmed = list.clone();
            harmed.signals[at] = stray_signal(run, &list.settings, &list.signals[at], field);
            let words = harmed.words();
            let (cells, results) = needed(&list.settings, &words);
            run.list_gives(Answer::new(7, at + 1), &list.settings, &words, cells, results);
            run.reached.count(&format!("list gives 7, {}", FIELDS[field]));
        }
    }
}
