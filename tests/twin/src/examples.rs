// 01's examples that are plans: cases 9 to 12, the whole example at its end, and lists its errors name.
// Each has its answer as 01 gives it; results stand where 01 gives slots and bases.

use crate::lists::List;
use crate::terms::{Answer, Settings, Signal};

pub struct Example {
    pub name: &'static str,
    pub list: List,
    pub answer: Answer,
    pub results: Option<Vec<u32>>,
}

/// A signal of 8 bits as 01's "T/O/D" names it.
fn signal(unit: u32, (period, offset, bound): (u32, u32, u32)) -> Signal {
    Signal { unit, period, offset, size: 8, bound }
}

const REPETITION_4: (u32, u32, u32) = (10_000, 2_000, 10_000);
const REPETITION_2: (u32, u32, u32) = (5_000, 2_000, 5_000);

fn example(name: &'static str, (slots, packing): (u32, u32), signals: Vec<Signal>, answer: (u32, usize)) -> Example {
    let settings = Settings { cycle_length: 2_500, slot_length: 16, slots, packing, payload: 8 };
    Example { name, list: List { settings, signals }, answer: Answer::new(answer.0, answer.1), results: None }
}

/// Four units, each with ten signals of repetition 2 and ten of repetition 4.
fn four_units() -> Vec<Signal> {
    let of_unit = |unit| {
        let tens = [REPETITION_2, REPETITION_4].map(|times| vec![signal(unit, times); 10]);
        tens.concat()
    };
    (1..=4).flat_map(of_unit).collect()
}

fn one(times: (u32, u32, u32)) -> Vec<Signal> {
    vec![signal(1, times)]
}

/// The plan printed at the end of 01: unit 3's signals of 16 and 64 bits, then unit 1's.
fn whole_example() -> Example {
    let signals = [[3, 10_000, 2_000, 16, 10_000], [3, 5_000, 2_000, 64, 5_000], [1, 2_500, 2_000, 8, 2_500]];
    Example {
        results: Some(vec![2, 1, 4, 532, 2, 0, 2, 3_032, 1, 0, 1, 516]),
        ..example("the whole example", (93, 100), signals.map(Signal::from_words).to_vec(), (0, 2))
    }
}

pub fn examples() -> Vec<Example> {
    let in_list_order = |repetitions: [(u32, u32, u32); 3]| repetitions.map(|times| signal(1, times)).to_vec();
    vec![
        Example { results: Some(vec![1, 0, 1, 16]), ..example("case 1", (93, 0), one((2_500, 0, 2_500)), (0, 1)) },
        Example { results: Some(vec![1, 0, 1, 2_500]), ..example("case 2", (93, 0), one((2_500, 16, 2_500)), (0, 1)) },
        example("case 3", (93, 0), one((2_500, 15, 2_500)), (8, 1)),
        example("case 4", (93, 1), one((2_500, 0, 2_500)), (8, 1)),
        example("case 9, 29 slots", (29, 0), one((2_500, 472, 2_500)), (0, 1)),
        example("case 9, 30 slots", (30, 0), one((2_500, 472, 2_500)), (8, 1)),
        Example {
            results: Some(vec![1, 1, 4, 516, 1, 0, 2, 3_016, 1, 3, 4, 5_516]),
            ..example("case 10", (93, 0), in_list_order([REPETITION_4, REPETITION_2, REPETITION_4]), (0, 1))
        },
        example("case 11", (93, 0), four_units(), (0, 32)),
        example("case 11, 32 slots", (32, 0), four_units(), (0, 32)),
        example("case 11, 31 slots", (31, 0), four_units(), (9, 32)),
        example("case 12", (93, 0), Vec::new(), (0, 0)),
        example("4, 4, 2 in one slot", (93, 0), in_list_order([REPETITION_4, REPETITION_4, REPETITION_2]), (0, 1)),
        whole_example(),
    ]
}
