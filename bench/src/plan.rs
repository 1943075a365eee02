// The `plan` measure: a list of 600 signals over 60 units, planned into 128 slots by the library and by the twin.
// Where the library has no noctelvia_plan_list, build.rs leaves its side out and there is no measure.

use crate::SETTINGS;
use std::hint::black_box;
use twin::lists;
use twin::plan;
use twin::random::Random;
use twin::terms::{Answer, Signal};

const CELLS: usize = 64 * SETTINGS.slots as usize;

/// Repetitions from 8 to 64, with bounds that are kept by the last place to be looked at or fail there.
pub fn signals() -> Vec<Signal> {
    let signals = lists::large(&mut Random::new(3), &SETTINGS, crate::SIGNALS, 60, &[8, 16, 32, 64]).signals;
    let answer = plan::plan(&SETTINGS, &words(&signals), CELLS, 4 * signals.len()).answer;
    assert_eq!(answer.number, 0, "a list that is refused would measure no filling");
    signals
}

fn words(signals: &[Signal]) -> Vec<u32> {
    signals.iter().flat_map(Signal::words).collect()
}

/// One number out of all that planning gives, so that none of it can be left out.
fn digest(answer: u64, cells: &[u32], results: &[u32]) -> u32 {
    let mixed = |sum: u32, &word: &u32| sum.wrapping_mul(31).wrapping_add(word);
    let Answer { number, place } = Answer::unpacked(answer);
    [number, place].iter().chain(cells).chain(results).fold(0, mixed)
}

pub fn twin(signals: &[Signal]) -> u32 {
    let list = words(black_box(signals));
    let plan = plan::plan(black_box(&SETTINGS), &list, CELLS, 4 * signals.len());
    digest(plan.answer.packed(), &plan.cells, &plan.results)
}

#[cfg(plan_list)]
extern "C" {
    fn noctelvia_plan_list(
        cycle: u32, slot_length: u32, slots: u32, packing: u32, payload: u32, list: *const u32, list_words: usize,
        cells: *mut u32, cells_words: usize, results: *mut u32, results_words: usize,
    ) -> u64;
}

#[cfg(plan_list)]
fn library(signals: &[Signal]) -> u32 {
    let list = words(black_box(signals));
    let (mut cells, mut results) = (vec![0; CELLS], vec![0; 4 * signals.len()]);
    let [a, b, c, d, e] = SETTINGS.words();
    // Safety: each pointer is lent with the length of its own vector, and the three do not overlap.
    let answer = unsafe {
        noctelvia_plan_list(
            a, b, c, d, e, list.as_ptr(), list.len(),
            cells.as_mut_ptr(), cells.len(), results.as_mut_ptr(), results.len(),
        )
    };
    digest(answer, &cells, &results)
}

#[cfg(plan_list)]
pub const LIBRARY: Option<fn(&[Signal]) -> u32> = Some(library);
#[cfg(not(plan_list))]
pub const LIBRARY: Option<fn(&[Signal]) -> u32> = None;
