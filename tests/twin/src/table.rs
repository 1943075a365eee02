// What 01 says of an accepted plan, held against cells and results without planning anything.
// Each sentence is looked at by itself: frames, ages, cells, units, and the count of slots.

use crate::age::{age_by_formula, releases_in_pattern, times, walk};
use crate::lists::List;
use crate::plan::{CYCLES, RESULT_WORDS};
use crate::terms::{Frame, Question};

/// A signal's frame and age, as its result gives them.
fn result(results: &[u32], index: usize) -> (Frame, u32) {
    let words = &results[RESULT_WORDS * index..][..RESULT_WORDS];
    (Frame { slot: words[0], repetition: words[2], base: words[1] }, words[3])
}

fn goes_out(frame: &Frame, cycle: usize) -> bool {
    cycle as u32 % frame.repetition == frame.base
}

/// What is wrong with a plan, in words, and how many of its ages were walked by the definition.
/// An age is walked where the whole pattern has at most so many releases.
pub fn faults(list: &List, slots_used: u32, cells: &[u32], results: &[u32], releases: u64) -> (Vec<String>, u64) {
    let mut found = Vec::new();
    let mut walked = 0;
    for (index, &signal) in list.signals.iter().enumerate() {
        let (frame, age) = result(results, index);
        let number = index + 1;
        if !frame.in_range(&list.settings) {
            found.push(format!("signal {number}: {frame:?} is out of range"));
            return (found, walked);
        }
        let question = Question { settings: list.settings, signal, frame };
        if age != age_by_formula(&question) {
            found.push(format!("signal {number}: age {age} is not the formula's"));
        }
        let times = times(&question);
        if releases_in_pattern(&times) <= releases {
            walked += 1;
            if u64::from(age) != walk(&times).age {
                found.push(format!("signal {number}: age {age} is not the definition's"));
            }
        }
        if age > signal.bound {
            found.push(format!("signal {number}: age {age} is over its bound"));
        }
    }
    found.extend(wrong_cells(list, cells, results));
    found.extend(shared_slots(list, cells));
    let used = cells.chunks(CYCLES).filter(|row| row.iter().any(|&cell| cell != 0)).count();
    if used != slots_used as usize {
        found.push(format!("{slots_used} slots said to be used, {used} hold something"));
    }
    (found, walked)
}

/// A cell holds a signal's number exactly when its slot is the signal's and its cycle one of the frame's.
fn wrong_cells(list: &List, cells: &[u32], results: &[u32]) -> Vec<String> {
    let mut found = Vec::new();
    for index in 0..list.signals.len() {
        let (frame, _) = result(results, index);
        let row = &cells[CYCLES * (frame.slot as usize - 1)..][..CYCLES];
        if (0..CYCLES).any(|cycle| (row[cycle] == index as u32 + 1) != goes_out(&frame, cycle)) {
            found.push(format!("signal {}: its slot does not show it in its cycles alone", index + 1));
        }
    }
    for (at, &cell) in cells.iter().enumerate().filter(|(_, &cell)| cell != 0) {
        let slot = (at / CYCLES + 1) as u32;
        if cell as usize > list.signals.len() || result(results, cell as usize - 1).0.slot != slot {
            found.push(format!("cell {at} holds {cell}, which is not in slot {slot}"));
        }
    }
    found
}

/// Slots in which two units stand.
fn shared_slots(list: &List, cells: &[u32]) -> Vec<String> {
    let mut found = Vec::new();
    for (before, row) in cells.chunks(CYCLES).enumerate() {
        let unit = |&cell: &u32| list.signals.get((cell as usize).wrapping_sub(1)).map(|signal| signal.unit);
        let mut units: Vec<u32> = row.iter().filter_map(unit).collect();
        units.dedup();
        if units.iter().any(|&unit| unit != units[0]) {
            found.push(format!("slot {} has more than one unit", before + 1));
        }
    }
    found
}

/// The cells that results name, where no table was lent; None if two signals would stand in one, or a frame nowhere.
pub fn cells_of(list: &List, results: &[u32]) -> Option<Vec<u32>> {
    let mut cells = vec![0; CYCLES * list.settings.slots as usize];
    for index in 0..list.signals.len() {
        let (frame, _) = result(results, index);
        if !frame.in_range(&list.settings) {
            return None;
        }
        for cycle in (0..CYCLES).filter(|&cycle| goes_out(&frame, cycle)) {
            let cell = &mut cells[CYCLES * (frame.slot as usize - 1) + cycle];
            if *cell != 0 {
                return None;
            }
            *cell = index as u32 + 1;
        }
    }
    Some(cells)
}

#[cfg(test)]
mod tests {
    use super::*;
    use crate::examples::examples;
    use crate::plan::plan;

    #[test]
    fn a_plan_spoilt_anywhere_is_found() {
        let example = examples().into_iter().find(|example| example.name == "the whole example").expect("it is listed");
        let list = example.list;
        let plan = plan(&list.settings, &list.words(), 8_192, 12);
        let clean = |used, cells: &[u32], results: &[u32]| faults(&list, used, cells, results, 1_000).0.is_empty();
        assert!(clean(2, &plan.cells, &plan.results));
        assert_eq!(cells_of(&list, &plan.results), Some(plan.cells.clone()));
        assert!(!clean(3, &plan.cells, &plan.results));
        for at in 0..plan.cells.len() {
            let mut cells = plan.cells.clone();
            cells[at] = if cells[at] == 3 { 0 } else { 3 };
            assert!(!clean(2, &cells, &plan.results), "cell {at}");
        }
        for at in 0..plan.results.len() {
            for other in [0, 1, 2, 3, 4, 64, 532, 3_032, u32::MAX] {
                let mut results = plan.results.clone();
                results[at] = other;
                assert_eq!(clean(2, &plan.cells, &results), results == plan.results, "word {at}: {other}");
            }
        }
    }
}
