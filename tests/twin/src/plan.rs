// Planning, after 01's "Filling the table" and its order of planning: 6, 4, 10, 7, 8, 9, 11.
// The table itself is what is filled: a cycle is free where the cell of its slot is still 0.

use crate::age::age_by_formula;
use crate::book;
use crate::library::bytes_of;
use crate::rule::repetition_by_formula;
use crate::terms::{Answer, Frame, Question, Settings, Signal, MOST_SIGNALS};
use std::collections::BTreeMap;

/// The cycles of a table, and with them the cells of a slot.
pub const CYCLES: usize = 64;
/// The words of a signal's result: slot, base, repetition, age.
pub const RESULT_WORDS: usize = 4;

/// What planning gives: the answer, and the words that go to the heads of the lent table and results.
#[derive(Clone, Debug, PartialEq, Eq)]
pub struct Planning {
    pub answer: Answer,
    pub cells: Vec<u32>,
    pub results: Vec<u32>,
}

/// The signals of a list that holds whole ones.
pub fn signals_of(list: &[u32]) -> Vec<Signal> {
    list.chunks_exact(5).map(|w| Signal::from_words([w[0], w[1], w[2], w[3], w[4]])).collect()
}

/// Planning over words, with so many cells and result words lent.
pub fn plan(settings: &Settings, list: &[u32], cells_words: usize, results_words: usize) -> Planning {
    let planned = judged(settings, list, cells_words, results_words).and_then(|signals| planned(settings, &signals));
    planned.unwrap_or_else(|answer| Planning { answer, cells: Vec::new(), results: Vec::new() })
}

/// Planning from the editor: the answer, and the bytes that go to the head of the lent results.
pub fn plan_book(bytes: &[u8], result_bytes: usize) -> (Answer, Vec<u8>) {
    let reading = book::read(bytes, 5 * MOST_SIGNALS);
    if reading.answer.number != 0 {
        return (reading.answer, Vec::new());
    }
    // No table is lent, so none is too short; the results are, counted in bytes.
    let Planning { mut answer, results, .. } =
        plan(&Settings::from_words(reading.settings), &reading.list, usize::MAX, result_bytes / 4);
    if answer.number == 10 {
        answer.place *= 4;
    }
    (answer, bytes_of(&results))
}

/// Refusals 6, 4, 10 and 7; the signals of a list that none of them refuses.
fn judged(settings: &Settings, list: &[u32], cells_words: usize, results_words: usize) -> Result<Vec<Signal>, Answer> {
    let refused = |number, place| Err(Answer::new(number, place));
    if let Some(word) = settings.stray_word() {
        return refused(6, word as usize);
    }
    if !list.len().is_multiple_of(5) || list.len() / 5 > MOST_SIGNALS {
        return refused(4, 0);
    }
    let signals = signals_of(list);
    let (cells, results) = (CYCLES * settings.slots as usize, RESULT_WORDS * signals.len());
    if cells_words < cells {
        return refused(10, cells);
    }
    if results_words < results {
        return refused(10, results);
    }
    match signals.iter().position(|signal| !signal.in_range(settings)) {
        Some(before) => refused(7, before + 1),
        None => Ok(signals),
    }
}

/// Refusals 8, 9 and 11, and the plan of what none of them refuses.
fn planned(settings: &Settings, signals: &[Signal]) -> Result<Planning, Answer> {
    let repetitions = repetitions(settings, signals);
    if let Some(before) = repetitions.iter().position(|&repetition| repetition == 0) {
        return Err(Answer::new(8, before + 1));
    }
    let needed = slots_needed(signals, &repetitions);
    if needed > settings.slots as usize {
        return Err(Answer::new(9, needed));
    }
    let (cells, frames) = filled(settings, signals, &repetitions)?;
    let result = |(&signal, &frame): (&Signal, &Frame)| {
        let age = age_by_formula(&Question { settings: *settings, signal, frame });
        [frame.slot, frame.base, frame.repetition, age]
    };
    let results = signals.iter().zip(&frames).flat_map(result).collect();
    Ok(Planning { answer: Answer::new(0, needed), cells, results })
}

/// What the rule gives each signal; 0 where no repetition keeps the bound.
pub fn repetitions(settings: &Settings, signals: &[Signal]) -> Vec<u32> {
    signals.iter().map(|signal| repetition_by_formula(settings, signal)).collect()
}

/// The sum over units of 64/R over the unit's signals, divided by 64, rounded up.
pub fn slots_needed(signals: &[Signal], repetitions: &[u32]) -> usize {
    let mut loads: BTreeMap<u32, usize> = BTreeMap::new();
    for (signal, &repetition) in signals.iter().zip(repetitions) {
        *loads.entry(signal.unit).or_default() += CYCLES / repetition as usize;
    }
    loads.values().map(|load| load.div_ceil(CYCLES)).sum()
}

/// The table and each signal's frame, of a list whose slots suffice.
fn filled(settings: &Settings, signals: &[Signal], repetitions: &[u32]) -> Result<(Vec<u32>, Vec<Frame>), Answer> {
    let mut cells = vec![0; CYCLES * settings.slots as usize];
    let mut frames = vec![Frame { slot: 0, repetition: 0, base: 0 }; signals.len()];
    let mut order: Vec<usize> = (0..signals.len()).collect();
    order.sort_by_key(|&index| (signals[index].unit, repetitions[index], index));
    // Before the first slot there is a full one, of no unit.
    let (mut slot, mut unit, mut free) = (0, 0, None);
    for index in order {
        if signals[index].unit != unit || free.is_none() {
            (slot, unit, free) = (slot + 1, signals[index].unit, Some(0));
        }
        let frame = Frame { slot, repetition: repetitions[index], base: free.unwrap_or(0) };
        let row = &mut cells[CYCLES * (slot as usize - 1)..][..CYCLES];
        place(row, frame, index + 1)?;
        free = row.iter().position(|&cell| cell == 0).map(|cycle| cycle as u32);
        frames[index] = frame;
    }
    Ok((cells, frames))
}

/// Puts the signal's number into its frame's cycles of a slot's cells.
fn place(row: &mut [u32], frame: Frame, signal: usize) -> Result<(), Answer> {
    let cycles = || (frame.base as usize..CYCLES).step_by(frame.repetition as usize);
    if frame.base >= frame.repetition || cycles().any(|cycle| row[cycle] != 0) {
        return Err(Answer::new(11, signal));
    }
    cycles().for_each(|cycle| row[cycle] = signal as u32);
    Ok(())
}

#[cfg(test)]
mod tests {
    use super::*;
    use crate::examples::{examples, Example};
    use crate::lists;
    use crate::random::Random;
    use crate::search::{search, Loose};
    use crate::table;

    #[test]
    fn the_examples_come_out_as_01_says() {
        for Example { name, list, answer, results } in examples() {
            let words = list.words();
            let given = plan(&list.settings, &words, 8_192, 2_400);
            assert_eq!(given.answer, answer, "{name}");
            if let Some(results) = results {
                assert_eq!(given.results, results, "{name}");
            }
            if answer.number == 0 {
                assert_eq!(given.cells.len(), 64 * list.settings.slots as usize, "{name}");
                assert_eq!(given.results.len(), 4 * list.signals.len(), "{name}");
            }
        }
    }

    #[test]
    fn case_10_fills_one_slot() {
        let case = examples().into_iter().find(|example| example.name == "case 10").expect("it is listed");
        let cells = plan(&case.list.settings, &case.list.words(), 8_192, 12).cells;
        assert_eq!(cells[..8], [2, 1, 2, 3, 2, 1, 2, 3]);
        assert!(cells[..64].iter().all(|&cell| cell != 0) && cells[64..].iter().all(|&cell| cell == 0));
    }

    #[test]
    fn the_empty_table_is_all_zero() {
        let case = examples().into_iter().find(|example| example.name == "case 12").expect("it is listed");
        assert_eq!(plan(&case.list.settings, &[], 64 * 93, 0).cells, vec![0; 64 * 93]);
    }

    #[test]
    fn no_table_found_by_search_does_better() {
        let mut random = Random::new(11);
        let (mut searched, mut refused) = (0, 0);
        for _ in 0..1_500 {
            let list = lists::small(&mut random);
            let given = plan(&list.settings, &list.words(), 8_192, 2_400);
            let repetitions = repetitions(&list.settings, &list.signals);
            assert!(!repetitions.contains(&0), "{list:?}");
            let frames = Loose::all(&list.signals, &repetitions);
            let Some(fewest) = search(list.settings.slots as usize, &frames, 300_000) else { continue };
            searched += 1;
            refused += u32::from(fewest.is_none());
            assert_eq!(fewest.is_none(), given.answer.number == 9, "{list:?}");
            assert!(fewest.is_none_or(|fewest| fewest == given.answer.place as usize), "{list:?}");
        }
        assert!(searched > 1_000 && refused > 200, "{searched} searched, {refused} without a table");
    }

    #[test]
    fn what_is_accepted_is_as_01_says() {
        let mut random = Random::new(12);
        for _ in 0..200 {
            let list = lists::middling(&mut random);
            let given = plan(&list.settings, &list.words(), 8_192, 2_400);
            if given.answer.number == 0 {
                let wrong = table::faults(&list, given.answer.place, &given.cells, &given.results, 2_000).0;
                assert!(wrong.is_empty(), "{list:?}: {wrong:?}");
            }
        }
    }

    /// The answer for three signals under faults of settings, length, rooms and signals, as far as they are named.
    fn answer(settings: [u32; 5], cut: usize, cells: usize, results: usize, third: [u32; 5]) -> Answer {
        let good = [1, 10_000, 2_000, 16, 10_000];
        let list = [good, good, third].concat();
        plan(&Settings::from_words(settings), &list[cut..], cells, results).answer
    }

    #[test]
    fn the_earlier_refusal_decides() {
        let (good, stray) = ([2_500, 16, 2, 100, 8], [2_500, 16, 2, 16_001, 8]);
        let [fitting, out, tight] = [[3, 5_000, 2_000, 64, 5_000], [0, 1, 0, 1, 1], [2, 5_000, 2_000, 64, 1]];
        assert_eq!(answer(good, 0, 128, 12, fitting), Answer::new(0, 2));
        assert_eq!(answer(stray, 1, 127, 11, out), Answer::new(6, 5));
        assert_eq!(answer(good, 1, 127, 11, out), Answer::new(4, 0));
        assert_eq!(answer(good, 0, 127, 11, out), Answer::new(10, 128));
        assert_eq!(answer(good, 0, 128, 11, out), Answer::new(10, 12));
        assert_eq!(answer(good, 0, 128, 12, out), Answer::new(7, 3));
        assert_eq!(answer(good, 0, 128, 12, tight), Answer::new(8, 3));
        let settings = Settings::from_words(good);
        let whole = [1, 2_500, 2_000, 8, 2_500];
        assert_eq!(plan(&settings, &[tight, whole, out].concat(), 128, 12).answer, Answer::new(7, 3));
        assert_eq!(plan(&settings, &[whole, whole, tight, whole].concat(), 128, 16).answer, Answer::new(8, 3));
        assert_eq!(plan(&settings, &[whole, whole, whole].concat(), 128, 12).answer, Answer::new(9, 3));
    }

    #[test]
    fn from_the_editor_room_is_counted_in_bytes() {
        let example = examples().into_iter().find(|example| example.name == "the whole example").expect("it is listed");
        let book = book::write(&example.list.settings.words(), &example.list.words(), 1_024).1;
        assert_eq!(plan_book(&book, 47).0, Answer::new(10, 48));
        assert_eq!(plan_book(&book, 48), (Answer::new(0, 2), bytes_of(&example.results.expect("it has results"))));
        assert_eq!(plan_book(&book[..512], 48).0, Answer::new(4, 0));
    }
}
