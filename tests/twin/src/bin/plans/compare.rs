// One planning call of the library beside the same call of the twin; what differs, in words.
// Lent room is compared whole, and an accepted plan is also held against 01's sentences by themselves.

use std::io::Result;
use twin::book;
use twin::library::{words_of, Library};
use twin::lists::List;
use twin::plan::{plan, plan_book, signals_of, CYCLES, RESULT_WORDS};
use twin::table;
use twin::terms::{Answer, Settings};

/// A whole pattern of at most so many releases is walked.
const RELEASES: u64 = 500;

/// What the twin answers, what differs from it, and how much was looked at.
pub struct Compared {
    pub answer: Answer,
    pub differences: Vec<String>,
    pub walked: u64,
    /// Whether every cell of the table is taken.
    pub full: bool,
}

/// The first place at which lent room is not what it must be: the written head, then what it held before.
fn wrong_room<T: Copy + PartialEq>(name: &str, left: &[T], before: &[T], written: &[T]) -> Option<String> {
    let wanted = written.iter().chain(&before[written.len()..]);
    let at = left.iter().zip(wanted).position(|(is, wanted)| is != wanted)?;
    let part = if at < written.len() { "written" } else { "to stay" };
    Some(format!("{name} at {at} of {}, {part}", before.len()))
}

fn wrong_answer(given: u64, wanted: Answer) -> Option<String> {
    (given != wanted.packed()).then(|| format!("answer: library {}, twin {wanted}", Answer::unpacked(given)))
}

fn written_beside(guards_stand: bool, input_stands: bool) -> Vec<String> {
    let mut found = Vec::new();
    if !guards_stand {
        found.push("a guard beside lent room was written".to_string());
    }
    if !input_stands {
        found.push("what was only to be read was written".to_string());
    }
    found
}

/// Plans a list into cells and results that hold the given words before.
pub fn list(
    library: &mut Library, settings: &Settings, words: &[u32], cells: &[u32], results: &[u32],
) -> Result<Compared> {
    let twin = plan(settings, words, cells.len(), results.len());
    let left = library.plan_list(settings, words, cells, results)?;
    let mut differences = Vec::new();
    differences.extend(wrong_answer(left.answer, twin.answer));
    differences.extend(wrong_room("cells", &left.cells, cells, &twin.cells));
    differences.extend(wrong_room("results", &left.results, results, &twin.results));
    differences.extend(written_beside(left.guards_stand, left.input_stands));
    let (mut walked, mut full) = (0, false);
    let given = Answer::unpacked(left.answer);
    if twin.answer.number == 0 && given.number == 0 {
        let list = List { settings: *settings, signals: signals_of(words) };
        let head = &left.cells[..CYCLES * settings.slots as usize];
        let (wrong, ages) = table::faults(&list, given.place, head, &left.results, RELEASES);
        (walked, full) = (ages, head.iter().all(|&cell| cell != 0));
        differences.extend(wrong.into_iter().take(3));
    }
    Ok(Compared { answer: twin.answer, differences, walked, full })
}

/// Plans a book into results that hold the given bytes before.
pub fn book(library: &mut Library, bytes: &[u8], results: &[u8]) -> Result<Compared> {
    let (answer, written) = plan_book(bytes, results.len());
    let left = library.plan(bytes, results)?;
    let mut differences = Vec::new();
    differences.extend(wrong_answer(left.answer, answer));
    differences.extend(wrong_room("results", &left.room, results, &written));
    differences.extend(written_beside(left.guards_stand, left.input_stands));
    let given = Answer::unpacked(left.answer);
    let (mut walked, mut full) = (0, false);
    if answer.number == 0 && given.number == 0 {
        let reading = book::read(bytes, usize::MAX);
        let list = List { settings: Settings::from_words(reading.settings), signals: signals_of(&reading.list) };
        let words = words_of(&left.room[..4 * RESULT_WORDS * list.signals.len()]);
        match table::cells_of(&list, &words) {
            None => differences.push("the results name a cell twice, or a frame out of range".to_string()),
            Some(cells) => {
                let (wrong, ages) = table::faults(&list, given.place, &cells, &words, RELEASES);
                (walked, full) = (ages, cells.iter().all(|&cell| cell != 0));
                differences.extend(wrong.into_iter().take(3));
            }
        }
    }
    Ok(Compared { answer, differences, walked, full })
}
