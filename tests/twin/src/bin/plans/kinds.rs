// What a run has to reach: every number of planning with its places, for lists and for books.
// Number 11 is not among them: nothing gives it, and a run in which something does stops there.

use crate::faults;
use crate::run::Run;
use twin::terms::{Answer, Settings, MOST_SIGNALS};

const LIST_KINDS: [&str; 24] = [
    "list gives 0", "list gives 4, not of five words", "list gives 4, over 600 signals",
    "list gives 6 at word 2", "list gives 6 at word 3", "list gives 6 at word 4", "list gives 6 at word 5",
    "list gives 6 at word 6",
    "list gives 7 at signal 1", "list gives 7 at a later signal", "list gives 7 at signal 600",
    "list gives 8 at signal 1", "list gives 8 at a later signal", "list gives 9, one slot too many",
    "list gives 9, several slots too many", "list gives 10 for cells", "list gives 10 for results",
    "list: no signal", "list: 600 signals", "list: all of 128 slots used", "list: no cell left free",
    "list: cells behind the table", "list: words behind the results", "list: rooms of exactly the words needed",
];
const SEARCHED: [&str; 4] = [
    "searched: no table", "searched: fewest slots, some left", "searched: fewest slots, none left",
    "searched: 9's place is the fewest that would do",
];
const BOOK_KINDS: [&str; 17] = [
    "book gives 0", "book gives 1", "book gives 2", "book gives 3", "book gives 4", "book gives 5",
    "book gives 6 at word 2", "book gives 6 at word 3", "book gives 6 at word 4", "book gives 6 at word 5",
    "book gives 6 at word 6", "book gives 7", "book gives 8", "book gives 9", "book gives 10",
    "book: bytes behind the results", "book: results of a length not of whole words",
];

pub fn kinds(with_books: bool) -> Vec<String> {
    let mut kinds: Vec<String> = LIST_KINDS.iter().chain(&SEARCHED).map(|kind| kind.to_string()).collect();
    kinds.extend(faults::kinds());
    if with_books {
        kinds.extend(BOOK_KINDS.map(str::to_string));
    }
    kinds
}

impl Run {
    pub fn count_list(&mut self, answer: Answer, settings: &Settings, words: &[u32], cells: usize, results: usize) {
        let Answer { number, place } = answer;
        let signals = words.len() / 5;
        let at = if place == 1 { "signal 1" } else { "a later signal" };
        let kind = match number {
            0 => "list gives 0".to_string(),
            4 if signals > MOST_SIGNALS => "list gives 4, over 600 signals".to_string(),
            4 => "list gives 4, not of five words".to_string(),
            6 => format!("list gives 6 at word {place}"),
            7 | 8 => format!("list gives {number} at {at}"),
            9 if place == settings.slots + 1 => "list gives 9, one slot too many".to_string(),
            9 => "list gives 9, several slots too many".to_string(),
            10 if cells < 64 * settings.slots as usize => "list gives 10 for cells".to_string(),
            10 => "list gives 10 for results".to_string(),
            _ => panic!("nothing gives number {number}: {settings:?} {words:?}"),
        };
        self.reached.count(&kind);
        let noted = [
            (number == 7 && place == 600, "list gives 7 at signal 600"),
            (number == 0 && signals == 0, "list: no signal"),
            (number == 0 && signals == MOST_SIGNALS, "list: 600 signals"),
            (number == 0 && place == 128, "list: all of 128 slots used"),
            (number == 0 && cells > 64 * settings.slots as usize, "list: cells behind the table"),
            (number == 0 && results > 4 * signals, "list: words behind the results"),
            (number == 0 && (cells, results) == (64 * settings.slots as usize, 4 * signals),
                "list: rooms of exactly the words needed"),
        ];
        for (_, kind) in noted.into_iter().filter(|(so, _)| *so) {
            self.reached.count(kind);
        }
    }

    pub fn count_book(&mut self, Answer { number, place }: Answer, signals: usize, result_bytes: usize) {
        match number {
            6 => self.reached.count(&format!("book gives 6 at word {place}")),
            11 => panic!("nothing gives number 11"),
            _ => self.reached.count(&format!("book gives {number}")),
        }
        if number == 0 && result_bytes > 16 * signals {
            self.reached.count("book: bytes behind the results");
        }
        if !result_bytes.is_multiple_of(4) {
            self.reached.count("book: results of a length not of whole words");
        }
    }
}
