// A run over many lists and books: each call counted by what it reached, each difference kept as a file.
// A file holds the book of the list; a list that no book can hold is kept as its settings and its words.

use crate::compare::{self, Compared};
use crate::kinds::kinds;
use std::io::Error;
use twin::book;
use twin::damage;
use twin::kit::beside_program;
use twin::library::{bytes_of, Library};
use twin::lists::List;
use twin::plan::{repetitions, CYCLES, RESULT_WORDS};
use twin::random::Random;
use twin::reached::Reached;
use twin::search::{search, Loose};
use twin::terms::{Answer, Settings, MOST_SIGNALS};

/// The most places that the search tries for one list.
const PATIENCE: u64 = 200_000;

pub struct Run {
    pub library: Library,
    pub seed: u64,
    pub random: Random,
    pub reached: Reached,
    /// Whether each list is planned as a book too.
    pub with_books: bool,
    pub lists: u64,
    pub books: u64,
    pub walked: u64,
    pub searched: u64,
    pub differ: u64,
}

/// The cells and result words that a list needs.
pub fn needed(settings: &Settings, words: &[u32]) -> (usize, usize) {
    (CYCLES * settings.slots.min(128) as usize, RESULT_WORDS * (words.len() / 5))
}

/// The bytes in which a list is kept, and the arguments that bring them back.
fn kept(settings: &Settings, words: &[u32], cells: usize, results: usize) -> (Vec<u8>, String) {
    let (answer, book) = book::write(&settings.words(), words, usize::MAX);
    let bytes = if answer.number == 0 { book } else { [bytes_of(&settings.words()), bytes_of(words)].concat() };
    (bytes, format!("list FILE {cells} {results}"))
}

impl Run {
    pub fn new(library: Library, seed: u64, with_books: bool) -> Run {
        let (random, reached) = (Random::new(seed), Reached::expecting(kinds(with_books)));
        Run { library, seed, random, reached, with_books, lists: 0, books: 0, walked: 0, searched: 0, differ: 0 }
    }

    /// Counts differences; the first ten are printed and kept.
    pub fn differs(&mut self, differences: &[String], bytes: &[u8], again: &str) {
        if differences.is_empty() {
            return;
        }
        self.differ += 1;
        if self.differ > 10 {
            return;
        }
        let what = differences.join("; ");
        let path = beside_program(&format!("differs-plan-{}.book", self.differ));
        match path.and_then(|path| std::fs::write(&path, bytes).map(|()| path)) {
            Ok(path) => {
                let again = again.replace("FILE", &path.display().to_string());
                println!("DIFFERS {what}; again with: plans {again}");
            }
            Err(error) => println!("DIFFERS {what}; it could not be kept: {error}"),
        }
    }

    /// A library that gives no answer has broken off; there is nobody left to ask more.
    fn no_answer(&mut self, error: Error, bytes: &[u8], again: &str) -> ! {
        self.differ = self.differ.min(9);
        self.differs(&[format!("the library gave no answer ({error})")], bytes, again);
        std::process::exit(1)
    }

    /// Plans a list on both sides with so many cells and result words; then its book, if it has one.
    pub fn list(&mut self, settings: &Settings, words: &[u32], cells: usize, results: usize) -> Answer {
        let before = [cells, results].map(|length| damage::words(&mut self.random, length));
        let (bytes, again) = kept(settings, words, cells, results);
        let done = compare::list(&mut self.library, settings, words, &before[0], &before[1]);
        let Compared { answer, differences, walked, full } = match done {
            Ok(compared) => compared,
            Err(error) => self.no_answer(error, &bytes, &again),
        };
        self.lists += 1;
        self.walked += walked;
        self.count_list(answer, settings, words, cells, results);
        if full {
            self.reached.count("list: no cell left free");
        }
        self.differs(&differences, &bytes, &again);
        if self.with_books && words.len().is_multiple_of(5) && words.len() <= 5 * MOST_SIGNALS {
            // Up to three bytes more make no word more.
            let odd = self.random.index(4);
            self.book(&bytes, 4 * results + odd);
        }
        answer
    }

    /// As `list`, where the answer is known beforehand.
    pub fn list_gives(&mut self, wanted: Answer, settings: &Settings, words: &[u32], cells: usize, results: usize) {
        let given = self.list(settings, words, cells, results);
        if given != wanted {
            let (bytes, again) = kept(settings, words, cells, results);
            self.differs(&[format!("the twin gave {given} where {wanted} was to come")], &bytes, &again);
        }
    }

    /// Plans a list in room that is just enough, or somewhat more.
    pub fn plan(&mut self, list: &List) -> Answer {
        let words = list.words();
        let (cells, results) = needed(&list.settings, &words);
        let more = [0, 0, 1, self.random.index(200)];
        let (more_cells, more_results) = (more[self.random.index(4)], more[self.random.index(4)]);
        self.list(&list.settings, &words, cells + more_cells, results + more_results)
    }

    /// Plans a book on both sides with so many bytes for the results.
    pub fn book(&mut self, bytes: &[u8], result_bytes: usize) -> Answer {
        let before = damage::bytes(&mut self.random, result_bytes);
        let again = format!("one FILE {result_bytes}");
        let Compared { answer, differences, walked, .. } = match compare::book(&mut self.library, bytes, &before) {
            Ok(compared) => compared,
            Err(error) => self.no_answer(error, bytes, &again),
        };
        self.books += 1;
        self.walked += walked;
        self.count_book(answer, book::judged(bytes).unwrap_or(0), result_bytes);
        self.differs(&differences, bytes, &again);
        answer
    }

    /// As `book`, where the answer is known beforehand.
    pub fn book_gives(&mut self, wanted: Answer, bytes: &[u8], result_bytes: usize) {
        let given = self.book(bytes, result_bytes);
        if given != wanted {
            let difference = format!("the twin gave {given} where {wanted} was to come");
            self.differs(&[difference], bytes, &format!("one FILE {result_bytes}"));
        }
    }

    /// Plans a list and tries every other table too: none where it is refused, none with fewer slots where it is not.
    pub fn plan_and_search(&mut self, list: &List) {
        let answer = self.plan(list);
        if answer.number != 0 && answer.number != 9 {
            return;
        }
        let frames = Loose::all(&list.signals, &repetitions(&list.settings, &list.signals));
        let slots = list.settings.slots as usize;
        let Some(fewest) = search(slots, &frames, PATIENCE) else { return };
        self.searched += 1;
        self.reached.count(match fewest {
            None => "searched: no table",
            Some(fewest) if fewest < slots => "searched: fewest slots, some left",
            Some(_) => "searched: fewest slots, none left",
        });
        let number = if fewest.is_none() { 9 } else { 0 };
        let agree = answer.number == number && fewest.is_none_or(|fewest| fewest == answer.place as usize);
        let widened = if fewest.is_none() { search(answer.place as usize, &frames, PATIENCE) } else { None };
        let place_is_fewest = widened.is_none_or(|fewest| fewest == Some(answer.place as usize));
        if widened.is_some() {
            self.reached.count("searched: 9's place is the fewest that would do");
        }
        if !agree || !place_is_fewest {
            let (cells, results) = needed(&list.settings, &list.words());
            let (bytes, again) = kept(&list.settings, &list.words(), cells, results);
            self.differs(&[format!("the twin gave {answer}, the search found {fewest:?} slots")], &bytes, &again);
        }
    }
}
