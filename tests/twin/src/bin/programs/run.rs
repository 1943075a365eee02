// A run of the program over many books: each counted by what it reached, each difference gathered with its book.
// Standard output is compared byte for byte; standard error is empty, or one sentence.

use crate::start::{self, Wrote};
use std::path::Path;
use twin::book::BLOCK_BYTES;
use twin::drawn;
use twin::program::{written, wrong_sentence};
use twin::random::Random;
use twin::reached::Reached;
use twin::terms::{Answer, MOST_SIGNALS};

/// A book for which the program did not write what it must.
pub struct Found {
    pub name: String,
    pub what: String,
    pub book: Vec<u8>,
    pub cuts: Vec<usize>,
}

/// So many books are kept of each run; the others that differ are counted.
const KEPT: usize = 10;

pub struct Run<'a> {
    program: &'a Path,
    pub numbers: Reached,
    pub kinds: Reached,
    pub books: u64,
    pub differ: u64,
    pub found: Vec<Found>,
}

const KINDS: [&str; 18] = [
    "no byte", "one byte behind a book", "over 26 blocks", "in pieces", "in pieces with pauses",
    "gives 2 at block 0", "gives 2 at a later block", "gives 3 at block 0", "gives 3 at a later block",
    "gives 5 at block 0", "gives 5 at a later block", "gives 6 at word 2", "gives 6 at word 3", "gives 6 at word 4",
    "gives 6 at word 5", "gives 6 at word 6", "plan of no signal", "plan of 600 signals",
];

/// The first line that differs, or the lengths where one is the head of the other.
fn wrong_output(output: &str, wanted: &str) -> Option<String> {
    if output == wanted {
        return None;
    }
    let differs = output.lines().zip(wanted.lines()).find(|(is, wanted)| is != wanted);
    Some(match differs {
        Some((is, wanted)) => format!("it wrote {is:?}, not {wanted:?}"),
        None => format!("it wrote {} bytes, not {}", output.len(), wanted.len()),
    })
}

impl<'a> Run<'a> {
    /// Of so many drawn books each number is to come to one in five hundred.
    pub fn new(program: &'a Path, count: u64) -> Run<'a> {
        let names = (0..10).map(|number| format!("gives {number}"));
        let numbers = Reached::expecting(names).at_least((count / 500).max(1));
        Run { program, numbers, kinds: Reached::expecting(KINDS), books: 0, differ: 0, found: Vec::new() }
    }

    /// A book of a seed; some go in by several writes, and a few of these with pauses.
    pub fn drawn(&mut self, seed: u64, index: u64) {
        let book = drawn::book(seed, index);
        let random = &mut Random::new(seed ^ index);
        let mut cuts = Vec::new();
        if random.once_in(10) {
            cuts.extend((0..random.between(1, 5)).map(|_| random.index(book.len() + 1)));
            cuts.sort_unstable();
        }
        let paused = !cuts.is_empty() && random.once_in(50);
        self.book(&format!("book {index} of seed {seed}"), &book, &cuts, paused);
    }

    /// Gives a book to the program, cut where it is said.
    pub fn book(&mut self, name: &str, book: &[u8], cuts: &[usize], paused: bool) -> Answer {
        let (answer, wanted) = written(book);
        self.count(answer, book, cuts, paused);
        let wrong = match start::plan(self.program, book, cuts, paused) {
            Err(error) => Some(format!("it could not be asked ({error})")),
            Ok(wrote) => self.wrong(&wrote, answer, &wanted),
        };
        if let Some(what) = wrong {
            self.differs(name, book, cuts, what);
        }
        answer
    }

    fn wrong(&self, Wrote { output, error, ended_well }: &Wrote, answer: Answer, wanted: &str) -> Option<String> {
        let ended = (!ended_well).then(|| "it ended with a status other than 0".to_string());
        let sentence = || wrong_sentence(&String::from_utf8_lossy(error), answer);
        ended.or_else(|| wrong_output(&String::from_utf8_lossy(output), wanted)).or_else(sentence)
    }

    pub fn differs(&mut self, name: &str, book: &[u8], cuts: &[usize], what: String) {
        self.differ += 1;
        if self.found.len() < KEPT {
            self.found.push(Found { name: name.to_string(), what, book: book.to_vec(), cuts: cuts.to_vec() });
        }
    }

    fn count(&mut self, Answer { number, place }: Answer, book: &[u8], cuts: &[usize], paused: bool) {
        self.books += 1;
        self.numbers.count(&format!("gives {number}"));
        match number {
            2 | 3 | 5 if place == 0 => self.kinds.count(&format!("gives {number} at block 0")),
            2 | 3 | 5 => self.kinds.count(&format!("gives {number} at a later block")),
            6 => self.kinds.count(&format!("gives 6 at word {place}")),
            _ => {}
        }
        // The first block of a sound book says how many signals it has.
        let signals = if number == 0 { twin::book::word(book, 0, twin::book::COUNT) as usize } else { usize::MAX };
        let noted = [
            (book.is_empty(), "no byte"),
            (book.len() > BLOCK_BYTES && book.len() % BLOCK_BYTES == 1, "one byte behind a book"),
            (book.len() > 26 * BLOCK_BYTES, "over 26 blocks"),
            (!cuts.is_empty(), "in pieces"),
            (paused, "in pieces with pauses"),
            (signals == 0, "plan of no signal"),
            (signals == MOST_SIGNALS, "plan of 600 signals"),
        ];
        for (_, kind) in noted.into_iter().filter(|(so, _)| *so) {
            self.kinds.count(kind);
        }
    }

    /// Takes in what another run over the same program found.
    pub fn add(&mut self, other: Run) {
        self.numbers.add(&other.numbers);
        self.kinds.add(&other.kinds);
        self.books += other.books;
        self.differ += other.differ;
        self.found.extend(other.found);
        self.found.truncate(KEPT);
    }
}
