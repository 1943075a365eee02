// A run over many books: each call counted by what it reached, each difference kept as a file.
// A file holds the book that was read, or the settings and the list that were to be written.

use crate::compare;
use twin::kit::beside_program;
use twin::library::{bytes_of, Asked, Library};
use twin::random::Random;
use twin::reached::Reached;
use twin::terms::Answer;
use twin::{book, damage};

pub struct Run {
    pub library: Library,
    pub random: Random,
    pub reached: Reached,
    pub readings: u64,
    pub writings: u64,
    pub settings: u64,
    pub parts: u64,
    pub differ: u64,
}

fn kinds() -> Vec<String> {
    let mut kinds: Vec<String> = [0, 1, 2, 3, 4, 5, 10].iter().map(|number| format!("reading gives {number}")).collect();
    for number in [2, 3, 5] {
        for place in ["block 0", "a later block", "block 25"] {
            kinds.push(format!("reading gives {number} at {place}"));
        }
    }
    kinds.extend([0, 4, 10].map(|number| format!("writing gives {number}")));
    kinds.extend([2, 3, 4, 5, 6].map(|word| format!("setting word {word} above 0")));
    let others = [
        "list longer than read", "room longer than written", "setting of a refused book", "setting of another word",
        "part in a sound book", "part of no signal", "part of a refused book",
    ];
    kinds.extend(others.map(str::to_string));
    kinds
}

impl Run {
    pub fn new(library: Library, seed: u64) -> Run {
        let (random, reached) = (Random::new(seed), Reached::expecting(kinds()));
        Run { library, random, reached, readings: 0, writings: 0, settings: 0, parts: 0, differ: 0 }
    }

    /// Counts differences; the first ten are printed and kept.
    fn differs(&mut self, differences: &[String], again: &str, bytes: &[u8], room: usize) {
        if differences.is_empty() {
            return;
        }
        self.differ += 1;
        if self.differ > 10 {
            return;
        }
        let path = beside_program(&format!("differs-{}.book", self.differ));
        let kept = path.and_then(|path| std::fs::write(&path, bytes).map(|()| path));
        match kept {
            Ok(path) => println!("DIFFERS {}; again with: books {again} {} {room}", differences.join("; "), path.display()),
            Err(error) => println!("DIFFERS {}; it could not be kept: {error}", differences.join("; ")),
        }
    }

    /// A library that gives no answer has broken off; there is nobody left to ask more.
    fn no_answer(&mut self, error: std::io::Error, again: &str, bytes: &[u8], room: usize) -> ! {
        self.differ = self.differ.min(9);
        self.differs(&[format!("the library gave no answer ({error})")], again, bytes, room);
        std::process::exit(1)
    }

    /// Reads a book on both sides into a list of so many words, and asks it for some settings and parts.
    pub fn reading(&mut self, bytes: &[u8], list_words: usize) -> Answer {
        let judged = book::judged(bytes).ok();
        let asked = Asked { settings: self.some_words(), parts: self.some_signals(judged) };
        self.reading_asked(bytes, list_words, &asked)
    }

    /// Reads a book on both sides and asks it for the given settings and parts.
    pub fn reading_asked(&mut self, bytes: &[u8], list_words: usize, asked: &Asked) -> Answer {
        let list = damage::words(&mut self.random, list_words);
        let differences = match compare::reading(&mut self.library, bytes, &list, asked) {
            Ok(differences) => differences,
            Err(error) => self.no_answer(error, "one", bytes, list_words),
        };
        let answer = book::read(bytes, list_words).answer;
        self.count_reading(answer, list_words);
        self.count_asked(bytes, asked);
        self.differs(&differences, "one", bytes, list_words);
        answer
    }

    /// As `reading`, where the answer is known beforehand.
    pub fn reading_gives(&mut self, number: u32, place: usize, bytes: &[u8], list_words: usize) {
        let (given, wanted) = (self.reading(bytes, list_words), Answer::new(number, place));
        if given != wanted {
            let difference = format!("the twin gave {given} where {wanted} was to come");
            self.differs(&[difference], "one", bytes, list_words);
        }
    }

    fn count_reading(&mut self, Answer { number, place }: Answer, list_words: usize) {
        self.readings += 1;
        self.reached.count(&format!("reading gives {number}"));
        if number == 0 && list_words > 5 * place as usize {
            self.reached.count("list longer than read");
        }
        if [2, 3, 5].contains(&number) {
            let block = if place == 0 { "block 0" } else { "a later block" };
            self.reached.count(&format!("reading gives {number} at {block}"));
            if place == 25 {
                self.reached.count(&format!("reading gives {number} at block 25"));
            }
        }
    }

    /// Two setting words, one of them at times none of the five.
    fn some_words(&mut self) -> Vec<u32> {
        let stray = [0, 1, 7, 8, 127, 128, u32::MAX, self.random.wild()];
        let other = if self.random.once_in(3) { self.random.pick(&stray) } else { self.random.between(2, 6) };
        vec![self.random.between(2, 6), other]
    }

    /// Two signals about the ends of the list, or anywhere.
    fn some_signals(&mut self, signals: Option<usize>) -> Vec<u32> {
        // A refused book has no count to go by; any number will do there.
        let count = signals.unwrap_or_else(|| self.random.index(601)) as u32;
        let some = self.random.between(0, count + 1);
        let ends = [0, 1, count, count + 1, u32::MAX];
        vec![self.random.pick(&ends), some]
    }

    fn count_asked(&mut self, bytes: &[u8], asked: &Asked) {
        let judged = book::judged(bytes);
        for &word in &asked.settings {
            self.settings += 1;
            if judged.is_err() {
                self.reached.count("setting of a refused book");
            } else if !(2..=6).contains(&word) {
                self.reached.count("setting of another word");
            } else if book::word(bytes, 0, word as usize) > 0 {
                self.reached.count(&format!("setting word {word} above 0"));
            }
        }
        for &signal in &asked.parts {
            self.parts += 1;
            self.reached.count(match judged {
                Err(_) => "part of a refused book",
                Ok(signals) if (1..=signals as u32).contains(&signal) => "part in a sound book",
                Ok(_) => "part of no signal",
            });
        }
    }

    /// Writes a book on both sides into room of so many bytes.
    pub fn writing(&mut self, settings: &[u32; 5], list: &[u32], room_bytes: usize) -> Answer {
        let room = damage::bytes(&mut self.random, room_bytes);
        let kept: Vec<u8> = [bytes_of(settings), bytes_of(list)].concat();
        let differences = match compare::writing(&mut self.library, settings, list, &room) {
            Ok(differences) => differences,
            Err(error) => self.no_answer(error, "write", &kept, room_bytes),
        };
        self.writings += 1;
        let (answer, written) = book::write(settings, list, room_bytes);
        self.reached.count(&format!("writing gives {}", answer.number));
        if answer.number == 0 && room_bytes > written.len() {
            self.reached.count("room longer than written");
        }
        self.differs(&differences, "write", &kept, room_bytes);
        answer
    }
}
