// A run over many questions: each asked of both sides, counted by what it reached.
// Ages are compared by the formula and, where the whole pattern is short enough, by walking it.

use twin::age::{age_by_formula, distance, gcd, releases_in_pattern, times, walk};
use twin::library::Library;
use twin::random::Random;
use twin::reached::Reached;
use twin::rule::{repetition_by_formula, repetition_walked};
use twin::stray;
use twin::terms::{Question, Settings, Signal, REPETITIONS};

/// A whole pattern of at most so many releases is walked every time, a longer one now and then.
const SHORT_PATTERN: u64 = 20_000;
const LONG_PATTERNS: u32 = 100;

const KINDS: [&str; 9] = [
    "age 0",
    "age above 0",
    "age walked by definition",
    "a release due exactly at a start",
    "offset past the first start, with a remainder",
    "releases within 64 cycles, the worst one later",
    "repetition walked by definition",
    "bound equal to the worst age",
    "bound one below the worst age",
];

pub struct Run {
    pub library: Library,
    pub random: Random,
    pub reached: Reached,
    pub ages: u64,
    pub repetitions: u64,
    pub differ: u64,
}

pub fn stray_kind(what: &str, field: usize, below: bool) -> String {
    format!("{what} out of range, {} {}", stray::FIELDS[field], if below { "too low" } else { "too high" })
}

fn kinds() -> Vec<String> {
    let mut kinds: Vec<String> = KINDS.iter().map(|kind| kind.to_string()).collect();
    kinds.extend([0].into_iter().chain(REPETITIONS).map(|given| format!("repetition {given}")));
    for (what, fields) in [("age", 13), ("repetition", 10)] {
        for field in 0..fields {
            // Packing, offset and base may be 0, so nothing lies below them.
            if ![3, 7, 12].contains(&field) {
                kinds.push(stray_kind(what, field, true));
            }
            kinds.push(stray_kind(what, field, false));
        }
    }
    kinds
}

pub fn ten(settings: &Settings, signal: &Signal) -> [u32; 10] {
    let ([a, b, c, d, e], [f, g, h, i, j]) = (settings.words(), signal.words());
    [a, b, c, d, e, f, g, h, i, j]
}

fn listed(words: &[u32]) -> String {
    words.iter().map(u32::to_string).collect::<Vec<String>>().join(" ")
}

/// A library that gives no answer has broken off; there is nobody left to ask more.
fn no_answer(error: std::io::Error, words: &[u32]) -> ! {
    println!("DIFFERS the library gave no answer ({error}); again with: ages one {}", listed(words));
    std::process::exit(1)
}

impl Run {
    pub fn new(library: Library, seed: u64) -> Run {
        let reached = Reached::expecting(kinds());
        Run { library, random: Random::new(seed), reached, ages: 0, repetitions: 0, differ: 0 }
    }

    /// Counts a difference; the first ten are printed with the words that bring them back.
    pub fn differs(&mut self, what: &str, words: &[u32]) {
        self.differ += 1;
        if self.differ <= 10 {
            println!("DIFFERS {what}; again with: ages one {}", listed(words));
        }
    }

    /// Asks one age of both sides and gives the twin's.
    pub fn age(&mut self, question: &Question) -> u32 {
        let words = question.words();
        let twin = age_by_formula(question);
        let library = self.library.age(&words).unwrap_or_else(|error| no_answer(error, &words));
        self.ages += 1;
        self.reached.count(if twin == 0 { "age 0" } else { "age above 0" });
        if library != twin {
            self.differs(&format!("age: library {library}, twin {twin}"), &words);
        }
        if question.in_range() {
            self.look_closer(question, twin);
        }
        twin
    }

    /// Walks the age where that is short enough, and counts what kind of question it was.
    fn look_closer(&mut self, question: &Question, twin: u32) {
        let times = times(question);
        let g = gcd(times.period, times.between_starts);
        let d = distance(&times, g);
        if times.packing % g == d {
            self.reached.count("a release due exactly at a start");
        }
        if times.offset > times.first_start && d != 0 {
            self.reached.count("offset past the first start, with a remainder");
        }
        if releases_in_pattern(&times) <= SHORT_PATTERN || self.random.once_in(LONG_PATTERNS) {
            let worst = walk(&times);
            self.reached.count("age walked by definition");
            let sixty_four = 64 * u64::from(question.settings.cycle_length);
            if times.offset < sixty_four && worst.release >= sixty_four {
                self.reached.count("releases within 64 cycles, the worst one later");
            }
            if worst.age != u64::from(twin) {
                self.differs(&format!("age: twin walked {}, by formula {twin}", worst.age), &question.words());
            }
        }
    }

    /// Asks one repetition of both sides and gives the twin's.
    pub fn repetition(&mut self, settings: &Settings, signal: &Signal, walked: bool) -> u32 {
        let words = ten(settings, signal);
        let twin = repetition_by_formula(settings, signal);
        let library = self.library.repetition(&words).unwrap_or_else(|error| no_answer(error, &words));
        self.repetitions += 1;
        self.reached.count(&format!("repetition {twin}"));
        if library != twin {
            self.differs(&format!("repetition: library {library}, twin {twin}"), &words);
        }
        if walked {
            let by_walking = repetition_walked(settings, signal);
            self.reached.count("repetition walked by definition");
            if by_walking != twin {
                self.differs(&format!("repetition: twin walked {by_walking}, by formula {twin}"), &words);
            }
        }
        twin
    }
}
