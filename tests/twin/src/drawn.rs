// Books by number: book i of a seed is the same on every run, whoever asks for it and in whatever order.
// Sound ones with lists of all kinds, fields out of range, damaged ones, sealed again or not, and no books at all.

use crate::book::{self, seal, set_word, BLOCK_BYTES};
use crate::damage;
use crate::draw;
use crate::lists::{self, List};
use crate::random::Random;
use crate::stray;
use crate::terms::{Frame, Question, Settings, MOST_SIGNALS};

/// How often the kinds come round.
const ROUND: u64 = 20;

pub fn book(seed: u64, index: u64) -> Vec<u8> {
    let random = &mut Random::new(Random::new(seed).bits() ^ Random::new(index).bits());
    match index % ROUND {
        0..=3 => of(&lists::small(random)),
        4 | 5 => of(&lists::middling(random)),
        6 | 7 => of(&lists::tight(random)),
        8 => of(&single(random)),
        9 => of(&crowded(random)),
        10..=12 => of(&varied(random)),
        13..=16 => harmed(random),
        17 => wild(random),
        18 => of_another_length(random),
        _ if index % (10 * ROUND) == ROUND - 1 => of(&long(random)),
        _ => any_words(random),
    }
}

fn of(list: &List) -> Vec<u8> {
    book::write(&list.settings.words(), &list.words(), usize::MAX).1
}

/// One signal at the ends of the ranges, its bound about a worst age.
pub fn single(random: &mut Random) -> List {
    let Question { settings, mut signal, .. } = draw::extreme(random);
    draw::bound_near_worst(random, &settings, &mut signal);
    List { settings, signals: vec![signal] }
}

/// No cell free, or one signal too many.
fn crowded(random: &mut Random) -> List {
    let list = lists::crowded(random);
    if random.once_in(2) && list.signals.len() < MOST_SIGNALS { lists::with_one_more(random, &list) } else { list }
}

/// A setting or a field about an end of its range, or far from it.
fn varied(random: &mut Random) -> List {
    let mut list = lists::small(random);
    let at = random.index(list.signals.len());
    let frame = Frame { slot: 1, repetition: 1, base: 0 };
    let question = Question { settings: list.settings, signal: list.signals[at], frame };
    let versions = stray::varied(&question, random.index(10));
    let Question { settings, signal, .. } = versions[random.index(versions.len())];
    list.settings = settings;
    list.signals[at] = signal;
    list
}

/// Up to 600 signals; few slots, for each is looked at for every signal.
fn long(random: &mut Random) -> List {
    let settings = Settings { slots: 12, ..draw::ordinary(random).settings };
    let signals = if random.once_in(2) { MOST_SIGNALS } else { 1 + random.index(MOST_SIGNALS) };
    let settings = Settings { slot_length: settings.slot_length.min(settings.cycle_length / 12), ..settings };
    let units = 1 + random.index(3);
    lists::large(random, &settings, signals, units, &[64])
}

/// One to three harms to the book of a list that may well be planned.
fn harmed(random: &mut Random) -> Vec<u8> {
    let list = if random.once_in(4) { lists::middling(random) } else { lists::small(random) };
    let mut book = of(&list);
    for _ in 0..random.between(1, 3) {
        damage::harm(random, &mut book);
    }
    book
}

/// A book of any words, sound or harmed: reading takes them, planning judges them.
fn any_words(random: &mut Random) -> Vec<u8> {
    let signals = damage::signals(random);
    let mut book = damage::sound(random, signals);
    for _ in 0..random.below(3) {
        damage::harm(random, &mut book);
    }
    book
}

/// Random bytes; of whole blocks also sealed, so that more than the check is looked at.
fn wild(random: &mut Random) -> Vec<u8> {
    let blocks = random.index(28);
    let mut book = damage::bytes(random, BLOCK_BYTES * blocks);
    match random.below(4) {
        0 => book.truncate(random.index(book.len() + 1)),
        1 => (0..blocks).for_each(|block| seal(&mut book, block)),
        2 => damage::rename_and_seal(&mut book),
        _ => {
            // The settings block of a book of this length, and nothing behind it that fits.
            book = of(&List { signals: Vec::new(), ..lists::small(random) });
            set_word(&mut book, 0, 7, random.wild());
            seal(&mut book, 0);
        }
    }
    book
}

/// A sound book cut, with bytes or blocks behind it, or nothing at all.
fn of_another_length(random: &mut Random) -> Vec<u8> {
    let mut book = of(&lists::middling(random));
    match random.below(6) {
        0 => book.clear(),
        1 => book.truncate(random.index(book.len())),
        2 => book.push(0),
        3 => book.resize(BLOCK_BYTES * (book.len() / BLOCK_BYTES + random.index(30)), 0),
        4 => book.truncate(BLOCK_BYTES * random.index(book.len() / BLOCK_BYTES)),
        _ => {
            let more = 1 + random.index(2_000);
            book.extend(damage::bytes(random, more));
        }
    }
    if random.once_in(2) {
        damage::rename_and_seal(&mut book);
    }
    book
}

#[cfg(test)]
mod tests {
    use super::*;
    use crate::plan::plan_book;

    #[test]
    fn a_number_brings_its_book_back() {
        assert!((0..100).all(|index| book(3, index) == book(3, index)));
        assert!((0..100).filter(|&index| book(3, index) != book(4, index)).count() > 90);
    }

    #[test]
    fn every_number_comes_often() {
        let mut seen = [0; 10];
        for index in 0..2_000 {
            seen[plan_book(&book(1, index), usize::MAX).0.number as usize] += 1;
        }
        assert!(seen.iter().all(|&times| times > 20), "{seen:?}");
    }
}
