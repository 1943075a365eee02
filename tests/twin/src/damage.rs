// Books drawn at random, sound and damaged ones, with and without the check made right again.
// A damaged book that is sealed again gets past refusal 2, so that the later ones are reached.

use crate::book::{blocks_of, seal, set_word, word, write, BLOCK_BYTES, CHECK, COUNT, FIRST_SIGNAL};
use crate::random::Random;
use crate::terms::MOST_SIGNALS;

pub fn words(random: &mut Random, count: usize) -> Vec<u32> {
    (0..count).map(|_| if random.once_in(2) { random.word() } else { random.wild() }).collect()
}

pub fn bytes(random: &mut Random, count: usize) -> Vec<u8> {
    (0..count).map(|_| random.word() as u8).collect()
}

/// Five settings of any value, for the reader accepts them all.
pub fn settings(random: &mut Random) -> [u32; 5] {
    [(); 5].map(|()| random.wild())
}

/// A signal count, those about a full block more often than others.
pub fn signals(random: &mut Random) -> usize {
    let full = 24 * random.index(26);
    match random.below(4) {
        0 => full,
        1 => (full + 1).min(MOST_SIGNALS),
        2 => full.saturating_sub(1),
        _ => random.index(MOST_SIGNALS + 1),
    }
}

pub fn sound(random: &mut Random, signals: usize) -> Vec<u8> {
    let (settings, list) = (settings(random), words(random, 5 * signals));
    write(&settings, &list, BLOCK_BYTES * blocks_of(signals)).1
}

/// A word of a block: often one that names, counts, checks or must be zero.
pub fn telling_word(random: &mut Random, block: usize) -> usize {
    let settings_words = [0, 1, 2, 6, 7, 8, 9, 126, 127];
    let signal_words = [0, 1, 2, 3, 4, 122, 123, 126, 127];
    if random.once_in(3) {
        random.index(CHECK + 1)
    } else if block == 0 {
        settings_words[random.index(settings_words.len())]
    } else {
        signal_words[random.index(signal_words.len())]
    }
}

/// A block as bytes of its own, to be put elsewhere.
fn block_of(book: &[u8], block: usize) -> Vec<u8> {
    book[BLOCK_BYTES * block..BLOCK_BYTES * (block + 1)].to_vec()
}

pub fn swap(book: &mut [u8], one: usize, other: usize) {
    let (first, second) = (block_of(book, one), block_of(book, other));
    book[BLOCK_BYTES * one..][..BLOCK_BYTES].copy_from_slice(&second);
    book[BLOCK_BYTES * other..][..BLOCK_BYTES].copy_from_slice(&first);
}

pub fn double(book: &mut Vec<u8>, block: usize) {
    let twice = block_of(book, block);
    book.splice(BLOCK_BYTES * block..BLOCK_BYTES * block, twice);
}

pub fn leave_out(book: &mut Vec<u8>, block: usize) {
    book.drain(BLOCK_BYTES * block..BLOCK_BYTES * (block + 1));
}

/// Gives every block the number and kind of its place and seals it: only counts and zeros can be wrong then.
pub fn rename_and_seal(book: &mut [u8]) {
    for block in 0..book.len() / BLOCK_BYTES {
        set_word(book, block, 0, block as u32);
        set_word(book, block, 1, if block == 0 { 1 } else { 2 });
        seal(book, block);
    }
}

/// Turns one bit of a word over.
pub fn flip(book: &mut [u8], block: usize, index: usize, bit: u32) {
    let turned = word(book, block, index) ^ (1 << bit);
    set_word(book, block, index, turned);
}

/// Does one harm to a book, of whatever length it is by now.
pub fn harm(random: &mut Random, book: &mut Vec<u8>) {
    let blocks = book.len() / BLOCK_BYTES;
    if blocks == 0 {
        return book.extend(bytes(random, BLOCK_BYTES));
    }
    let (block, other) = (random.index(blocks), random.index(blocks));
    let index = telling_word(random, block);
    match random.below(16) {
        0..=3 => flip(book, block, index, random.below(32)),
        4..=6 => set_word(book, block, index, random.wild()),
        7 => set_word(book, block, 2, random.below(27)),
        8 | 9 => recount(random, book),
        10 => swap(book, block, other),
        11 => double(book, block),
        12 => leave_out(book, block),
        13 => rename_and_seal(book),
        14 => fill_behind(random, book, block),
        _ if random.once_in(4) => book.truncate(random.index(book.len())),
        _ => return,
    }
    if book.len() / BLOCK_BYTES == blocks && !random.once_in(8) {
        seal(book, block);
    }
}

/// Changes the signal count to one near by, a full block away, or far out.
fn recount(random: &mut Random, book: &mut [u8]) {
    let count = word(book, 0, COUNT);
    let wild = random.wild();
    let near = [count.wrapping_add(1), count.wrapping_sub(1), count.wrapping_add(24), 600, 601, u32::MAX, wild];
    set_word(book, 0, COUNT, random.pick(&near));
    seal(book, 0);
}

/// Puts something into a word behind the signals that a block says it holds.
fn fill_behind(random: &mut Random, book: &mut [u8], block: usize) {
    let first = if block == 0 { 8 } else { FIRST_SIGNAL + 5 * (word(book, block, 2).min(24) as usize) };
    let index = first + random.index(CHECK - first);
    set_word(book, block, index, random.wild());
}

#[cfg(test)]
mod tests {
    use super::*;
    use crate::book::judged;

    #[test]
    fn harm_reaches_every_refusal() {
        let mut random = Random::new(9);
        let mut seen = [0; 6];
        for _ in 0..4_000 {
            let signals = signals(&mut random);
            let mut book = sound(&mut random, signals);
            for _ in 0..random.between(1, 3) {
                harm(&mut random, &mut book);
            }
            seen[judged(&book).map_or_else(|answer| answer.number as usize, |_| 0)] += 1;
        }
        assert!(seen.iter().all(|&times| times > 50), "{seen:?}");
    }

    #[test]
    fn a_book_put_back_is_sound_again() {
        let mut random = Random::new(10);
        let whole = sound(&mut random, 50);
        let mut book = whole.clone();
        double(&mut book, 1);
        leave_out(&mut book, 2);
        swap(&mut book, 1, 2);
        swap(&mut book, 2, 1);
        assert_eq!(book, whole);
    }
}
