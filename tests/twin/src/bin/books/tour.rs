// The books that are tried: sound ones of every length, each kind of damage by itself, then many at once.
// Where only one thing is wrong the answer is known beforehand, and the twin has to give it too.

use crate::run::Run;
use twin::book::{blocks_of, seal, set_word, signals_in, word, write, BLOCK_BYTES, CHECK, COUNT, MOST_BLOCKS};
use twin::damage;
use twin::library::Asked;

/// Signal counts about the ends of a block and of the range.
const SIGNALS: [usize; 8] = [0, 1, 23, 24, 25, 48, 599, 600];
/// More words than any book holds.
const AMPLE: usize = 3_010;

pub fn all(run: &mut Run, count: u64) {
    for signals in SIGNALS {
        for _ in 0..4 {
            sound(run, signals);
        }
        let book = damage::sound(&mut run.random, signals);
        everything(run, &book, signals);
        bit_by_bit(run, &book);
        misnamed(run, &book);
        moved(run, &book);
        recounted(run, &book, signals);
        filled(run, &book, signals);
    }
    lengths(run);
    refused_writings(run);
    harmed(run, count);
    garbage(run, count / 10);
}

/// Written by both, byte for byte, with exact, short and ample room; then read back the same ways.
fn sound(run: &mut Run, signals: usize) {
    let (settings, list) = (damage::settings(&mut run.random), damage::words(&mut run.random, 5 * signals));
    let (words, bytes) = (5 * signals, BLOCK_BYTES * blocks_of(signals));
    for room in [0, 1, bytes - BLOCK_BYTES, bytes - 1, bytes, bytes + 1, bytes + 511, bytes + 1_000, 20_000] {
        run.writing(&settings, &list, room);
    }
    let written = write(&settings, &list, bytes).1;
    run.reading_gives(0, signals, &written, words);
    for more in [1, 2, 5, 7, 1_000] {
        run.reading_gives(0, signals, &written, words + more);
    }
    for less in [1, 2, 5, words].into_iter().filter(|&less| less > 0 && less <= words) {
        run.reading_gives(10, words, &written, words - less);
    }
}

/// Every word of the settings block as a setting, and every signal's part, of the list and behind it.
fn everything(run: &mut Run, book: &[u8], signals: usize) {
    let parts = (0..=signals as u32 + 30).chain([u32::MAX - 1, u32::MAX]).collect();
    let settings = (0..=130).chain([u32::MAX]).collect();
    run.reading_asked(book, AMPLE, &Asked { settings, parts });
}

/// Every bit of some words of each block: with the old check, then sealed again.
fn bit_by_bit(run: &mut Run, book: &[u8]) {
    for block in 0..book.len() / BLOCK_BYTES {
        let telling = [0; 3].map(|_| damage::telling_word(&mut run.random, block));
        for index in [0, 126, 127].into_iter().chain(telling) {
            for bit in 0..32 {
                let mut damaged = book.to_vec();
                damage::flip(&mut damaged, block, index, bit);
                run.reading_gives(2, block, &damaged, AMPLE);
                seal(&mut damaged, block);
                sealed_again(run, &damaged, block, index);
            }
        }
    }
}

/// A block whose word was changed and whose check is right: the answer follows from the word alone.
fn sealed_again(run: &mut Run, damaged: &[u8], block: usize, index: usize) {
    match (block, index) {
        (_, 0 | 1) => run.reading_gives(3, block, damaged, AMPLE),
        (0, COUNT) => run.reading_gives(4, 0, damaged, AMPLE),
        (0, 8..CHECK) => run.reading_gives(5, 0, damaged, AMPLE),
        (1.., 2) => run.reading_gives(4, 0, damaged, AMPLE),
        (1.., 123..CHECK) => run.reading_gives(5, block, damaged, AMPLE),
        _ => {
            run.reading(damaged, AMPLE);
        }
    }
}

/// Each block with another block's number and with the other kind, alone and with a later block wrong too.
fn misnamed(run: &mut Run, book: &[u8]) {
    let last = book.len() / BLOCK_BYTES - 1;
    for block in 0..=last {
        let (number, kind) = (block as u32, word(book, block, 1));
        let names = [(0, number + 1), (0, number.wrapping_sub(1)), (0, number + 256), (1, 3 - kind), (1, 0), (1, 3)];
        for (index, name) in names {
            let mut damaged = book.to_vec();
            set_word(&mut damaged, block, index, name);
            seal(&mut damaged, block);
            run.reading_gives(3, block, &damaged, AMPLE);
            set_word(&mut damaged, last, 1, 7);
            seal(&mut damaged, last);
            run.reading_gives(3, block, &damaged, 0);
        }
    }
}

/// Blocks swapped, doubled and left out, as they are and with the numbers of their new places.
fn moved(run: &mut Run, book: &[u8]) {
    let blocks = book.len() / BLOCK_BYTES;
    for block in 0..blocks {
        let mut versions = vec![book.to_vec(); 3];
        damage::swap(&mut versions[0], block, (block + 1) % blocks);
        damage::double(&mut versions[1], block);
        damage::leave_out(&mut versions[2], block);
        for mut version in versions {
            run.reading(&version, AMPLE);
            damage::rename_and_seal(&mut version);
            run.reading(&version, AMPLE);
        }
    }
}

/// Wrong signal counts, of the book and of each of its blocks.
fn recounted(run: &mut Run, book: &[u8], signals: usize) {
    let right = signals as u32;
    let counts = [right + 24, right + 1, right.wrapping_sub(1), 601, 624, 0x8000_0000 + right, u32::MAX, u32::MAX - 22];
    for count in counts {
        recount(run, book, 0, COUNT, count);
    }
    for block in 1..book.len() / BLOCK_BYTES {
        let held = signals_in(block, signals) as u32;
        for count in [0, held - 1, held + 1, 25, 26, held + (1 << 31), u32::MAX] {
            if count != held {
                recount(run, book, block, 2, count);
            }
        }
    }
}

fn recount(run: &mut Run, book: &[u8], block: usize, index: usize, count: u32) {
    let mut damaged = book.to_vec();
    set_word(&mut damaged, block, index, count);
    seal(&mut damaged, block);
    run.reading_gives(4, 0, &damaged, AMPLE);
    // A count is judged before a word that must be zero, and before the room.
    set_word(&mut damaged, 0, 8, 1);
    seal(&mut damaged, 0);
    run.reading_gives(4, 0, &damaged, 0);
}

/// Something in each word that must be zero, alone and with another in a later block.
fn filled(run: &mut Run, book: &[u8], signals: usize) {
    let blocks = book.len() / BLOCK_BYTES;
    for block in 0..blocks {
        let first = if block == 0 { 8 } else { 3 + 5 * signals_in(block, signals) };
        for index in first..CHECK {
            let mut damaged = book.to_vec();
            set_word(&mut damaged, block, index, 1 << run.random.below(32));
            seal(&mut damaged, block);
            run.reading_gives(5, block, &damaged, AMPLE);
            let last = blocks - 1;
            let unused = if word(&damaged, last, 126) == 0 { 126 } else { 125 };
            set_word(&mut damaged, last, unused, 1);
            seal(&mut damaged, last);
            run.reading_gives(5, block, &damaged, 0);
        }
    }
}

/// Lengths that are no book's, of bytes that would be sound but for their length.
fn lengths(run: &mut Run) {
    let whole = damage::sound(&mut run.random, 600);
    run.reading_gives(0, 600, &whole, AMPLE);
    for bytes in [0, 1, 511, 513, BLOCK_BYTES * MOST_BLOCKS - 1] {
        run.reading_gives(1, 0, &whole[..bytes], AMPLE);
    }
    for block in 1..MOST_BLOCKS {
        run.reading_gives(4, 0, &whole[..BLOCK_BYTES * block], AMPLE);
    }
    for more in [1, 511, 512, 513, 1_024, 100 * 512] {
        let mut longer = whole.clone();
        longer.resize(whole.len() + more, 0);
        if more % BLOCK_BYTES == 0 {
            damage::rename_and_seal(&mut longer);
        }
        run.reading_gives(1, 0, &longer, AMPLE);
    }
}

/// Lists that are none, and such as are just still lists, with room and without.
fn refused_writings(run: &mut Run) {
    let settings = damage::settings(&mut run.random);
    let some = 5 * run.random.index(600) + 1 + run.random.index(4);
    for words in [1, 2, 3, 4, 6, 119, 121, 604, 605, 606, 2_999, 3_000, 3_001, 3_004, 3_005, 3_010, 6_000, 12_000, some] {
        let list = damage::words(&mut run.random, words);
        let exact = write(&settings, &list, usize::MAX).1.len();
        for room in [0, 511, 512, exact, exact.saturating_sub(1), exact + 1, BLOCK_BYTES * 26, BLOCK_BYTES * 27] {
            run.writing(&settings, &list, room);
        }
    }
}

/// Sound books with one to four harms, read into lists that are long enough, too short and just right.
fn harmed(run: &mut Run, count: u64) {
    for _ in 0..count {
        let signals = damage::signals(&mut run.random);
        let mut book = damage::sound(&mut run.random, signals);
        for _ in 0..run.random.between(1, 4) {
            damage::harm(&mut run.random, &mut book);
        }
        let list_words = match run.random.below(4) {
            0 => 0,
            1 => 5 * signals,
            2 => run.random.index(AMPLE),
            _ => AMPLE,
        };
        run.reading(&book, list_words);
    }
}

/// Random bytes of any length, and blocks of them sealed so that more than the check is looked at.
fn garbage(run: &mut Run, count: u64) {
    for round in 0..count {
        let length = run.random.index(28 * BLOCK_BYTES);
        let length = if round % 2 == 0 { length } else { length / BLOCK_BYTES * BLOCK_BYTES };
        let mut book = damage::bytes(&mut run.random, length);
        run.reading(&book, AMPLE);
        for block in 0..length / BLOCK_BYTES {
            seal(&mut book, block);
        }
        run.reading(&book, AMPLE);
        damage::rename_and_seal(&mut book);
        run.reading(&book, AMPLE);
    }
}
