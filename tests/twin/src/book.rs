// The book of blocks: a reader, a writer and the part of one signal, after 01's "The book of blocks".
// Refusals are judged in 01's order, each over all blocks before the next.

use crate::terms::{Answer, MOST_SIGNALS};

pub const BLOCK_BYTES: usize = 512;
pub const FULL_BLOCK: usize = 24;
pub const MOST_BLOCKS: usize = 26;
/// The check's word; the words before it are summed.
pub const CHECK: usize = 127;
/// The settings block's word that holds the signal count.
pub const COUNT: usize = 7;
/// The first word of a signal block's first signal.
pub const FIRST_SIGNAL: usize = 3;

pub fn word(book: &[u8], block: usize, index: usize) -> u32 {
    let at = BLOCK_BYTES * block + 4 * index;
    u32::from_le_bytes([book[at], book[at + 1], book[at + 2], book[at + 3]])
}

pub fn set_word(book: &mut [u8], block: usize, index: usize, value: u32) {
    let at = BLOCK_BYTES * block + 4 * index;
    book[at..at + 4].copy_from_slice(&value.to_le_bytes());
}

/// The sum of words 0 to 126 plus 1, kept to 32 bits.
pub fn check(book: &[u8], block: usize) -> u32 {
    let sum: u64 = (0..CHECK).map(|index| u64::from(word(book, block, index))).sum();
    ((sum + 1) % 4_294_967_296) as u32
}

/// Puts the right check into a block, whatever else it holds.
pub fn seal(book: &mut [u8], block: usize) {
    let right = check(book, block);
    set_word(book, block, CHECK, right);
}

/// How many blocks a book of so many signals has.
pub fn blocks_of(signals: usize) -> usize {
    1 + signals.div_ceil(FULL_BLOCK)
}

/// How many signals stand in a signal block of such a book.
pub fn signals_in(block: usize, signals: usize) -> usize {
    (signals - FULL_BLOCK * (block - 1)).min(FULL_BLOCK)
}

/// Refusals 1 to 5; the signal count of a book that none of them refuses.
pub fn judged(book: &[u8]) -> Result<usize, Answer> {
    let refused = |number, place| Err(Answer::new(number, place));
    if book.is_empty() || !book.len().is_multiple_of(BLOCK_BYTES) || book.len() > MOST_BLOCKS * BLOCK_BYTES {
        return refused(1, 0);
    }
    let blocks = book.len() / BLOCK_BYTES;
    if let Some(block) = (0..blocks).find(|&block| word(book, block, CHECK) != check(book, block)) {
        return refused(2, block);
    }
    if let Some(block) = (0..blocks).find(|&block| !named_rightly(book, block)) {
        return refused(3, block);
    }
    let signals = word(book, 0, COUNT) as usize;
    if signals > MOST_SIGNALS || blocks != blocks_of(signals) {
        return refused(4, 0);
    }
    if (1..blocks).any(|block| word(book, block, 2) as usize != signals_in(block, signals)) {
        return refused(4, 0);
    }
    if let Some(block) = (0..blocks).find(|&block| !zero_where_unused(book, block)) {
        return refused(5, block);
    }
    Ok(signals)
}

fn named_rightly(book: &[u8], block: usize) -> bool {
    let kind = if block == 0 { 1 } else { 2 };
    word(book, block, 0) as usize == block && word(book, block, 1) == kind
}

/// Judged only after the counts, so a signal block's word 2 can be trusted.
fn zero_where_unused(book: &[u8], block: usize) -> bool {
    let first = if block == 0 { 8 } else { FIRST_SIGNAL + 5 * word(book, block, 2) as usize };
    (first..CHECK).all(|index| word(book, block, index) == 0)
}

/// What reading gives: the answer, the five settings, and the words that go to the head of the lent list.
#[derive(Clone, Debug, PartialEq, Eq)]
pub struct Reading {
    pub answer: Answer,
    pub settings: [u32; 5],
    pub list: Vec<u32>,
}

pub fn read(book: &[u8], list_words: usize) -> Reading {
    let refused = |answer| Reading { answer, settings: [0; 5], list: Vec::new() };
    match judged(book) {
        Err(answer) => refused(answer),
        Ok(signals) if list_words < 5 * signals => refused(Answer::new(10, 5 * signals)),
        Ok(signals) => Reading {
            answer: Answer::new(0, signals),
            settings: [2, 3, 4, 5, 6].map(|index| word(book, 0, index)),
            list: (0..5 * signals).map(|at| signal_word(book, at)).collect(),
        },
    }
}

/// The word of the list that stands at `at`, from 0.
fn signal_word(book: &[u8], at: usize) -> u32 {
    let (signal, field) = (at / 5, at % 5);
    word(book, 1 + signal / FULL_BLOCK, FIRST_SIGNAL + 5 * (signal % FULL_BLOCK) + field)
}

/// Setting word 2 to 6 of a book that refusals 1 to 5 do not refuse, else 0.
pub fn setting(book: &[u8], index: u32) -> u32 {
    if (2..=6).contains(&index) && judged(book).is_ok() { word(book, 0, index as usize) } else { 0 }
}

/// The answer of writing, and the bytes that go to the head of the lent room.
pub fn write(settings: &[u32; 5], list: &[u32], room_bytes: usize) -> (Answer, Vec<u8>) {
    let signals = list.len() / 5;
    if !list.len().is_multiple_of(5) || signals > MOST_SIGNALS {
        return (Answer::new(4, 0), Vec::new());
    }
    let blocks = blocks_of(signals);
    if room_bytes < BLOCK_BYTES * blocks {
        return (Answer::new(10, BLOCK_BYTES * blocks), Vec::new());
    }
    let mut book = settings_block(settings, signals);
    for (before, held) in list.chunks(5 * FULL_BLOCK).enumerate() {
        book.extend(signal_block(1 + before, held));
    }
    (Answer::new(0, blocks), book)
}

fn settings_block(settings: &[u32; 5], signals: usize) -> Vec<u8> {
    let mut words = vec![0, 1];
    words.extend(settings);
    words.push(signals as u32);
    sealed(words)
}

fn signal_block(number: usize, held: &[u32]) -> Vec<u8> {
    let mut words = vec![number as u32, 2, held.len() as u32 / 5];
    words.extend(held);
    sealed(words)
}

/// A block's bytes from its first words: zeros behind them, then the check.
fn sealed(mut words: Vec<u32>) -> Vec<u8> {
    words.resize(CHECK + 1, 0);
    let mut block: Vec<u8> = words.iter().flat_map(|word| word.to_le_bytes()).collect();
    seal(&mut block, 0);
    block
}

/// The byte at which the signal's twenty bytes start; 0 where the part is empty.
pub fn part(book: &[u8], signal: u32) -> u64 {
    match judged(book) {
        Ok(signals) if (1..=signals as u64).contains(&u64::from(signal)) => {
            let before = u64::from(signal) - 1;
            512 * (1 + before / 24) + 12 + 20 * (before % 24)
        }
        _ => 0,
    }
}

#[cfg(test)]
mod tests {
    use super::*;

    const SETTINGS: [u32; 5] = [2_500, 16, 93, 100, 8];

    fn sound(signals: usize) -> Vec<u8> {
        let list: Vec<u32> = (1..=5 * signals as u32).collect();
        write(&SETTINGS, &list, usize::MAX).1
    }

    fn changed(signals: usize, block: usize, index: usize, value: u32) -> Answer {
        let mut book = sound(signals);
        set_word(&mut book, block, index, value);
        seal(&mut book, block);
        read(&book, 3_000).answer
    }

    #[test]
    fn a_written_book_has_01s_words() {
        let book = sound(25);
        assert_eq!(book.len(), 3 * 512);
        let first: Vec<u32> = (0..9).map(|index| word(&book, 0, index)).collect();
        assert_eq!(first, [0, 1, 2_500, 16, 93, 100, 8, 25, 0]);
        assert_eq!(word(&book, 0, 127), 1 + 2_500 + 16 + 93 + 100 + 8 + 25 + 1);
        assert_eq!([0, 1, 2, 3, 122, 123].map(|index| word(&book, 1, index)), [1, 2, 24, 1, 120, 0]);
        assert_eq!([0, 1, 2, 3, 7, 8].map(|index| word(&book, 2, index)), [2, 2, 1, 121, 125, 0]);
        assert_eq!(word(&book, 2, 127), 2 + 2 + 1 + (121 + 122 + 123 + 124 + 125) + 1);
    }

    #[test]
    fn what_was_written_is_read_back() {
        for signals in [0, 1, 24, 25, 600] {
            let book = sound(signals);
            let Reading { answer, settings, list } = read(&book, 5 * signals);
            assert_eq!((answer, settings), (Answer::new(0, signals), SETTINGS));
            assert_eq!(write(&settings, &list, book.len()), (Answer::new(0, blocks_of(signals)), book));
        }
    }

    #[test]
    fn each_refusal_has_its_number_and_place() {
        for bytes in [0, 511, 513, 512 * 27] {
            assert_eq!(judged(&vec![0; bytes]), Err(Answer::new(1, 0)));
        }
        assert_eq!(judged(&vec![0; 512 * 26]), Err(Answer::new(2, 0)));
        assert_eq!(changed(25, 2, 0, 1), Answer::new(3, 2));
        assert_eq!(changed(25, 0, 1, 2), Answer::new(3, 0));
        assert_eq!(changed(25, 0, 7, 24), Answer::new(4, 0));
        assert_eq!(changed(600, 0, 7, 601), Answer::new(4, 0));
        assert_eq!(changed(25, 1, 2, 23), Answer::new(4, 0));
        assert_eq!(changed(25, 2, 2, 0), Answer::new(4, 0));
        assert_eq!(changed(25, 0, 126, 1), Answer::new(5, 0));
        assert_eq!(changed(25, 1, 123, 1), Answer::new(5, 1));
        assert_eq!(changed(25, 2, 8, 1), Answer::new(5, 2));
        assert_eq!(read(&sound(25), 124).answer, Answer::new(10, 125));
    }

    #[test]
    fn settings_and_signals_may_be_any_words() {
        assert_eq!(changed(25, 0, 2, u32::MAX), Answer::new(0, 25));
        assert_eq!(changed(25, 2, 7, u32::MAX), Answer::new(0, 25));
        assert_eq!((setting(&sound(1), 2), setting(&sound(1), 6), setting(&sound(1), 7)), (2_500, 8, 0));
    }

    #[test]
    fn writing_judges_the_list_before_the_room() {
        assert_eq!(write(&SETTINGS, &[0; 3_005], 0).0, Answer::new(4, 0));
        assert_eq!(write(&SETTINGS, &[0; 604], 0).0, Answer::new(4, 0));
        assert_eq!(write(&SETTINGS, &[0; 605], 0).0, Answer::new(10, 7 * 512));
        assert_eq!(write(&SETTINGS, &[0; 605], 7 * 512).0, Answer::new(0, 7));
    }

    #[test]
    fn a_part_starts_at_its_signals_first_word() {
        let book = sound(25);
        assert_eq!([1, 24, 25].map(|signal| part(&book, signal)), [524, 984, 1_036]);
        assert_eq!([0, 26, u32::MAX].map(|signal| part(&book, signal)), [0, 0, 0]);
        assert_eq!(part(&book[..1_024], 1), 0);
    }
}
