// The `read` and `write` measures: a full book, 600 signals in 26 blocks, by the library and by the twin.
// One book is read or written in microseconds, so one timed run does it many times over.

use crate::SETTINGS;
use std::hint::black_box;
use std::sync::OnceLock;
use twin::book::{self, BLOCK_BYTES, MOST_BLOCKS};
use twin::terms::{Answer, Signal};

const TIMES: u32 = 1_000;
const ROOM: usize = BLOCK_BYTES * MOST_BLOCKS;

extern "C" {
    fn noctelvia_read(book: *const u8, book_bytes: usize, list: *mut u32, list_words: usize) -> u64;
    fn noctelvia_write(
        cycle: u32, slot_length: u32, slots: u32, packing: u32, payload: u32,
        list: *const u32, list_words: usize, room: *mut u8, room_bytes: usize,
    ) -> u64;
}

fn words(signals: &[Signal]) -> Vec<u32> {
    signals.iter().flat_map(Signal::words).collect()
}

/// The book of the signals, written once: reading is to be timed without any writing.
fn full_book(signals: &[Signal]) -> &'static [u8] {
    static BOOK: OnceLock<Vec<u8>> = OnceLock::new();
    BOOK.get_or_init(|| book::write(&SETTINGS.words(), &words(signals), ROOM).1)
}

/// One number out of an answer and a sum, so that neither can be left out.
fn digest(answer: u64, sum: u32) -> u32 {
    let Answer { number, place } = Answer::unpacked(answer);
    number.wrapping_mul(31).wrapping_add(place).wrapping_mul(31).wrapping_add(sum)
}

/// The first and the last of what was lent or given.
fn ends<T: Copy + Into<u32>>(given: &[T]) -> u32 {
    let [first, last] = [given[0], given[given.len() - 1]].map(Into::into);
    first.wrapping_mul(31).wrapping_add(last)
}

fn many(one: impl FnMut(u32) -> u32) -> u32 {
    (0..TIMES).map(one).fold(0, u32::wrapping_add)
}

pub fn read_by_library(signals: &[Signal]) -> u32 {
    let book = full_book(signals);
    let mut list = vec![0; 5 * signals.len()];
    many(|_| {
        let book = black_box(book);
        // Safety: each pointer is lent with the length of its own room, and the two do not overlap.
        let answer = unsafe { noctelvia_read(book.as_ptr(), book.len(), list.as_mut_ptr(), list.len()) };
        digest(answer, ends(black_box(&list)))
    })
}

pub fn read_by_twin(signals: &[Signal]) -> u32 {
    let book = full_book(signals);
    many(|_| {
        let reading = book::read(black_box(book), 5 * signals.len());
        digest(reading.answer.packed(), ends(black_box(&reading.list)))
    })
}

pub fn write_by_library(signals: &[Signal]) -> u32 {
    let list = words(signals);
    let [a, b, c, d, e] = SETTINGS.words();
    let mut room = vec![0; ROOM];
    many(|_| {
        let list = black_box(&list);
        // Safety: each pointer is lent with the length of its own room, and the two do not overlap.
        let answer = unsafe {
            noctelvia_write(a, b, c, d, e, list.as_ptr(), list.len(), room.as_mut_ptr(), room.len())
        };
        digest(answer, ends(black_box(&room)))
    })
}

pub fn write_by_twin(signals: &[Signal]) -> u32 {
    let list = words(signals);
    many(|_| {
        let (answer, book) = book::write(black_box(&SETTINGS.words()), black_box(&list), ROOM);
        digest(answer.packed(), ends(black_box(&book)))
    })
}
