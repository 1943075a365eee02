// Books through the editor's call: damaged ones that reading refuses, and results of every telling length.
// The lists of the tour come through it as well; here are the books that no list makes.

use crate::run::Run;
use twin::book::{self, judged, seal, set_word, BLOCK_BYTES};
use twin::damage;
use twin::drawn;
use twin::lists::{self, List};
use twin::plan::plan_book;
use twin::terms::Answer;

pub fn all(run: &mut Run, count: u64) {
    for _ in 0..10 {
        results(run);
        one_harm(run);
    }
    lengths(run);
    drawn_by_number(run, 20 * count);
}

/// A book that is planned, with the signals it has.
fn planned(run: &mut Run) -> (List, Vec<u8>) {
    loop {
        let list = lists::middling(&mut run.random);
        let book = book::write(&list.settings.words(), &list.words(), usize::MAX).1;
        if !list.signals.is_empty() && plan_book(&book, usize::MAX).0.number == 0 {
            return (list, book);
        }
    }
}

/// Results of no byte, one byte too few, exactly enough and more, of odd lengths too.
fn results(run: &mut Run) {
    let (list, book) = planned(run);
    let bytes = 16 * list.signals.len();
    let done = plan_book(&book, bytes).0;
    for short in [0, 1, bytes / 2, bytes - 16, bytes - 5, bytes - 4, bytes - 3, bytes - 1] {
        run.book_gives(Answer::new(10, bytes), &book, short);
    }
    for more in [0, 1, 2, 3, 4, 15, 16, 17, 1_001] {
        run.book_gives(done, &book, bytes + more);
    }
}

/// Each of reading's refusals alone, then with settings out of range too: reading comes first.
fn one_harm(run: &mut Run) {
    let (list, book) = planned(run);
    let bytes = 16 * list.signals.len();
    let last = book.len() / BLOCK_BYTES - 1;
    let refusals = [(2, last, 127, 0), (3, last, 1, 7), (4, last, 2, 25), (5, last, 126, 1), (5, 0, 8, 1)];
    for (number, block, index, value) in refusals {
        let mut harmed = book.clone();
        set_word(&mut harmed, block, index, value);
        if number != 2 {
            seal(&mut harmed, block);
        }
        let wanted = Answer::new(number, if number == 4 { 0 } else { block });
        run.book_gives(wanted, &harmed, bytes);
        run.book_gives(wanted, &harmed, 0);
        set_word(&mut harmed, 0, 2, 9);
        seal(&mut harmed, 0);
        run.book_gives(wanted, &harmed, bytes);
    }
    let mut stray = book.clone();
    set_word(&mut stray, 0, 2, 9);
    seal(&mut stray, 0);
    run.book_gives(Answer::new(6, 2), &stray, bytes);
    run.book_gives(Answer::new(6, 2), &stray, 0);
}

/// Lengths that are no book's.
fn lengths(run: &mut Run) {
    let (list, book) = planned(run);
    let bytes = 16 * list.signals.len();
    for length in [0, 1, 511, 513, book.len() - 1] {
        run.book_gives(Answer::new(1, 0), &book[..length], bytes);
    }
    for blocks in [27, 28, 100] {
        let mut longer = book.clone();
        longer.resize(BLOCK_BYTES * blocks, 0);
        damage::rename_and_seal(&mut longer);
        run.book_gives(Answer::new(1, 0), &longer, bytes);
    }
}

/// The books that the planning program gets too, in results long enough, too short and just right.
fn drawn_by_number(run: &mut Run, count: u64) {
    for index in 0..count {
        let book = drawn::book(run.seed, index);
        let exact = 16 * judged(&book).unwrap_or(0);
        let bytes = match run.random.below(8) {
            0 => run.random.index(exact + 1),
            1 => exact,
            _ => exact + run.random.index(100),
        };
        run.book(&book, bytes);
    }
}
