// Books whose answer is known without the twin: 01's examples, inputs that are no book's length, the largest book.
// They come first, so that program and twin cannot be wrong alike.

use crate::run::Run;
use twin::book::{self, BLOCK_BYTES, MOST_BLOCKS};
use twin::damage;
use twin::examples::{examples, Example};
use twin::lists::{self, List};
use twin::random::Random;
use twin::terms::{Answer, Settings};

pub fn named(run: &mut Run) {
    for Example { name, list, answer, .. } in examples() {
        gives(run, name, &of(&list), answer, &[]);
    }
    let random = &mut Random::new(1);
    let wide = Settings { cycle_length: 2_500, slot_length: 16, slots: 128, packing: 100, payload: 8 };
    let one_unit = of(&lists::large(random, &wide, 600, 1, &[8]));
    gives(run, "600 signals of one unit", &one_unit, Answer::new(0, 75), &[]);
    let many_units = of(&lists::large(random, &wide, 600, 255, &[32]));
    gives(run, "255 units", &many_units, Answer::new(9, 255), &[]);
    lengths(run, &one_unit);
    pieces(run, &one_unit, Answer::new(0, 75));
}

fn of(list: &List) -> Vec<u8> {
    book::write(&list.settings.words(), &list.words(), usize::MAX).1
}

fn gives(run: &mut Run, name: &str, book: &[u8], wanted: Answer, cuts: &[usize]) {
    let given = run.book(name, book, cuts, !cuts.is_empty());
    if given != wanted {
        run.differs(name, book, cuts, format!("the twin gives {given} where {wanted} was to come"));
    }
}

/// The largest book cut and with more behind it, up to far more than a pipe holds.
fn lengths(run: &mut Run, largest: &[u8]) {
    for length in [0, 1, 511, 513, largest.len() - 1] {
        gives(run, &format!("the first {length} bytes"), &largest[..length], Answer::new(1, 0), &[]);
    }
    for more in [1, 2, 511, 512, 513, 1_000_000] {
        let mut longer = largest.to_vec();
        longer.resize(largest.len() + more, 0);
        if more % BLOCK_BYTES == 0 {
            damage::rename_and_seal(&mut longer);
        }
        gives(run, &format!("{more} bytes too long"), &longer, Answer::new(1, 0), &[]);
    }
    for block in 1..MOST_BLOCKS {
        gives(run, &format!("the first {block} blocks"), &largest[..BLOCK_BYTES * block], Answer::new(4, 0), &[]);
    }
}

/// The largest book in several writes with pauses: byte by byte at its ends, and between blocks.
fn pieces(run: &mut Run, largest: &[u8], wanted: Answer) {
    let last = largest.len();
    for cuts in [&[1, 2, 511][..], &[512, 1_024, 13_000], &[last - 1], &[0, last], &[4_096, 8_192, 12_288]] {
        gives(run, "the largest book in pieces", largest, wanted, cuts);
        let mut longer = largest.to_vec();
        longer.push(0);
        gives(run, "one byte more, in pieces", &longer, Answer::new(1, 0), cuts);
    }
}
