// The lists that are planned: 01's examples, rooms of every length, full tables, large ones, then drawn ones.
// What has a known answer is asked for with it, so that library and twin cannot be wrong alike.

use crate::run::{needed, Run};
use crate::{books, faults};
use twin::book;
use twin::draw;
use twin::drawn;
use twin::examples::{examples, Example};
use twin::lists::{self, List};
use twin::plan::plan;
use twin::terms::{Answer, Settings, MOST_SIGNALS};

/// The most slots there can be, with the times of 01's examples.
const WIDE: Settings = Settings { cycle_length: 2_500, slot_length: 16, slots: 128, packing: 100, payload: 8 };

pub fn all(run: &mut Run, count: u64) {
    named(run);
    faults::settings(run);
    faults::fields(run);
    faults::all(run, count / 100);
    lengths(run);
    for _ in 0..20 {
        rooms(run);
    }
    crowded(run, count / 10);
    wide(run);
    drawn(run, count);
    if run.with_books {
        books::all(run, count);
    }
}

/// 01's examples: the answers and results that stand there, of both sides.
fn named(run: &mut Run) {
    for Example { list, answer, results, .. } in examples() {
        let words = list.words();
        let (cells, exact) = needed(&list.settings, &words);
        for more in [0, 1, 100] {
            run.list_gives(answer, &list.settings, &words, cells + more, exact + more);
        }
        let given = plan(&list.settings, &words, cells, exact).results;
        if results.is_some_and(|results| results != given) {
            let kept = book::write(&list.settings.words(), &words, usize::MAX).1;
            run.differs(&["the twin's results are not the example's".to_string()], &kept, "one FILE");
        }
    }
}

/// Lists of lengths that are none, and such as are just still lists.
fn lengths(run: &mut Run) {
    let full = lists::large(&mut run.random, &Settings { slots: 4, ..WIDE }, 600, 3, &[64]).words();
    for words in [1, 2, 3, 4, 6, 7, 121, 604, 606, 2_996, 2_999, 3_001, 3_004, 3_005, 3_006, 3_010, 6_000, 12_000] {
        let list: Vec<u32> = full.iter().copied().cycle().take(words).collect();
        for (cells, results) in [(8_192, 2_404), (0, 0), (256, 4 * (words / 5))] {
            run.list_gives(Answer::new(4, 0), &Settings { slots: 4, ..WIDE }, &list, cells, results);
        }
    }
}

/// One list in rooms of every telling length, the table's judged before the results'.
fn rooms(run: &mut Run) {
    let mut list = lists::middling(&mut run.random);
    while plan(&list.settings, &list.words(), usize::MAX, usize::MAX).answer.number != 0 {
        list = lists::middling(&mut run.random);
    }
    let words = list.words();
    let (cells, results) = needed(&list.settings, &words);
    let lengths = |exact: usize| [0, exact / 2, exact.saturating_sub(1), exact, exact + 1, exact + 64, exact + 333];
    for lent_cells in lengths(cells) {
        for lent_results in lengths(results) {
            let given = run.list(&list.settings, &words, lent_cells, lent_results);
            let wanted = match (lent_cells < cells, lent_results < results) {
                (true, _) => Answer::new(10, cells),
                (false, true) => Answer::new(10, results),
                (false, false) => Answer { number: 0, ..given },
            };
            if given != wanted {
                let kept = book::write(&list.settings.words(), &words, usize::MAX).1;
                let again = format!("list FILE {lent_cells} {lent_results}");
                run.differs(&[format!("the twin gave {given} where {wanted} was to come")], &kept, &again);
            }
        }
    }
}

/// Tables without a free cell, and the same lists with one signal more.
fn crowded(run: &mut Run, count: u64) {
    for _ in 0..count {
        let list = lists::crowded(&mut run.random);
        full_and_more(run, &list);
    }
}

fn full_and_more(run: &mut Run, list: &List) {
    let slots = list.settings.slots as usize;
    let words = list.words();
    let (cells, results) = needed(&list.settings, &words);
    run.list_gives(Answer::new(0, slots), &list.settings, &words, cells, results);
    if list.signals.len() < MOST_SIGNALS {
        let more = lists::with_one_more(&mut run.random, list);
        run.list_gives(Answer::new(9, slots + 1), &more.settings, &more.words(), cells, results + 4);
    }
}

/// The largest lists: 600 signals, 128 slots, up to 255 units.
fn wide(run: &mut Run) {
    let full = lists::exactly_full(&mut run.random, &WIDE);
    full_and_more(run, &full);
    for (signals, units, repetitions, answer) in [
        (600, 60, &[64][..], (0, 60)),
        (600, 128, &[64], (0, 128)),
        (128, 128, &[1], (0, 128)),
        (600, 1, &[1], (9, 600)),
        (255, 255, &[1, 2], (9, 255)),
        (600, 255, &[32], (9, 255)),
        (600, 1, &[8], (0, 75)),
    ] {
        let list = lists::large(&mut run.random, &WIDE, signals, units, repetitions);
        let words = list.words();
        let (cells, results) = needed(&WIDE, &words);
        run.list_gives(Answer::new(answer.0, answer.1), &WIDE, &words, cells + 64, results + 4);
    }
    let mixed = lists::large(&mut run.random, &WIDE, 600, 40, &[4, 8, 16, 32, 64, 64]);
    run.plan(&mixed);
}

/// Drawn lists: small ones that are searched too, middling and tight ones, single signals, and words of any value.
fn drawn(run: &mut Run, count: u64) {
    for round in 0..count {
        match round % 10 {
            0..=4 => {
                let list = lists::small(&mut run.random);
                run.plan_and_search(&list);
            }
            5 => {
                let list = lists::middling(&mut run.random);
                run.plan_and_search(&list);
            }
            6 | 7 => {
                let list = lists::tight(&mut run.random);
                run.plan_and_search(&list);
            }
            8 => {
                let list = drawn::single(&mut run.random);
                run.plan_and_search(&list);
            }
            _ => wild(run),
        }
    }
}

/// Words of any value, as settings or as signals, in rooms of any length.
fn wild(run: &mut Run) {
    let settings = match run.random.below(3) {
        0 => Settings::from_words([(); 5].map(|()| run.random.wild())),
        _ => draw::small(&mut run.random).settings,
    };
    let words: Vec<u32> = (0..run.random.index(60)).map(|_| run.random.wild()).collect();
    let (cells, results) = (run.random.index(600), run.random.index(60));
    run.list(&settings, &words, cells, results);
}
