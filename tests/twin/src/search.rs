// Every way to give each frame a slot and a base, for lists so small that all can be tried.
// Only what already clashes is not gone on with: a cell taken twice, or a second unit in a slot.

use crate::terms::Signal;

/// A frame that has no slot and no base yet.
#[derive(Clone, Copy, Debug)]
pub struct Loose {
    pub unit: u32,
    pub repetition: u32,
}

impl Loose {
    pub fn all(signals: &[Signal], repetitions: &[u32]) -> Vec<Loose> {
        let loose = |(signal, &repetition): (&Signal, &u32)| Loose { unit: signal.unit, repetition };
        signals.iter().zip(repetitions).map(loose).collect()
    }
}

/// A slot as far as it is taken: its unit and a bit for each taken cycle.
#[derive(Clone, Copy)]
struct Slot {
    unit: u32,
    taken: u64,
}

struct Search<'a> {
    frames: &'a [Loose],
    slots: Vec<Slot>,
    /// How many more places may be tried.
    patience: u64,
    fewest: Option<usize>,
}

/// A bit for each cycle in which a frame goes out.
fn cycles(repetition: u32, base: u32) -> u64 {
    (base..64).step_by(repetition as usize).map(|cycle| 1 << cycle).sum()
}

impl Search<'_> {
    /// Tries every place of the frame at `index` with every place of those behind it; false if patience ends.
    fn place(&mut self, index: usize) -> bool {
        let Some(&Loose { unit, repetition }) = self.frames.get(index) else {
            let used = self.slots.iter().filter(|slot| slot.taken != 0).count();
            self.fewest = Some(self.fewest.map_or(used, |fewest| fewest.min(used)));
            return true;
        };
        for slot in 0..self.slots.len() {
            let before = self.slots[slot];
            if before.taken != 0 && before.unit != unit {
                continue;
            }
            for base in 0..repetition {
                if self.patience == 0 {
                    return false;
                }
                self.patience -= 1;
                let cycles = cycles(repetition, base);
                if before.taken & cycles == 0 {
                    self.slots[slot] = Slot { unit, taken: before.taken | cycles };
                    if !self.place(index + 1) {
                        return false;
                    }
                }
            }
            self.slots[slot] = before;
        }
        true
    }
}

/// The fewest slots that any table of so many slots uses, Some(None) where there is no table at all.
/// None where trying everything would take more places than `patience`.
pub fn search(slots: usize, frames: &[Loose], patience: u64) -> Option<Option<usize>> {
    let slots = vec![Slot { unit: 0, taken: 0 }; slots];
    let mut search = Search { frames, slots, patience, fewest: None };
    search.place(0).then_some(search.fewest)
}

#[cfg(test)]
mod tests {
    use super::*;

    fn frames(of: &[(u32, u32)]) -> Vec<Loose> {
        of.iter().map(|&(unit, repetition)| Loose { unit, repetition }).collect()
    }

    #[test]
    fn frames_name_their_cycles() {
        assert_eq!(cycles(1, 0), u64::MAX);
        assert_eq!(cycles(64, 63), 1 << 63);
        assert_eq!(cycles(32, 1), (1 << 1) + (1 << 33));
    }

    #[test]
    fn the_fewest_slots_are_found() {
        assert_eq!(search(3, &frames(&[(1, 4), (1, 4), (1, 2)]), 10_000), Some(Some(1)));
        assert_eq!(search(3, &frames(&[(1, 4), (1, 4), (1, 2), (1, 4)]), 10_000), Some(Some(2)));
        assert_eq!(search(3, &frames(&[(1, 4), (2, 4), (1, 2)]), 10_000), Some(Some(2)));
        assert_eq!(search(2, &[], 1), Some(Some(0)));
    }

    #[test]
    fn there_is_no_table_where_units_or_cells_are_too_many() {
        assert_eq!(search(2, &frames(&[(1, 8), (2, 8), (3, 8)]), 100_000), Some(None));
        assert_eq!(search(2, &frames(&[(1, 1), (1, 2), (1, 2), (1, 64)]), 100_000), Some(None));
    }

    #[test]
    fn what_takes_too_long_is_given_up() {
        assert_eq!(search(2, &frames(&[(1, 64); 6]), 10_000), None);
    }
}
