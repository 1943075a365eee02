// A small generator of random numbers (splitmix64), so that a seed brings a run back.
// Nothing here needs to be secret or perfectly even; it needs to be the same everywhere.

pub struct Random {
    state: u64,
}

impl Random {
    pub fn new(seed: u64) -> Random {
        Random { state: seed }
    }

    pub fn bits(&mut self) -> u64 {
        self.state = self.state.wrapping_add(0x9E37_79B9_7F4A_7C15);
        let mut mixed = self.state;
        mixed = (mixed ^ (mixed >> 30)).wrapping_mul(0xBF58_476D_1CE4_E5B9);
        mixed = (mixed ^ (mixed >> 27)).wrapping_mul(0x94D0_49BB_1331_11EB);
        mixed ^ (mixed >> 31)
    }

    pub fn word(&mut self) -> u32 {
        (self.bits() >> 32) as u32
    }

    /// A word of any length in bits, so that small and large ones are alike common.
    pub fn wild(&mut self) -> u32 {
        let shift = self.below(33);
        if shift == 32 { 0 } else { self.word() >> shift }
    }

    /// From 0 to `end` - 1.
    pub fn below(&mut self, end: u32) -> u32 {
        ((u64::from(self.word()) * u64::from(end)) >> 32) as u32
    }

    /// From `low` to `high`, both possible.
    pub fn between(&mut self, low: u32, high: u32) -> u32 {
        (u64::from(low) + ((u64::from(self.word()) * (u64::from(high) - u64::from(low) + 1)) >> 32)) as u32
    }

    pub fn index(&mut self, length: usize) -> usize {
        self.below(length as u32) as usize
    }

    pub fn pick(&mut self, from: &[u32]) -> u32 {
        from[self.index(from.len())]
    }

    /// True once in `many` times.
    pub fn once_in(&mut self, many: u32) -> bool {
        self.below(many) == 0
    }
}

#[cfg(test)]
mod tests {
    use super::*;

    #[test]
    fn ranges_are_reached_at_both_ends_and_never_left() {
        let mut random = Random::new(6);
        let drawn: Vec<u32> = (0..1_000).map(|_| random.between(3, 7)).collect();
        assert_eq!((drawn.iter().min(), drawn.iter().max()), (Some(&3), Some(&7)));
        assert!((0..1_000).any(|_| random.between(0, u32::MAX) > 0x8000_0000));
        assert!((0..1_000).any(|_| random.wild() == 0));
    }

    #[test]
    fn a_seed_brings_the_same_numbers_back() {
        let (mut one, mut two) = (Random::new(7), Random::new(7));
        assert!((0..100).all(|_| one.bits() == two.bits()));
    }
}
