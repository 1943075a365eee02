// Settings, signals, frames and answers in 01's words and order, with 01's ranges.
// The fields are plain words as a caller gives them; `in_range` judges, and nothing else does.

/// The seven repetitions, rising.
pub const REPETITIONS: [u32; 7] = [1, 2, 4, 8, 16, 32, 64];

/// The most signals a list may hold.
pub const MOST_SIGNALS: usize = 600;

/// The five settings, words 2 to 6 of the settings block.
#[derive(Clone, Copy, Debug, PartialEq, Eq)]
pub struct Settings {
    pub cycle_length: u32,
    pub slot_length: u32,
    pub slots: u32,
    pub packing: u32,
    pub payload: u32,
}

impl Settings {
    pub fn from_words(words: [u32; 5]) -> Settings {
        let [cycle_length, slot_length, slots, packing, payload] = words;
        Settings { cycle_length, slot_length, slots, packing, payload }
    }

    pub fn words(&self) -> [u32; 5] {
        [self.cycle_length, self.slot_length, self.slots, self.packing, self.payload]
    }

    /// The lowest word of the settings block that is out of range, if one is.
    pub fn stray_word(&self) -> Option<u32> {
        // In 64 bits, because two wild words multiply past 32.
        let segment = u64::from(self.slots) * u64::from(self.slot_length);
        let judged = [
            (10..=16_000).contains(&self.cycle_length),
            (1..=16_000).contains(&self.slot_length),
            (2..=128).contains(&self.slots) && segment <= u64::from(self.cycle_length),
            self.packing <= 16_000,
            (1..=127).contains(&self.payload),
        ];
        (2..).zip(judged).find(|&(_, good)| !good).map(|(word, _)| word)
    }

    pub fn in_range(&self) -> bool {
        self.stray_word().is_none()
    }
}

/// One signal's five words.
#[derive(Clone, Copy, Debug, PartialEq, Eq)]
pub struct Signal {
    pub unit: u32,
    pub period: u32,
    pub offset: u32,
    pub size: u32,
    pub bound: u32,
}

impl Signal {
    pub fn from_words(words: [u32; 5]) -> Signal {
        let [unit, period, offset, size, bound] = words;
        Signal { unit, period, offset, size, bound }
    }

    pub fn words(&self) -> [u32; 5] {
        [self.unit, self.period, self.offset, self.size, self.bound]
    }

    pub fn in_range(&self, settings: &Settings) -> bool {
        let bits = 16 * u64::from(settings.payload);
        (1..=255).contains(&self.unit)
            && (1..=100_000_000).contains(&self.period)
            && self.offset < self.period
            && (1..=bits).contains(&u64::from(self.size))
            && (1..=self.period).contains(&self.bound)
    }
}

/// A frame: its slot, its repetition and its base cycle.
#[derive(Clone, Copy, Debug, PartialEq, Eq)]
pub struct Frame {
    pub slot: u32,
    pub repetition: u32,
    pub base: u32,
}

impl Frame {
    pub fn from_words(words: [u32; 3]) -> Frame {
        let [slot, repetition, base] = words;
        Frame { slot, repetition, base }
    }

    pub fn in_range(&self, settings: &Settings) -> bool {
        (1..=settings.slots).contains(&self.slot)
            && REPETITIONS.contains(&self.repetition)
            && self.base < self.repetition
    }
}

/// What one frame is asked: the thirteen words, in the order in which the library takes them.
#[derive(Clone, Copy, Debug, PartialEq, Eq)]
pub struct Question {
    pub settings: Settings,
    pub signal: Signal,
    pub frame: Frame,
}

impl Question {
    pub fn from_words(w: [u32; 13]) -> Question {
        Question {
            settings: Settings::from_words([w[0], w[1], w[2], w[3], w[4]]),
            signal: Signal::from_words([w[5], w[6], w[7], w[8], w[9]]),
            frame: Frame::from_words([w[10], w[11], w[12]]),
        }
    }

    pub fn words(&self) -> [u32; 13] {
        let ([a, b, c, d, e], [f, g, h, i, j]) = (self.settings.words(), self.signal.words());
        [a, b, c, d, e, f, g, h, i, j, self.frame.slot, self.frame.repetition, self.frame.base]
    }

    pub fn in_range(&self) -> bool {
        self.settings.in_range()
            && self.signal.in_range(&self.settings)
            && self.frame.in_range(&self.settings)
    }
}

/// A number of 01's table and its place.
#[derive(Clone, Copy, Debug, PartialEq, Eq)]
pub struct Answer {
    pub number: u32,
    pub place: u32,
}

impl Answer {
    pub fn new(number: u32, place: usize) -> Answer {
        Answer { number, place: u32::try_from(place).expect("01's places are words") }
    }

    /// The one 64-bit number in which the answer crosses to C.
    pub fn packed(self) -> u64 {
        u64::from(self.number) * 4_294_967_296 + u64::from(self.place)
    }

    pub fn unpacked(answer: u64) -> Answer {
        Answer { number: (answer / 4_294_967_296) as u32, place: (answer % 4_294_967_296) as u32 }
    }
}

impl std::fmt::Display for Answer {
    fn fmt(&self, to: &mut std::fmt::Formatter) -> std::fmt::Result {
        write!(to, "number {}, place {}", self.number, self.place)
    }
}

#[cfg(test)]
mod tests {
    use super::*;

    const ORDINARY: Settings =
        Settings { cycle_length: 2500, slot_length: 16, slots: 93, packing: 0, payload: 8 };

    #[test]
    fn the_lowest_stray_setting_is_named() {
        assert_eq!(ORDINARY.stray_word(), None);
        let each = [(0, 9), (0, 16_001), (1, 0), (2, 1), (2, 129), (3, 16_001), (4, 0), (4, 128)];
        for (index, value) in each {
            let mut words = ORDINARY.words();
            words[index] = value;
            assert_eq!(Settings::from_words(words).stray_word(), Some(index as u32 + 2));
        }
        assert_eq!(Settings { slot_length: 16_001, ..ORDINARY }.stray_word(), Some(3));
        assert_eq!(Settings { slots: 0, payload: 0, ..ORDINARY }.stray_word(), Some(4));
    }

    #[test]
    fn slots_too_long_for_the_cycle_are_word_four() {
        let full = Settings { cycle_length: 16_000, slot_length: 125, slots: 128, ..ORDINARY };
        assert_eq!(full.stray_word(), None);
        assert_eq!(Settings { cycle_length: 15_999, ..full }.stray_word(), Some(4));
    }

    #[test]
    fn signals_and_frames_end_where_01_says() {
        let signal = Signal { unit: 255, period: 100_000_000, offset: 99_999_999, size: 128, bound: 100_000_000 };
        assert!(signal.in_range(&ORDINARY));
        assert!(!Signal { offset: 100_000_000, ..signal }.in_range(&ORDINARY));
        assert!(!Signal { size: 129, ..signal }.in_range(&ORDINARY));
        assert!(Frame { slot: 93, repetition: 64, base: 63 }.in_range(&ORDINARY));
        assert!(!Frame { slot: 94, repetition: 64, base: 63 }.in_range(&ORDINARY));
        assert!(!Frame { slot: 93, repetition: 64, base: 64 }.in_range(&ORDINARY));
    }

    #[test]
    fn answers_cross_whole() {
        let answer = Answer::new(10, 13_312);
        assert_eq!(answer.packed(), 10 * 4_294_967_296 + 13_312);
        assert_eq!(Answer::unpacked(answer.packed()), answer);
    }
}
