// Words out of range, one field at a time: the twelve others stay where they were.
// The questions they start from leave room, so that no second field goes out with the first.

use crate::terms::{Question, Settings};

/// The thirteen words in the order in which the library takes them.
pub const FIELDS: [&str; 13] = [
    "cycle length", "slot length", "slots", "packing", "payload", "unit", "period", "offset", "size", "bound",
    "slot", "repetition", "base",
];

/// Questions in range from which one field can leave its range alone.
pub fn starting_points() -> Vec<Question> {
    let points = [
        [2_500, 16, 93, 0, 8, 1, 2_500, 16, 8, 2_500, 1, 64, 0],
        [2_500, 16, 128, 100, 8, 3, 100_000_000, 2_000, 16, 9_488, 128, 64, 63],
        [10, 1, 2, 0, 1, 255, 100_000_000, 0, 16, 100_000_000, 2, 32, 2],
        [10, 4, 2, 1, 1, 1, 40, 39, 1, 40, 1, 16, 0],
        [16_000, 8_000, 2, 16_000, 127, 7, 5_000_000, 1, 2_032, 5_000_000, 2, 8, 7],
        [16_000, 125, 128, 16_000, 127, 7, 100_000_000, 99_999_999, 2_032, 100_000_000, 128, 4, 3],
    ];
    points.map(Question::from_words).to_vec()
}

/// The ends of a field's range, low and high, in the question as it stands.
fn ends(question: &Question, field: usize) -> (u32, u32) {
    let Question { settings, signal, frame } = question;
    match field {
        0 => (10, 16_000),
        1 => (1, 16_000),
        2 => (2, 128),
        3 => (0, 16_000),
        4 => (1, 127),
        5 => (1, 255),
        6 => (1, 100_000_000),
        7 => (0, signal.period - 1),
        8 => (1, 16 * settings.payload),
        9 => (1, signal.period),
        10 => (1, settings.slots),
        11 => (1, 64),
        _ => (0, frame.repetition - 1),
    }
}

/// Values about the ends of a field's range and far from it; some of them are in range.
fn values(question: &Question, field: usize) -> Vec<u32> {
    let (low, high) = ends(question, field);
    let Settings { cycle_length, slot_length, slots, .. } = question.settings;
    let mut values = vec![low.wrapping_sub(1), low, high, high + 1, 0, u32::MAX, 1 << 16, 1 << 31];
    match field {
        0 => values.extend([slots * slot_length - 1, slots * slot_length]),
        1 => values.extend([cycle_length / slots, cycle_length / slots + 1]),
        2 => values.extend([1, cycle_length / slot_length, cycle_length / slot_length + 1]),
        11 => values.extend([2, 3, 4, 5, 6, 7, 8, 12, 16, 24, 32, 33, 48, 63, 65, 128, 256]),
        _ => {}
    }
    values
}

/// The question with one field changed, for each value of the field that is worth asking.
pub fn varied(question: &Question, field: usize) -> Vec<Question> {
    let with = |value| {
        let mut words = question.words();
        words[field] = value;
        Question::from_words(words)
    };
    values(question, field).into_iter().map(with).collect()
}

/// Whether the settings, the signal or the frame, whichever holds the field, are out of range.
pub fn is_out(question: &Question, field: usize) -> bool {
    let Question { settings, signal, frame } = question;
    match field {
        0..=4 => !settings.in_range(),
        5..=9 => !signal.in_range(settings),
        _ => !frame.in_range(settings),
    }
}

#[cfg(test)]
mod tests {
    use super::*;

    #[test]
    fn every_starting_point_is_in_range() {
        assert!(starting_points().iter().all(Question::in_range));
    }

    #[test]
    fn every_field_leaves_its_range() {
        for (field, name) in FIELDS.iter().enumerate() {
            let asked = starting_points().into_iter().flat_map(|point| varied(&point, field));
            assert!(asked.filter(|question| is_out(question, field)).count() > 5, "{name}");
        }
    }
}
