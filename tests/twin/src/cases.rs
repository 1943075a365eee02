// 01's examples 1 to 9 with their numbers: what the repetition is and which ages are named.
// The programs ask them of the library; the tests here ask them of the twin.

use crate::terms::{Settings, Signal};

/// One example: the repetition (0 for "refused 8"), ages as (slot, base, repetition, age), and the largest
/// age over all places at a repetition, where the example names one.
pub struct Case {
    pub name: &'static str,
    pub settings: Settings,
    pub signal: Signal,
    pub repetition: u32,
    pub ages: &'static [(u32, u32, u32, u32)],
    pub largest_age: Option<(u32, u32)>,
}

fn case(
    name: &'static str,
    (slots, packing): (u32, u32),
    (period, offset, bound): (u32, u32, u32),
    repetition: u32,
    ages: &'static [(u32, u32, u32, u32)],
) -> Case {
    let settings = Settings { cycle_length: 2_500, slot_length: 16, slots, packing, payload: 8 };
    let signal = Signal { unit: 1, period, offset, size: 8, bound };
    Case { name, settings, signal, repetition, ages, largest_age: None }
}

pub fn cases() -> Vec<Case> {
    vec![
        case("1", (93, 0), (2_500, 0, 2_500), 1, &[(93, 0, 1, 1_488)]),
        case("2", (93, 0), (2_500, 16, 2_500), 1, &[(1, 0, 1, 2_500)]),
        case("3", (93, 0), (2_500, 15, 2_500), 0, &[(1, 0, 1, 2_501)]),
        case("4", (93, 1), (2_500, 0, 2_500), 0, &[(1, 0, 1, 2_516)]),
        Case {
            largest_age: Some((4, 9_488)),
            ..case("5", (93, 100), (10_000, 2_000, 9_488), 4, &[])
        },
        case("6", (93, 100), (10_000, 2_000, 9_487), 2, &[]),
        Case {
            largest_age: Some((16, 39_488)),
            ..case("7", (93, 100), (50_000, 2_000, 50_000), 16, &[])
        },
        case("8", (93, 100), (50_000, 2_000, 15_000), 4, &[]),
        case("9, 29 slots", (29, 0), (2_500, 472, 2_500), 1, &[(29, 0, 1, 2_492)]),
        case("9, 30 slots", (30, 0), (2_500, 472, 2_500), 0, &[(29, 0, 1, 2_492), (30, 0, 1, 2_508)]),
        case("plan's signal 1", (93, 100), (10_000, 2_000, 10_000), 4, &[(2, 1, 4, 532)]),
        case("plan's signal 2", (93, 100), (5_000, 2_000, 5_000), 2, &[(2, 0, 2, 3_032)]),
        case("plan's signal 3", (93, 100), (2_500, 2_000, 2_500), 1, &[(1, 0, 1, 516)]),
    ]
}

#[cfg(test)]
mod tests {
    use super::*;
    use crate::age::{age_by_formula, age_walked};
    use crate::rule::{keeps_walked, repetition_by_formula, repetition_walked, worst_age};
    use crate::terms::{Frame, Question};

    #[test]
    fn the_twin_gives_the_examples_numbers() {
        for Case { name, settings, signal, repetition, ages, largest_age } in cases() {
            assert_eq!(repetition_walked(&settings, &signal), repetition, "case {name}");
            assert_eq!(repetition_by_formula(&settings, &signal), repetition, "case {name}");
            for &(slot, base, repetition, age) in ages {
                let question = Question { settings, signal, frame: Frame { slot, repetition, base } };
                assert_eq!(age_walked(&question), age, "case {name}");
                assert_eq!(age_by_formula(&question), age, "case {name}");
            }
            if let Some((repetition, age)) = largest_age {
                assert_eq!(worst_age(&settings, &signal, repetition), age, "case {name}");
            }
        }
    }

    #[test]
    fn slot_30_alone_is_the_bad_place_of_case_9() {
        let all = cases();
        let wide = all.iter().find(|case| case.name == "9, 30 slots").expect("the case is listed");
        let bad: Vec<u32> = (1..=30)
            .filter(|&slot| {
                let frame = Frame { slot, repetition: 1, base: 0 };
                let question = Question { settings: wide.settings, signal: wide.signal, frame };
                age_walked(&question) > wide.signal.bound
            })
            .collect();
        assert_eq!(bad, [30]);
        assert!(!keeps_walked(&wide.settings, &wide.signal, 1));
    }
}
