// The questions that are asked: 01's examples, one field after the other out of range, then drawn ones.
// Bounds are put exactly at and one below the worst age, where a repetition stops to keep.

use crate::run::{stray_kind, ten, Run};
use twin::cases::{cases, Case};
use twin::draw;
use twin::rule::{repetition_by_formula, worst_age};
use twin::stray;
use twin::terms::{Frame, Question, Settings, Signal};

pub fn all(run: &mut Run, count: u64) {
    run.examples();
    run.slots_of_case_9();
    run.strays(100);
    run.drawn_ages(count);
    run.drawn_repetitions(count / 10);
}

impl Run {
    /// 01's examples: the numbers that stand there, of both sides.
    fn examples(&mut self) {
        for Case { settings, signal, repetition, ages, largest_age, .. } in cases() {
            let given = self.repetition(&settings, &signal, true);
            if given != repetition {
                self.differs(&format!("repetition: 01 says {repetition}, twin {given}"), &ten(&settings, &signal));
            }
            for &(slot, base, repetition, age) in ages {
                let question = Question { settings, signal, frame: Frame { slot, repetition, base } };
                let given = self.age(&question);
                if given != age {
                    self.differs(&format!("age: 01 says {age}, twin {given}"), &question.words());
                }
            }
            if let Some((repetition, age)) = largest_age {
                self.largest_age(&settings, &signal, repetition, age);
            }
        }
    }

    /// Asks the age at every place of a repetition; the largest is the one 01 names.
    fn largest_age(&mut self, settings: &Settings, signal: &Signal, repetition: u32, age: u32) {
        let mut largest = 0;
        for slot in 1..=settings.slots {
            for base in 0..repetition {
                let frame = Frame { slot, repetition, base };
                largest = largest.max(self.age(&Question { settings: *settings, signal: *signal, frame }));
            }
        }
        if largest != age {
            self.differs(&format!("largest age: 01 says {age}, twin {largest}"), &ten(settings, signal));
        }
    }

    /// With 30 slots, case 9's signal is too old in slot 30 and in no other.
    fn slots_of_case_9(&mut self) {
        for Case { settings, signal, .. } in cases().into_iter().filter(|case| case.name == "9, 30 slots") {
            for slot in 1..=settings.slots {
                let question = Question { settings, signal, frame: Frame { slot, repetition: 1, base: 0 } };
                let age = self.age(&question);
                if (age > signal.bound) != (slot == 30) {
                    self.differs(&format!("age: 01 says slot 30 alone is too old, twin {age}"), &question.words());
                }
            }
        }
    }

    /// One field after the other out of its range, from fixed questions and from drawn ones.
    fn strays(&mut self, drawn: u64) {
        let mut points = stray::starting_points();
        for _ in 0..drawn {
            points.push(draw::ordinary(&mut self.random));
            points.push(draw::extreme(&mut self.random));
        }
        for point in &points {
            for field in 0..13 {
                for question in stray::varied(point, field) {
                    self.stray(point, field, &question);
                }
            }
        }
    }

    fn stray(&mut self, point: &Question, field: usize, question: &Question) {
        let below = question.words()[field] < point.words()[field];
        let out = stray::is_out(question, field);
        if self.age(question) == 0 && out {
            self.reached.count(&stray_kind("age", field, below));
        }
        // A frame's fields are no part of the question which repetition a signal gets.
        if field < 10 && self.random.once_in(4) {
            let given = self.repetition(&question.settings, &question.signal, false);
            let kept = repetition_by_formula(&point.settings, &point.signal);
            if given == 0 && kept > 0 && out {
                self.reached.count(&stray_kind("repetition", field, below));
            }
        }
    }

    fn drawn_ages(&mut self, count: u64) {
        for round in 0..count {
            let question = match round % 8 {
                0..=2 => draw::small(&mut self.random),
                3..=4 => draw::ordinary(&mut self.random),
                5..=6 => draw::extreme(&mut self.random),
                _ => Question::from_words([(); 13].map(|()| self.random.wild())),
            };
            self.age(&question);
        }
    }

    fn drawn_repetitions(&mut self, count: u64) {
        for round in 0..count {
            let kind = round % 16;
            let Question { settings, mut signal, .. } = match kind {
                0..=11 => draw::small(&mut self.random),
                12 | 13 => draw::ordinary(&mut self.random),
                14 => draw::extreme(&mut self.random),
                _ => Question::from_words([(); 13].map(|()| self.random.wild())),
            };
            if kind < 15 && !self.random.once_in(4) {
                draw::bound_near_worst(&mut self.random, &settings, &mut signal);
            }
            let given = self.repetition(&settings, &signal, kind < 6);
            if given > 0 {
                self.edges(&settings, signal, given);
            }
        }
    }

    /// The bound at the worst age of the repetition given, where that one just keeps, and one below.
    fn edges(&mut self, settings: &Settings, mut signal: Signal, given: u32) {
        let worst = worst_age(settings, &signal, given);
        signal.bound = worst;
        if self.repetition(settings, &signal, false) == given {
            self.reached.count("bound equal to the worst age");
        }
        signal.bound = worst - 1;
        if worst > 1 && self.repetition(settings, &signal, false) < given {
            self.reached.count("bound one below the worst age");
        }
    }
}
