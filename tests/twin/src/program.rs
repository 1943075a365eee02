// What the planning program must write for a book: 01's lines on standard output, and on standard error nothing
// beside a plan and one sentence beside a refusal. The sentence's words are the program's own; its form is judged.

use crate::book;
use crate::plan::{plan, signals_of, Planning, RESULT_WORDS};
use crate::terms::{Answer, Settings, Signal, MOST_SIGNALS};

/// The lines for a list and the plan of it.
pub fn lines(settings: &Settings, list: &[u32], planning: &Planning) -> Vec<String> {
    let Answer { number, place } = planning.answer;
    if number != 0 {
        return vec![format!("REFUSED {number} {place}")];
    }
    let signals = signals_of(list);
    let line = |(index, (signal, result)): (usize, (&Signal, &[u32]))| {
        let words = result.iter().map(u32::to_string).collect::<Vec<String>>().join(" ");
        format!("{} {} {words}", index + 1, signal.unit)
    };
    let first = format!("PLAN {} {place} {}", signals.len(), settings.slots);
    let results = planning.results.chunks(RESULT_WORDS);
    [first].into_iter().chain(signals.iter().zip(results).enumerate().map(line)).collect()
}

/// The answer to a book, and all that goes to standard output for it.
pub fn written(bytes: &[u8]) -> (Answer, String) {
    let reading = book::read(bytes, 5 * MOST_SIGNALS);
    let settings = Settings::from_words(reading.settings);
    let planning = match reading.answer.number {
        0 => plan(&settings, &reading.list, usize::MAX, usize::MAX),
        _ => Planning { answer: reading.answer, cells: Vec::new(), results: Vec::new() },
    };
    let text = lines(&settings, &reading.list, &planning).iter().map(|line| format!("{line}\n")).collect();
    (planning.answer, text)
}

/// What is wrong with what went to standard error beside the answer.
pub fn wrong_sentence(said: &str, Answer { number, place }: Answer) -> Option<String> {
    if number == 0 {
        return (!said.is_empty()).then(|| format!("a plan, and standard error has {said:?}"));
    }
    let one_line = said.ends_with(".\n") && said.matches('\n').count() == 1;
    let one_sentence = said.starts_with(|first: char| first.is_ascii_uppercase()) && !said.contains(". ");
    // Numbers 1 and 4 have no place; all others say theirs.
    let mut numbers = said.split(|letter: char| !letter.is_ascii_digit());
    let says_place = [1, 4].contains(&number) || numbers.any(|digits| digits == place.to_string());
    (!(one_line && one_sentence && says_place)).then(|| format!("standard error has {said:?}"))
}

#[cfg(test)]
mod tests {
    use super::*;
    use crate::examples::examples;

    #[test]
    fn the_whole_example_is_written_as_01_prints_it() {
        let written = |name| {
            let list = examples().into_iter().find(|example| example.name == name).expect("it is listed").list;
            written(&book::write(&list.settings.words(), &list.words(), usize::MAX).1).1
        };
        assert_eq!(written("the whole example"), "PLAN 3 2 93\n1 3 2 1 4 532\n2 3 2 0 2 3032\n3 1 1 0 1 516\n");
        assert_eq!(written("case 11, 31 slots"), "REFUSED 9 32\n");
        assert_eq!(written("case 12"), "PLAN 0 0 93\n");
        assert_eq!(super::written(&[]).1, "REFUSED 1 0\n");
    }

    #[test]
    fn one_sentence_is_told_from_none_and_from_two() {
        let wrong = |said: &str, number, place| wrong_sentence(said, Answer::new(number, place)).is_some();
        assert!(!wrong("", 0, 2) && wrong("Done.\n", 0, 2));
        assert!(!wrong("Signal 12 is out of range.\n", 7, 12) && !wrong("The book is empty.\n", 1, 0));
        let forms = ["", "Signal 12.", "Signal 12\n", "signal 12.\n", "Signal 12. Mend it.\n", "Signal 12.\nMend it.\n"];
        assert!(forms.iter().all(|said| wrong(said, 7, 12)));
        assert!(wrong("Signal 120 is out of range.\n", 7, 12));
    }
}
