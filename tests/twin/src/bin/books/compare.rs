// One call of the library beside the same call of the twin; what differs, in words.
// Lent room is compared whole: what is to be written, and all behind it as it was before.

use std::io::Result;
use twin::book;
use twin::library::{bytes_of, Asked, Left, Library};
use twin::terms::{Answer, Settings};

/// What the lent room must hold at the end: the written head, then what it held before.
fn expected(before: &[u8], written: &[u8]) -> Vec<u8> {
    let mut after = before.to_vec();
    after[..written.len()].copy_from_slice(written);
    after
}

fn differences(left: &Left, answer: Answer, room: &[u8]) -> Vec<String> {
    let mut found = Vec::new();
    if left.answer != answer.packed() {
        found.push(format!("answer: library {}, twin {answer}", Answer::unpacked(left.answer)));
    }
    if let Some(at) = left.room.iter().zip(room).position(|(is, wanted)| is != wanted) {
        found.push(format!("lent room, first at byte {at} of {}", room.len()));
    }
    if !left.guards_stand {
        found.push("a guard beside the lent room was written".to_string());
    }
    if !left.input_stands {
        found.push("what was only to be read was written".to_string());
    }
    found
}

/// Reads a book into a list that holds the given words before; then asks it for settings and parts.
pub fn reading(library: &mut Library, bytes: &[u8], list: &[u32], asked: &Asked) -> Result<Vec<String>> {
    let twin = book::read(bytes, list.len());
    let (left, given) = library.read(bytes, list, asked)?;
    let mut found = differences(&left, twin.answer, &expected(&bytes_of(list), &bytes_of(&twin.list)));
    for (&word, library) in asked.settings.iter().zip(given.settings) {
        let twin = book::setting(bytes, word);
        if library != twin {
            found.push(format!("setting word {word}: library {library}, twin {twin}"));
        }
    }
    for (&signal, library) in asked.parts.iter().zip(given.parts) {
        let twin = book::part(bytes, signal);
        if library != twin {
            found.push(format!("part of signal {signal}: library {library}, twin {twin}"));
        }
    }
    Ok(found)
}

/// Writes a book into room that holds the given bytes before.
pub fn writing(library: &mut Library, settings: &[u32; 5], list: &[u32], room: &[u8]) -> Result<Vec<String>> {
    let (answer, written) = book::write(settings, list, room.len());
    let left = library.write(&Settings::from_words(*settings), list, room)?;
    Ok(differences(&left, answer, &expected(room, &written)))
}
