// Guards: bytes on both sides of what is lent to the library, so that a write beside it is seen.
// Lent room goes to the caller with its guards and comes back with them.

/// What guards hold, and how many bytes of them stand on each side.
const GUARD: u8 = 0xA5;
pub const BESIDE_WORDS: usize = 256;
/// Odd, so that bytes are lent where no word may be taken to start.
pub const BESIDE_BYTES: usize = 515;

pub fn guarded(inside: &[u8], beside: usize) -> Vec<u8> {
    let mut whole = vec![GUARD; beside];
    whole.extend_from_slice(inside);
    whole.resize(whole.len() + beside, GUARD);
    whole
}

/// What lies between the guards, and whether they stand.
pub fn opened(whole: &[u8], beside: usize) -> (&[u8], bool) {
    let (front, rest) = whole.split_at(beside);
    let (inside, back) = rest.split_at(rest.len() - beside);
    (inside, front.iter().chain(back).all(|&byte| byte == GUARD))
}

#[cfg(test)]
mod tests {
    use super::*;
    use crate::library::bytes_of;

    #[test]
    fn a_write_on_either_side_of_the_room_is_seen() {
        let whole = guarded(&[1, 2, 3], BESIDE_BYTES);
        assert_eq!(opened(&whole, BESIDE_BYTES), (&[1, 2, 3][..], true));
        for at in [0, BESIDE_BYTES - 1, BESIDE_BYTES + 3, whole.len() - 1] {
            let mut written = whole.clone();
            written[at] = 0;
            assert_eq!(opened(&written, BESIDE_BYTES), (&[1, 2, 3][..], false));
        }
    }

    #[test]
    fn a_write_within_the_room_leaves_the_guards() {
        let mut whole = guarded(&bytes_of(&[1, 2]), BESIDE_WORDS);
        whole[BESIDE_WORDS + 4] = 7;
        assert_eq!(opened(&whole, BESIDE_WORDS), (&[1, 0, 0, 0, 7, 0, 0, 0][..], true));
    }
}
