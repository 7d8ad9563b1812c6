//! Paragraphs: the cut (P1) and the paragraph's own level (P2, P3).

use crate::classes::{is_separator, is_unknown, AL, B, CR, L, MOST_POSITIONS, R};
use crate::Refused;

/// P1: a paragraph ends with the first separator, which belongs to it, or with
/// the text. The separator is B, CR with the B right after it, or CR alone. At
/// most 4,096 positions may belong to it. Of what stands after a CR it is only
/// asked whether it is B; nothing else after the first paragraph is looked at.
pub fn p1(classes: &[u8]) -> Result<usize, Refused> {
    if classes.is_empty() {
        return Err((1, 0));
    }
    let mut place = 0;
    while place < classes.len() && place < MOST_POSITIONS {
        if is_unknown(classes[place]) {
            return Err((2, place));
        }
        if is_separator(classes[place]) {
            return accepted_length(place + separator_length(classes, place));
        }
        place += 1;
    }
    if place < classes.len() {
        return Err((3, 0));
    }
    Ok(place)
}

/// How many positions the separator at `place` has: two if it is CR and a B
/// stands right after it, else one.
pub fn separator_length(classes: &[u8], place: usize) -> usize {
    if classes[place] == CR && classes.get(place + 1) == Some(&B) {
        2
    } else {
        1
    }
}

/// The length of a paragraph with its separator; the B of a pair may be the one
/// position too many (3).
fn accepted_length(length: usize) -> Result<usize, Refused> {
    if length > MOST_POSITIONS {
        return Err((3, 0));
    }
    Ok(length)
}

/// P2: find the first strong character, L, R or AL, of the paragraph, however
/// deep among the codes it stands.
pub fn p2(classes: &[u8]) -> Option<u8> {
    classes
        .iter()
        .copied()
        .find(|&class| class == L || class == R || class == AL)
}

/// P3: the paragraph's level is 1 if that character is R or AL, and 0 if it is
/// L. If there was none, the text gives no level; the chapter's 0 would be a
/// guess.
pub fn p3(first_strong: Option<u8>) -> Option<u8> {
    match first_strong {
        Some(R) | Some(AL) => Some(1),
        Some(_) => Some(0),
        None => None,
    }
}
