//! Texts to cut: a paragraph, and what goes on after it. Newlines of all forms, and what is none.
use crate::classes::*;
use crate::generator::Generator;
use crate::shapes;

/// Separators alone and in pairs, and what stands near them and makes no pair or is no class.
pub const NEWLINES: [&[u8]; 11] = [
    &[B],
    &[CR],
    &[CR, B],
    &[CR, CR, B],
    &[CR, BN, B],
    &[CR, WS, B],
    &[CR, B, B],
    &[B, CR],
    &[CR, FIRST_UNKNOWN],
    &[CR, 255, B],
    &[CR, B, FIRST_UNKNOWN],
];

/// The paragraph in a text that goes on.
pub fn around(random: &mut Generator, paragraph: &[u8]) -> Vec<u8> {
    [paragraph, &more(random)].concat()
}

/// A text that goes on about where the longest paragraph ends.
pub fn long(random: &mut Generator) -> Vec<u8> {
    let length = LONGEST - random.between(0, 3);
    let stretch = vec![random.pick(&shapes::ANY); length];
    around(random, &stretch)
}

/// In half of the texts a newline; then anything whatever.
fn more(random: &mut Generator) -> Vec<u8> {
    let newline = if random.one_in(2) { random.pick(&NEWLINES) } else { &[] };
    let count = random.between(0, 3);
    let rest = (0..count).map(|_| random.byte_between(0, 255));
    newline.iter().copied().chain(rest).collect()
}
