//! Random paragraphs, levels and lines, shaped to find faults.
use crate::classes::*;
use crate::generator::Generator;

/// One paragraph: 1 to 4,096 positions, and no separator but the last B, CR, or CR and B.
pub fn paragraph(random: &mut Generator) -> Vec<u8> {
    let length = length(random);
    paragraph_of(random, length)
}

/// One of a given length.
pub fn paragraph_of(random: &mut Generator, length: usize) -> Vec<u8> {
    let end = if random.one_in(3) { random.pick(&ENDS) } else { &[] };
    paragraph_with(random, length, end)
}

/// One of a given length with its last positions, of which a short one has only the last.
pub fn paragraph_with(random: &mut Generator, length: usize, end: &[u8]) -> Vec<u8> {
    let mut classes = match random.between(0, 5) {
        0 => drawn(random, length, &ANY),
        1 => stretches(random, length),
        2 => drawn(random, length, &NUMBERS),
        3 => drawn(random, length, &BLANKS),
        _ => nested(random, length),
    };
    strew_removed(random, &mut classes);
    if random.one_in(5) {
        drop_strong(random, &mut classes);
    }
    let room = end.len().min(length);
    classes[length - room..].copy_from_slice(&end[end.len() - room..]);
    classes
}

/// What some paragraphs end with.
const ENDS: [&[u8]; 6] = [&[B], &[B], &[CR], &[CR, B], &[S], &[WS]];
/// Every class but B and CR.
pub const ANY: [u8; 18] = [L, LRE, LRO, R, AL, RLE, RLO, PDF, EN, ES, ET, AN, CS, NSM, BN, S, WS, ON];
/// For W1 to W7.
const NUMBERS: [u8; 12] = [EN, EN, EN, AN, AN, ES, CS, ET, ET, NSM, AL, L];
/// For L1 and the neutrals.
const BLANKS: [u8; 10] = [WS, WS, WS, S, ON, L, R, AN, RLO, PDF];
/// For codes around the deepest level, valid and invalid, and for PDF with nothing to match.
const CODES: [u8; 14] = [RLE, LRE, RLO, LRO, RLE, LRE, PDF, PDF, PDF, PDF, L, R, EN, WS];
/// What stands for a strong class where there is to be none: numbers, separators, blanks and codes.
const NOT_STRONG: [u8; 14] = [EN, EN, AN, ES, CS, ET, NSM, S, WS, ON, RLE, LRO, PDF, BN];
/// What stands in long stretches.
const LONG: [u8; 16] = [NSM, NSM, ET, ET, ON, WS, WS, BN, CS, EN, RLE, LRE, RLO, PDF, PDF, AL];

/// Mostly short; a quarter just long enough for codes to reach the deepest level.
pub fn length(random: &mut Generator) -> usize {
    match random.between(1, 1000) {
        1 => LONGEST,
        2..=5 => random.between(513, LONGEST),
        6..=50 => random.between(129, 512),
        51..=300 => random.between(65, 128),
        _ => random.between(1, 64),
    }
}

pub fn drawn(random: &mut Generator, length: usize, from: &[u8]) -> Vec<u8> {
    (0..length).map(|_| random.pick(from)).collect()
}

/// Codes that mostly alternate, so that about sixty of them reach level 61; then more of both kinds and PDFs.
fn nested(random: &mut Generator, length: usize) -> Vec<u8> {
    let mut classes = Vec::new();
    let mut to_right = random.one_in(2);
    for _ in 0..random.between(50, 64) {
        classes.push(random.pick(if to_right { &[LRE, LRE, LRO] } else { &[RLE, RLE, RLO] }));
        to_right ^= !random.one_in(20);
    }
    classes.extend(drawn(random, length, &CODES));
    classes.truncate(length);
    classes
}

fn stretches(random: &mut Generator, length: usize) -> Vec<u8> {
    let mut classes = Vec::new();
    while classes.len() < length {
        let class = if random.one_in(3) { random.pick(&ANY) } else { random.pick(&LONG) };
        let most = if random.one_in(3) { 1 + length / 3 } else { 4 };
        let count = random.between(1, most).min(length - classes.len());
        classes.resize(classes.len() + count, class);
    }
    classes
}

/// Removed positions between all others, in some paragraphs.
fn strew_removed(random: &mut Generator, classes: &mut [u8]) {
    if random.one_in(3) {
        for class in classes.iter_mut() {
            if random.one_in(6) {
                *class = random.pick(&[BN, BN, BN, PDF]);
            }
        }
    }
}

/// So that the text gives no base.
pub fn drop_strong(random: &mut Generator, classes: &mut [u8]) {
    for class in classes.iter_mut().filter(|class| matches!(**class, L | R | AL)) {
        *class = random.pick(&NOT_STRONG);
    }
}

/// Levels of which most belong to no paragraph: any on kept positions, from a wide or a narrow span.
pub fn levels(random: &mut Generator, classes: &[u8]) -> Vec<u8> {
    let span = random.pick(&[0, 1, 2, 5, HIGHEST_LEVEL]);
    let lowest = random.byte_between(0, HIGHEST_LEVEL - span);
    let level = |&class: &u8| match is_removed(class) {
        true => REMOVED_LEVEL,
        false => random.byte_between(lowest, lowest + span),
    };
    classes.iter().map(level).collect()
}

/// The highest level on all kept positions but a few: a long line then counts more reversals than 16 bits hold.
pub fn high_levels(random: &mut Generator, classes: &[u8]) -> Vec<u8> {
    let rarity = random.pick(&[20, 200, LONGEST]);
    let level = |&class: &u8| match is_removed(class) {
        true => REMOVED_LEVEL,
        false if random.one_in(rarity) => random.byte_between(0, HIGHEST_LEVEL),
        false => HIGHEST_LEVEL,
    };
    classes.iter().map(level).collect()
}

/// Line ends that rise to the length: none but the last, a few, or all.
pub fn ends(random: &mut Generator, length: usize) -> Vec<u16> {
    let rarity = random.pick(&[1, 2, 5, 20, LONGEST]);
    let mut ends: Vec<u16> = (1..length as u16).filter(|_| random.one_in(rarity)).collect();
    ends.push(length as u16);
    ends
}

/// `from` and `to` of a line.
pub fn line(random: &mut Generator, length: usize) -> (usize, usize) {
    let from = random.place(length);
    (from, random.between(from + 1, length))
}
