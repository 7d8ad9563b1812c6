//! Random characters for the marks: their combining classes and flags.
use crate::call::Input;
use crate::classes::LONGEST;
use crate::generator::Generator;
use crate::shapes::{drawn, length};

/// Classes that the steps move, and some between and around them.
const FEW: [u8; 11] = [0, 27, 30, 33, 33, 34, 220, 220, 230, 230, 240];
/// The neighbours of those that the steps move, and the ends of all.
const NEAR: [u8; 12] = [1, 32, 33, 34, 219, 220, 221, 229, 230, 231, 254, 255];
/// Only what the steps move, and a vowel.
const MOVED: [u8; 4] = [31, 33, 220, 230];

/// 1 to 4,096 characters, some with more flags and places of the order than they need.
pub fn text(random: &mut Generator) -> Input<'static> {
    let length = length(random);
    let mut input = text_of(random, length);
    let more = random.between(0, 2);
    input.flags.to_mut().extend((0..more).map(|_| random.byte_between(0, 255)));
    input.order_room += random.between(0, 2);
    input
}

/// So many characters, with just enough flags and places.
pub fn text_of(random: &mut Generator, length: usize) -> Input<'static> {
    let any: Vec<u8> = (0..=255).collect();
    let palette = random.pick(&[&any[..], &FEW, &NEAR, &MOVED]);
    let mut combining = drawn(random, length, palette);
    strew_starters(random, &mut combining);
    Input {
        combining: combining.into(),
        flags: flags(random, length).into(),
        order_room: length,
        ..Input::default()
    }
}

/// Stretches of a few characters up to one of all.
fn strew_starters(random: &mut Generator, combining: &mut [u8]) {
    let rarity = random.pick(&[3, 10, 100, LONGEST]);
    for class in combining {
        if random.one_in(rarity) {
            *class = 0;
        }
    }
}

/// Any bytes, among them no 0, a few, many, or nothing else.
fn flags(random: &mut Generator, length: usize) -> Vec<u8> {
    let rarity = random.pick(&[1, 2, 10, 100, LONGEST]);
    (0..length).map(|_| if random.one_in(rarity) { 0 } else { random.byte_between(1, 255) }).collect()
}

/// The characters' places after some exchanges of neighbours whose classes differ and are not 0.
pub fn exchanged(random: &mut Generator, combining: &[u8]) -> Vec<u16> {
    let mut places: Vec<u16> = (0..combining.len() as u16).collect();
    for _ in 0..random.between(1, 2 * combining.len()) {
        let at = random.place(combining.len());
        if let Some(&[left, right]) = places.get(at..at + 2) {
            let (left, right) = (combining[usize::from(left)], combining[usize::from(right)]);
            if left != 0 && right != 0 && left != right {
                places.swap(at, at + 1);
            }
        }
    }
    places
}
