//! Document 01's house numbers and ticket 4's CR, as far as they are asked for here.

/// The names in the order of their numbers.
const NAMES: [&str; 20] = [
    "L", "LRE", "LRO", "R", "AL", "RLE", "RLO", "PDF", "EN", "ES", "ET", "AN", "CS", "NSM", "BN", "B", "S",
    "WS", "ON", "CR",
];

pub const L: u8 = 0;
pub const LRE: u8 = 1;
pub const LRO: u8 = 2;
pub const R: u8 = 3;
pub const AL: u8 = 4;
pub const RLE: u8 = 5;
pub const RLO: u8 = 6;
pub const PDF: u8 = 7;
pub const EN: u8 = 8;
pub const ES: u8 = 9;
pub const ET: u8 = 10;
pub const AN: u8 = 11;
pub const CS: u8 = 12;
pub const NSM: u8 = 13;
pub const BN: u8 = 14;
pub const B: u8 = 15;
pub const S: u8 = 16;
pub const WS: u8 = 17;
pub const ON: u8 = 18;
pub const CR: u8 = 19;

pub const ALL: std::ops::RangeInclusive<u8> = L..=CR;
pub const FIRST_UNKNOWN: u8 = 20;

pub const REMOVED_LEVEL: u8 = 255;
pub const HIGHEST_LEVEL: u8 = 62;
pub const LONGEST: usize = 4096;

pub fn is_removed(class: u8) -> bool {
    matches!(class, LRE | LRO | RLE | RLO | PDF | BN)
}

pub fn number(name: &str) -> Option<u8> {
    NAMES.iter().position(|&known| known == name).map(|at| at as u8)
}

/// The names of the classes, the number itself where it is no class.
pub fn named(classes: &[u8]) -> String {
    let name = |&class: &u8| NAMES.get(usize::from(class)).map_or(class.to_string(), |name| name.to_string());
    classes.iter().map(name).collect::<Vec<String>>().join(" ")
}
