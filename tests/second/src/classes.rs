//! The class numbers of document 01, with ticket 4's CR, and the little that is
//! asked of a class by itself.

pub const L: u8 = 0;
pub const LRE: u8 = 1;
pub const LRO: u8 = 2;
pub const R: u8 = 3;
pub const AL: u8 = 4;
pub const RLE: u8 = 5;
pub const RLO: u8 = 6;
pub const PDF: u8 = 7;
pub const EN: u8 = 8;
pub const ES: u8 = 9;
pub const ET: u8 = 10;
pub const AN: u8 = 11;
pub const CS: u8 = 12;
pub const NSM: u8 = 13;
pub const BN: u8 = 14;
pub const B: u8 = 15;
pub const S: u8 = 16;
pub const WS: u8 = 17;
pub const ON: u8 = 18;
pub const CR: u8 = 19;

/// The most positions a paragraph may have, and the most characters of marks.
pub const MOST_POSITIONS: usize = 4096;

/// What a level buffer holds at a removed position.
pub const REMOVED_LEVEL: u8 = 255;

/// The highest level I1 and I2 can reach.
pub const HIGHEST_RESOLVED: u8 = 62;

/// A number above that of the last class stands for no class.
pub fn is_unknown(class: u8) -> bool {
    class > CR
}

/// The classes X9 takes out. It is to be asked of original classes only.
pub fn is_removed(class: u8) -> bool {
    matches!(class, LRE | LRO | RLE | RLO | PDF | BN)
}

/// The paragraph separators: B, and CR, which is as B in every rule but that a
/// B right after it belongs to it.
pub fn is_separator(class: u8) -> bool {
    matches!(class, B | CR)
}

/// The neutrals and separators of the chapter's letter N.
pub fn is_neutral(class: u8) -> bool {
    is_separator(class) || matches!(class, S | WS | ON)
}

/// The direction of a level: L when even, R when odd (BD3).
pub fn direction(level: u8) -> u8 {
    if level % 2 == 0 {
        L
    } else {
        R
    }
}
