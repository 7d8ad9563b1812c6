//! The implicit levels: I1 and I2.

use crate::classes::{AN, EN, L, R};

/// I1: on an even level R goes up by one, AN and EN by two; L stays.
pub fn i1(class: u8, level: u8) -> u8 {
    match class {
        R => level + 1,
        AN | EN => level + 2,
        _ => level,
    }
}

/// I2: on an odd level L, EN and AN go up by one; R stays.
pub fn i2(class: u8, level: u8) -> u8 {
    match class {
        L | EN | AN => level + 1,
        _ => level,
    }
}
