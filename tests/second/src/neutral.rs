//! The neutral types: N1 and N2. Each function takes the types of one whole
//! run.

use crate::classes::{direction, is_neutral, L, R};

/// N1: a stretch of neutrals with the same direction on both its sides takes
/// that direction. EN and AN count as R; at the ends of the run stand its start
/// type and its end type.
pub fn n1(types: &mut [u8], sor: u8, eor: u8) {
    let mut start = 0;
    while start < types.len() {
        if !is_neutral(types[start]) {
            start += 1;
            continue;
        }
        let mut end = start;
        while end < types.len() && is_neutral(types[end]) {
            end += 1;
        }
        let before = if start == 0 { sor } else { types[start - 1] };
        let after = if end == types.len() { eor } else { types[end] };
        if side(before) == side(after) {
            for slot in &mut types[start..end] {
                *slot = side(before);
            }
        }
        start = end;
    }
}

/// N2: a neutral that N1 left takes the direction of the run's level.
pub fn n2(types: &mut [u8], level: u8) {
    for class in types {
        if is_neutral(*class) {
            *class = direction(level);
        }
    }
}

/// The direction a type that is no neutral shows to a neutral beside it: L for
/// L, R for R, EN and AN.
fn side(class: u8) -> u8 {
    if class == L {
        L
    } else {
        R
    }
}
