//! The refusals. Each function answers one or more of the numbers of document
//! 01; the callers put them in the order 1, 3, (2 or 4), 5, 6, 7, (8 or 10), 9.
//! Of the marks they are those of ticket 14, in the order 1, 3, 16.

use crate::classes::{
    is_removed, is_separator, is_unknown, HIGHEST_RESOLVED, MOST_POSITIONS, REMOVED_LEVEL,
};
use crate::paragraph::separator_length;
use crate::Refused;

/// 1, then 3, then the first position from the left that is of no class (2)
/// or at which a separator begins that has something after it (4): so the CR,
/// not the B, of a pair that stands too early.
pub fn check_paragraph(classes: &[u8]) -> Result<(), Refused> {
    if classes.is_empty() {
        return Err((1, 0));
    }
    if classes.len() > MOST_POSITIONS {
        return Err((3, 0));
    }
    for (place, &class) in classes.iter().enumerate() {
        if is_unknown(class) {
            return Err((2, place));
        }
        if is_separator(class) && place + separator_length(classes, place) < classes.len() {
            return Err((4, place));
        }
    }
    Ok(())
}

/// 5 as Explicit and Resolve have it: the request is none of 0, 1 and 2, or the
/// default is neither 0 nor 1. The default is looked at with every request, also
/// where it is of no use.
pub fn check_request(request: u8, fallback: u8) -> Result<(), Refused> {
    if request > 2 || fallback > 1 {
        return Err((5, 0));
    }
    Ok(())
}

/// 5 as Order has it: the base level is neither 0 nor 1.
fn check_base(base: u8) -> Result<(), Refused> {
    if base > 1 {
        return Err((5, 0));
    }
    Ok(())
}

/// 6: fewer levels than positions.
pub fn check_level_room(classes: &[u8], levels: &[u8]) -> Result<(), Refused> {
    if levels.len() < classes.len() {
        return Err((6, 0));
    }
    Ok(())
}

/// 7: a kept position whose level is not 0 to 62, or a removed one whose level
/// is not 255. Levels after the paragraph are not looked at.
fn check_lent_levels(classes: &[u8], levels: &[u8]) -> Result<(), Refused> {
    for (place, &class) in classes.iter().enumerate() {
        let level = levels[place];
        let sound = if is_removed(class) {
            level == REMOVED_LEVEL
        } else {
            level <= HIGHEST_RESOLVED
        };
        if !sound {
            return Err((7, place));
        }
    }
    Ok(())
}

/// What both forms of Order check first: the paragraph, then 5, 6 and 7.
pub fn check_lent(classes: &[u8], levels: &[u8], base: u8) -> Result<(), Refused> {
    check_paragraph(classes)?;
    check_base(base)?;
    check_level_room(classes, levels)?;
    check_lent_levels(classes, levels)
}

/// 8: an empty or backward line, or one that goes beyond the paragraph.
pub fn check_line(classes: &[u8], from: usize, to: usize) -> Result<(), Refused> {
    if from >= to || to > classes.len() {
        return Err((8, 0));
    }
    Ok(())
}

/// 10: no ends, a first end of 0, an end not above the one before it, or a
/// last end that is not the paragraph's length.
pub fn check_ends(classes: &[u8], ends: &[u16]) -> Result<(), Refused> {
    if ends.is_empty() || ends[0] == 0 {
        return Err((10, 0));
    }
    for i in 1..ends.len() {
        if ends[i] <= ends[i - 1] {
            return Err((10, 0));
        }
    }
    if usize::from(ends[ends.len() - 1]) != classes.len() {
        return Err((10, 0));
    }
    Ok(())
}

/// 9: less room in the order buffer than the positions asked for, removed ones
/// counted.
pub fn check_order_room(positions: usize, order: &[u16]) -> Result<(), Refused> {
    if order.len() < positions {
        return Err((9, 0));
    }
    Ok(())
}

/// 1, then 3, of the marks' characters; every class is sound.
pub fn check_characters(classes: &[u8]) -> Result<(), Refused> {
    if classes.is_empty() {
        return Err((1, 0));
    }
    if classes.len() > MOST_POSITIONS {
        return Err((3, 0));
    }
    Ok(())
}

/// 16: fewer flags or fewer places of the order than characters.
pub fn check_marks_room(classes: &[u8], flags: &[u8], order: &[u16]) -> Result<(), Refused> {
    if flags.len() < classes.len() || order.len() < classes.len() {
        return Err((16, 0));
    }
    Ok(())
}
