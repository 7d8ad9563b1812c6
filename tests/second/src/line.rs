//! One line: L1 and L2.

use crate::classes::{is_removed, is_separator, S, WS};

/// A kept position of the line on its way to its place on the display.
pub struct Cell {
    /// Where it stands in the paragraph.
    pub place: usize,
    /// Its level after L1.
    pub level: u8,
}

/// L1: on the line `from..to`, by original classes, go back to the base level:
/// S, B, CR, every stretch of WS before one of these, and every stretch of WS
/// at the end of the line. Removed positions are passed over. Answers the
/// levels of the line.
pub fn l1(classes: &[u8], levels: &[u8], base: u8, from: usize, to: usize) -> Vec<u8> {
    let mut reset = levels[from..to].to_vec();
    for place in from..to {
        let class = classes[place];
        let trailing = class == WS && trails(classes, place, to);
        if takes_blanks(class) || trailing {
            reset[place - from] = base;
        }
    }
    reset
}

/// The classes that go back to the base level and take the blanks before them
/// along: the separators of segments and of paragraphs.
fn takes_blanks(class: u8) -> bool {
    class == S || is_separator(class)
}

/// Whether, going on from a WS over further WS and over removed positions, a
/// separator or the end of the line is what comes next.
fn trails(classes: &[u8], place: usize, to: usize) -> bool {
    let mut next = place + 1;
    while next < to && (classes[next] == WS || is_removed(classes[next])) {
        next += 1;
    }
    next == to || takes_blanks(classes[next])
}

/// L2: from the highest level on the line down to the lowest odd level on it,
/// one pass for each number whether found on the line or not, reverse every
/// longest stretch at that level or above. Without an odd level, no pass.
/// Answers how many positions were reversed, added over all passes.
pub fn l2(cells: &mut [Cell]) -> usize {
    let mut reversed = 0;
    let highest = cells.iter().map(|cell| cell.level).max();
    let lowest_odd = cells
        .iter()
        .map(|cell| cell.level)
        .filter(|level| level % 2 == 1)
        .min();
    if let (Some(highest), Some(lowest_odd)) = (highest, lowest_odd) {
        let mut level = highest;
        while level >= lowest_odd {
            reversed += reverse_from_level(cells, level);
            level -= 1;
        }
    }
    reversed
}

/// One pass of L2. Answers how many positions it reversed; a stretch of one
/// counts as one.
fn reverse_from_level(cells: &mut [Cell], level: u8) -> usize {
    let mut reversed = 0;
    let mut start = 0;
    while start < cells.len() {
        if cells[start].level < level {
            start += 1;
            continue;
        }
        let mut end = start;
        while end < cells.len() && cells[end].level >= level {
            end += 1;
        }
        cells[start..end].reverse();
        reversed += end - start;
        start = end;
    }
    reversed
}
