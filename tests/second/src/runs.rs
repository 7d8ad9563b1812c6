//! Level runs: X10.

use crate::classes::direction;
use crate::explicit::Position;

/// A level run, as a part `start..end` of the kept positions.
pub struct Run {
    pub start: usize,
    pub end: usize,
    pub level: u8,
    /// The type that stands before the run, L or R.
    pub sor: u8,
    /// The type that stands after the run, L or R.
    pub eor: u8,
}

/// X10: a run is a longest stretch of neighbouring kept positions at one
/// level. The type at a boundary is the direction of the higher of the two
/// levels that meet there; outside the paragraph the level is the base.
pub fn x10(kept: &[Position], base: u8) -> Vec<Run> {
    let mut runs = Vec::new();
    let mut start = 0;
    while start < kept.len() {
        let level = kept[start].level;
        let mut end = start;
        while end < kept.len() && kept[end].level == level {
            end += 1;
        }
        let before = if start == 0 {
            base
        } else {
            kept[start - 1].level
        };
        let after = if end == kept.len() {
            base
        } else {
            kept[end].level
        };
        runs.push(Run {
            start,
            end,
            level,
            sor: direction(level.max(before)),
            eor: direction(level.max(after)),
        });
        start = end;
    }
    runs
}
