//! Ticket 6, checked on a count itself: the reversals of a line are the sum, over its kept positions, of the
//! level less the line's lowest odd level plus 1, where that is positive. Without an odd level they are 0, and
//! they are never above 62 for each kept position. For all lines it is the sum.
use crate::classes::{HIGHEST_LEVEL, REMOVED_LEVEL};

/// `lines` are the levels of each line after its own reset, 255 where removed; `reversed` is their count.
pub fn holds(lines: impl Iterator<Item = Vec<u8>>, reversed: usize) -> bool {
    let (mut sum, mut kept) = (0, 0);
    for levels in lines {
        sum += of_line(&levels);
        kept += levels.iter().filter(|&&level| is_kept(level)).count();
    }
    reversed == sum && reversed <= usize::from(HIGHEST_LEVEL) * kept
}

/// What the count of one line has to be.
pub fn of_line(levels: &[u8]) -> usize {
    let kept = || levels.iter().copied().filter(|&level| is_kept(level));
    match kept().filter(|level| level % 2 == 1).min() {
        None => 0,
        Some(lowest_odd) => kept().map(|level| usize::from((level + 1).saturating_sub(lowest_odd))).sum(),
    }
}

fn is_kept(level: u8) -> bool {
    level != REMOVED_LEVEL
}

#[cfg(test)]
mod tests {
    use super::*;

    fn on(lines: &[&[u8]], reversed: usize) -> bool {
        holds(lines.iter().map(|levels| levels.to_vec()), reversed)
    }

    /// Takes the count, and neither one less nor one more.
    fn only(lines: &[&[u8]], reversed: usize) {
        assert!(on(lines, reversed), "{lines:?}");
        assert!(reversed == 0 || !on(lines, reversed - 1), "{lines:?}");
        assert!(!on(lines, reversed + 1), "{lines:?}");
    }

    #[test]
    fn adds_what_is_at_or_above_the_lowest_odd_level() {
        // 1 + 2 + 2 + 1, then 60 + 1, then 2 + 1 + 4 + 0
        only(&[&[1, 2, 2, 255, 1]], 6);
        only(&[&[62, 3]], 61);
        only(&[&[6, 5, 8, 4]], 7);
    }

    #[test]
    fn is_nothing_without_an_odd_level() {
        only(&[&[0, 2, 255, 62]], 0);
        only(&[&[255, 255]], 0);
        only(&[], 0);
    }

    #[test]
    fn goes_by_each_line() {
        // 1 + 2, then 1 + 2, then nothing
        only(&[&[1, 2], &[3, 4], &[2, 2]], 6);
    }

    #[test]
    fn has_a_bound_for_each_kept_position() {
        // 62 + 1; and levels that no line has, whose sum, 40 times 64 and 1, is above 41 times 62
        only(&[&[62, 1]], 63);
        let beyond = [&[64; 40][..], &[1]].concat();
        assert_eq!(of_line(&beyond), 2561);
        assert!(!on(&[&beyond], 2561));
    }
}
