//! Demand 3, checked on an order itself: of two kept positions on one line the earlier in memory is left of
//! the later exactly when the smallest level on kept positions from one to the other is even.
use crate::classes::REMOVED_LEVEL;
use crate::generator::Generator;

/// Up to this length all pairs of a line are looked at, beyond it those of some positions with all later ones.
const ALL_PAIRS: usize = 200;
const SAMPLED: usize = 16;

/// `levels` are those of one line after its own reset, 255 where removed; `order` is counted from `from`.
pub fn holds(random: &mut Generator, levels: &[u8], from: usize, order: &[u16]) -> bool {
    match places(levels, from, order) {
        None => false,
        Some(places) if levels.len() <= ALL_PAIRS => {
            (0..levels.len()).all(|earlier| holds_from(levels, &places, earlier))
        }
        Some(places) => (0..SAMPLED).all(|_| holds_from(levels, &places, random.place(levels.len()))),
    }
}

/// The place of each kept position of the line, if each has one and no other position has.
fn places(levels: &[u8], from: usize, order: &[u16]) -> Option<Vec<Option<usize>>> {
    let mut places = vec![None; levels.len()];
    for (place, &position) in order.iter().enumerate() {
        let slot = places.get_mut(usize::from(position).checked_sub(from)?)?;
        if slot.replace(place).is_some() {
            return None;
        }
    }
    let kept = |&level: &u8| level != REMOVED_LEVEL;
    let right = levels.iter().map(kept).eq(places.iter().map(Option::is_some));
    right.then_some(places)
}

/// The law for one position with every later one.
fn holds_from(levels: &[u8], places: &[Option<usize>], earlier: usize) -> bool {
    let left = match places[earlier] {
        None => return true,
        Some(place) => place,
    };
    let mut smallest = levels[earlier];
    for later in earlier + 1..levels.len() {
        if let Some(right) = places[later] {
            smallest = smallest.min(levels[later]);
            if (left < right) != (smallest % 2 == 0) {
                return false;
            }
        }
    }
    true
}

#[cfg(test)]
mod tests {
    use super::*;

    fn on(levels: &[u8], order: &[u16]) -> bool {
        holds(&mut Generator::new(1, 1), levels, 5, order)
    }

    #[test]
    fn takes_the_order_of_the_levels_and_no_other() {
        assert!(on(&[1, 2, 2, 255, 1], &[9, 6, 7, 5]));
        assert!(on(&[255, 255], &[]));
        for wrong in [[5, 6, 7, 9], [9, 7, 6, 5], [9, 6, 5, 7]] {
            assert!(!on(&[1, 2, 2, 255, 1], &wrong));
        }
    }

    #[test]
    fn takes_no_order_of_other_positions() {
        let levels = [0, 255, 0];
        assert!(on(&levels, &[5, 7]));
        for wrong in [&[5][..], &[5, 6], &[5, 5], &[5, 7, 7], &[5, 8], &[0, 2], &[5, 6, 7]] {
            assert!(!on(&levels, wrong));
        }
    }

    #[test]
    fn looks_at_long_lines_too() {
        let memory_order: Vec<u16> = (5..305).collect();
        assert!(on(&[2; 300], &memory_order));
        assert!(!on(&[1; 300], &memory_order));
    }
}
