//! What holds of every drawing order, seen on the order itself and apart from both programs.

/// Of the combining classes and their drawing order.
type Law = fn(&[u8], &[u16]) -> bool;

/// The law that the order breaks, if it breaks one.
pub fn broken(classes: &[u8], order: &[u16]) -> Option<&'static str> {
    if !each_once(classes.len(), order) {
        return Some("not every position once");
    }
    let laws: [(Law, &str); 3] = [
        (starters_stay, "a character of class 0 has moved"),
        (classes_rise, "characters of one class are not in their order"),
        (equivalent, "what is drawn is not canonically equivalent"),
    ];
    laws.iter().find(|(holds, _)| !holds(classes, order)).map(|&(_, name)| name)
}

fn each_once(length: usize, order: &[u16]) -> bool {
    let mut sorted = order.to_vec();
    sorted.sort_unstable();
    sorted.iter().map(|&place| usize::from(place)).eq(0..length)
}

fn starters_stay(classes: &[u8], order: &[u16]) -> bool {
    let stays = |(place, &at): (usize, &u16)| classes[place] != 0 || usize::from(at) == place;
    order.iter().enumerate().all(stays)
}

fn classes_rise(classes: &[u8], order: &[u16]) -> bool {
    let mut next = [0; 256];
    order.iter().all(|&place| {
        let least = &mut next[usize::from(classes[usize::from(place)])];
        let rises = place >= *least;
        *least = place + 1;
        rises
    })
}

/// The same canonical ordering as that of the text.
fn equivalent(classes: &[u8], order: &[u16]) -> bool {
    let memory_order: Vec<u16> = (0..classes.len() as u16).collect();
    canonical(classes, order) == canonical(classes, &memory_order)
}

/// Each stretch without class 0 in the order of its classes, and one class as it was.
fn canonical(classes: &[u8], order: &[u16]) -> Vec<u16> {
    let class = |place: &u16| classes[usize::from(*place)];
    let mut ordered = order.to_vec();
    for stretch in ordered.split_mut(|place| class(place) == 0) {
        stretch.sort_by_key(class);
    }
    ordered
}

#[cfg(test)]
mod tests {
    use super::*;

    const CLASSES: [u8; 6] = [0, 31, 33, 33, 0, 230];

    fn breaks(order: [u16; 6], words: &str) {
        assert!(broken(&CLASSES, &order).expect("a law is broken").contains(words), "{order:?}");
    }

    #[test]
    fn takes_equivalent_orders() {
        for order in [[0, 1, 2, 3, 4, 5], [0, 2, 3, 1, 4, 5], [0, 2, 1, 3, 4, 5]] {
            assert_eq!(broken(&CLASSES, &order), None);
        }
        assert_eq!(broken(&[255, 255], &[0, 1]), None);
    }

    #[test]
    fn takes_no_order_of_other_positions() {
        for order in [[0, 1, 2, 2, 4, 5], [0, 1, 2, 3, 4, 6], [1, 2, 3, 4, 5, 6]] {
            breaks(order, "every position once");
        }
        assert!(broken(&CLASSES, &[0, 1, 2, 3, 4]).is_some());
        assert!(broken(&[0], &[0, 1]).is_some());
    }

    #[test]
    fn takes_no_other_orders() {
        breaks([1, 0, 2, 3, 4, 5], "class 0 has moved");
        breaks([0, 1, 3, 2, 4, 5], "one class");
        breaks([0, 1, 2, 5, 4, 3], "canonically equivalent");
    }
}
