//! The refusals 1 to 10: numbers, places, two faults at once, and buffers that
//! stay as they were. (The cut's refusals are among the tests of the page.)

use crate::common::{classes, levels, LEVEL_MARK, ORDER_MARK};
use second::{base, explicit_levels, order_line, order_lines, resolve_levels, Ordered, Refused};

/// The refusal of Explicit and of Resolve, which must be the same one, with a
/// level buffer of `room` places that neither may alter.
pub fn refused_levels(text: &[u8], request: u8, fallback: u8, room: usize) -> Refused {
    let mut buffer = vec![LEVEL_MARK; room];
    let first = explicit_levels(text, request, fallback, &mut buffer);
    let second = resolve_levels(text, request, fallback, &mut buffer);
    assert_eq!(first, second, "the two level jobs");
    assert!(
        buffer.iter().all(|&level| level == LEVEL_MARK),
        "altered levels"
    );
    first.expect_err("refused")
}

/// The refusal of Order for one line, with an order buffer of `room` places
/// that may not be altered.
fn refused_line(
    text: &[u8],
    lent: &[u8],
    base: u8,
    (from, to): (usize, usize),
    room: usize,
) -> Refused {
    let mut buffer = vec![ORDER_MARK; room];
    let found = order_line(text, lent, base, from, to, &mut buffer);
    assert!(
        buffer.iter().all(|&place| place == ORDER_MARK),
        "altered order"
    );
    found.expect_err("refused")
}

/// The refusal of Order for all lines, likewise.
fn refused_lines(text: &[u8], lent: &[u8], base: u8, ends: &[u16], room: usize) -> Refused {
    let mut buffer = vec![ORDER_MARK; room];
    let found = order_lines(text, lent, base, ends, &mut buffer);
    assert!(
        buffer.iter().all(|&place| place == ORDER_MARK),
        "altered order"
    );
    found.expect_err("refused")
}

/// An accepted order of so many places and reversed positions.
fn ordered(placed: usize, reversed: usize) -> Result<Ordered, Refused> {
    Ok(Ordered { placed, reversed })
}

/// A fault of the classes is refused alike by all jobs but the cut, whether
/// all else is sound or all else is at fault too.
pub fn refused_everywhere(text: &[u8], wanted: Refused) {
    let n = text.len();
    assert_eq!(base(text), Err(wanted));
    assert_eq!(refused_levels(text, 0, 0, n + 1), wanted);
    assert_eq!(refused_levels(text, 3, 2, 0), wanted);
    let lent = vec![0; n];
    let end = n.max(1);
    assert_eq!(refused_line(text, &lent, 0, (0, end), end), wanted);
    assert_eq!(refused_line(text, &[], 2, (5, 4), 0), wanted);
    assert_eq!(refused_lines(text, &lent, 0, &[end as u16], end), wanted);
    assert_eq!(refused_lines(text, &[], 2, &[], 0), wanted);
}

#[test]
fn no_1_no_classes() {
    refused_everywhere(&[], (1, 0));
}

#[test]
fn no_2_unknown_class() {
    refused_everywhere(&[20], (2, 0));
    refused_everywhere(&[0, 3, 255, 20], (2, 2));
    refused_everywhere(&[0, 3, 4, 20], (2, 3));
    assert_eq!(base(&[18]), Ok(None));
}

#[test]
fn no_3_too_many_positions() {
    refused_everywhere(&vec![0; 4097], (3, 0));
    refused_everywhere(&vec![0; 5000], (3, 0));
}

#[test]
fn no_3_comes_before_2_and_4() {
    let mut text = vec![0; 4097];
    text[1] = 20;
    refused_everywhere(&text, (3, 0));
    text[1] = 15;
    refused_everywhere(&text, (3, 0));
}

#[test]
fn no_4_b_before_the_last_position() {
    refused_everywhere(&classes("L B R"), (4, 1));
    refused_everywhere(&classes("B B"), (4, 0));
    refused_everywhere(&classes("L R B B B"), (4, 2));
    assert_eq!(base(&classes("L R B")), Ok(Some(0)));
}

#[test]
fn no_2_and_no_4_by_place() {
    refused_everywhere(&[0, 15, 20], (4, 1));
    refused_everywhere(&[0, 20, 15, 0], (2, 1));
    let mut text = vec![0; 4096];
    text[4095] = 20;
    refused_everywhere(&text, (2, 4095));
    text[4094] = 15;
    refused_everywhere(&text, (4, 4094));
}

#[test]
fn no_5_request() {
    let text = classes("L R");
    assert_eq!(refused_levels(&text, 3, 0, 2), (5, 0));
    assert_eq!(refused_levels(&text, 255, 0, 2), (5, 0));
}

#[test]
fn no_5_base() {
    let text = classes("L R");
    let lent = levels("0 1");
    assert_eq!(refused_line(&text, &lent, 2, (0, 2), 2), (5, 0));
    assert_eq!(refused_line(&text, &lent, 255, (0, 2), 2), (5, 0));
    assert_eq!(refused_lines(&text, &lent, 2, &[2], 2), (5, 0));
}

#[test]
fn no_5_comes_before_6() {
    let text = classes("L R");
    assert_eq!(refused_levels(&text, 3, 0, 1), (5, 0));
    assert_eq!(refused_line(&text, &[0], 2, (0, 2), 2), (5, 0));
    assert_eq!(refused_lines(&text, &[0], 2, &[2], 2), (5, 0));
}

#[test]
fn no_6_too_few_levels() {
    let text = classes("L BN R");
    assert_eq!(refused_levels(&text, 2, 0, 2), (6, 0));
    assert_eq!(refused_levels(&text, 0, 0, 0), (6, 0));
    assert_eq!(refused_line(&text, &levels("0 -"), 0, (0, 1), 3), (6, 0));
    assert_eq!(refused_lines(&text, &levels("0 -"), 0, &[3], 3), (6, 0));
}

#[test]
fn no_6_comes_before_7() {
    let text = classes("L R");
    assert_eq!(refused_line(&text, &[63], 0, (0, 2), 2), (6, 0));
    assert_eq!(refused_lines(&text, &[63], 0, &[2], 2), (6, 0));
}

#[test]
fn no_7_lent_levels() {
    let text = classes("L BN R LRE B");
    let faults = [
        ("63 - 1 - 0", 0),
        ("- - 1 - 0", 0),
        ("0 0 1 - 0", 1),
        ("0 254 1 - 0", 1),
        ("0 - 63 - 0", 2),
        ("0 - - - 0", 2),
        ("0 - 1 62 0", 3),
        ("0 - 1 - 63", 4),
        ("0 - 1 - -", 4),
        ("0 7 63 7 -", 1),
    ];
    for (lent, place) in faults {
        assert_eq!(
            refused_line(&text, &levels(lent), 0, (0, 5), 5),
            (7, place),
            "{lent}"
        );
        assert_eq!(
            refused_lines(&text, &levels(lent), 0, &[5], 5),
            (7, place),
            "{lent}"
        );
    }
    let mut order = [0; 5];
    let highest = levels("62 - 62 - 62");
    assert_eq!(
        order_line(&text, &highest, 0, 0, 5, &mut order),
        ordered(3, 0)
    );
}

#[test]
fn no_7_asks_255_of_every_removed_class() {
    for name in ["LRE", "LRO", "RLE", "RLO", "PDF", "BN"] {
        let text = classes(name);
        assert_eq!(refused_line(&text, &[0], 0, (0, 1), 1), (7, 0), "{name}");
        assert_eq!(
            order_line(&text, &[255], 0, 0, 1, &mut [0]),
            ordered(0, 0),
            "{name}"
        );
    }
    for name in "L R AL EN ES ET AN CS NSM B S WS ON CR".split(' ') {
        let text = classes(name);
        assert_eq!(refused_line(&text, &[255], 0, (0, 1), 1), (7, 0), "{name}");
        assert_eq!(
            order_line(&text, &[0], 0, 0, 1, &mut [0]),
            ordered(1, 0),
            "{name}"
        );
    }
}

#[test]
fn no_7_looks_at_levels_outside_the_line() {
    let text = classes("L R L");
    assert_eq!(refused_line(&text, &levels("0 1 63"), 0, (0, 1), 1), (7, 2));
}

#[test]
fn no_7_comes_before_8_and_10() {
    let text = classes("L R");
    assert_eq!(refused_line(&text, &levels("0 63"), 0, (1, 1), 2), (7, 1));
    assert_eq!(refused_lines(&text, &levels("0 63"), 0, &[], 2), (7, 1));
}

#[test]
fn no_8_line() {
    let text = classes("L R L");
    let lent = levels("0 1 0");
    for bounds in [
        (0, 0),
        (1, 1),
        (3, 3),
        (2, 1),
        (0, 4),
        (2, 4),
        (3, 4),
        (usize::MAX, 0),
    ] {
        assert_eq!(
            refused_line(&text, &lent, 0, bounds, 9),
            (8, 0),
            "{bounds:?}"
        );
    }
    assert_eq!(refused_line(&text, &lent, 0, (0, usize::MAX), 9), (8, 0));
    assert_eq!(order_line(&text, &lent, 0, 2, 3, &mut [0]), ordered(1, 0));
}

#[test]
fn no_8_comes_before_9() {
    let text = classes("L R L");
    let lent = levels("0 1 0");
    assert_eq!(refused_line(&text, &lent, 0, (0, 4), 0), (8, 0));
    assert_eq!(refused_line(&text, &lent, 0, (2, 1), 0), (8, 0));
}

#[test]
fn no_9_too_little_room_for_one_line() {
    let text = classes("L BN R L");
    let lent = levels("0 - 1 0");
    assert_eq!(refused_line(&text, &lent, 0, (0, 4), 3), (9, 0));
    assert_eq!(refused_line(&text, &lent, 0, (1, 3), 1), (9, 0));
    assert_eq!(refused_line(&text, &lent, 0, (1, 2), 0), (9, 0));
    assert_eq!(
        order_line(&text, &lent, 0, 1, 3, &mut [0; 2]),
        ordered(1, 1)
    );
}

#[test]
fn no_9_too_little_room_for_all_lines() {
    let text = classes("L BN R L");
    let lent = levels("0 - 1 0");
    assert_eq!(refused_lines(&text, &lent, 0, &[4], 3), (9, 0));
    assert_eq!(refused_lines(&text, &lent, 0, &[2, 4], 3), (9, 0));
    assert_eq!(refused_lines(&text, &lent, 0, &[2, 4], 0), (9, 0));
    assert_eq!(
        order_lines(&text, &lent, 0, &[2, 4], &mut [0; 4]),
        ordered(3, 1)
    );
}

#[test]
fn no_10_ends() {
    let text = classes("L R L");
    let lent = levels("0 1 0");
    let faults: [&[u16]; 9] = [
        &[],
        &[0],
        &[0, 3],
        &[1, 1, 3],
        &[2, 1, 3],
        &[2],
        &[4],
        &[3, 3],
        &[1, 2, 3, 4],
    ];
    for ends in faults {
        assert_eq!(refused_lines(&text, &lent, 0, ends, 9), (10, 0), "{ends:?}");
    }
    for ends in [&[3][..], &[1, 3], &[1, 2, 3]] {
        assert_eq!(
            order_lines(&text, &lent, 0, ends, &mut [0; 3]),
            ordered(3, 1),
            "{ends:?}"
        );
    }
}

#[test]
fn no_10_comes_before_9() {
    let text = classes("L R L");
    let lent = levels("0 1 0");
    assert_eq!(refused_lines(&text, &lent, 0, &[2], 0), (10, 0));
    assert_eq!(refused_lines(&text, &lent, 0, &[], 2), (10, 0));
}
