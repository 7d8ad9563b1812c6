//! Ticket 3: a text without a strong class gives no base level, and then the
//! default is taken.

use crate::common::{classes, explicit_or, levels, line, resolve_or};
use crate::refusals::refused_levels;
use second::{base, Refused};

/// Base request "by text".
const BY_TEXT: u8 = 2;

/// Numbers that are no default, the least and the greatest of them among these.
const BAD: [u8; 4] = [2, 3, 254, 255];

/// What is no strong class.
const NOT_STRONG: &str = "LRE LRO RLE RLO PDF EN ES ET AN CS NSM BN B S WS ON CR";

/// All paragraphs of one to three positions, each with what its text gives.
fn short_paragraphs() -> Vec<(Vec<u8>, Option<u8>)> {
    let mut texts: Vec<Vec<u8>> = vec![Vec::new()];
    let mut done = 0;
    while done < texts.len() && texts[done].len() < 3 {
        for class in 0..=19 {
            texts.push([&texts[done][..], &[class]].concat());
        }
        done += 1;
    }
    let accepted = |text: Vec<u8>| base(&text).ok().map(|found| (text, found));
    texts.into_iter().filter_map(accepted).collect()
}

/// Sees that Explicit and Resolve answer a base and write levels.
fn by_text_or(names: &str, fallback: u8, wanted: u8, after_x9: &str, after_i2: &str) {
    let text = classes(names);
    let found = explicit_or(&text, BY_TEXT, fallback);
    assert_eq!(found, (wanted, levels(after_x9)), "{names} or {fallback}");
    let found = resolve_or(&text, BY_TEXT, fallback);
    assert_eq!(found, (wanted, levels(after_i2)), "{names} or {fallback}");
}

/// Sees that every bad default is refused alike with every request, a bad one
/// among them.
fn refused_with_all_requests(text: &[u8], room: usize, wanted: Refused) {
    for request in 0..=3 {
        for fallback in BAD {
            let found = refused_levels(text, request, fallback, room);
            assert_eq!(found, wanted, "request {request}, default {fallback}");
        }
    }
}

// None found.

#[test]
fn none_found_in_what_is_not_strong() {
    for name in NOT_STRONG.split(' ') {
        assert_eq!(base(&classes(name)), Ok(None), "{name}");
    }
    assert_eq!(base(&classes("EN ES EN CS AN ET")), Ok(None));
    assert_eq!(base(&classes("RLE RLO PDF LRE BN")), Ok(None));
    assert_eq!(base(&classes("WS S ON NSM CR B")), Ok(None));
    assert_eq!(base(&[8; 4096]), Ok(None));
}

#[test]
fn found_at_the_last_of_4096() {
    for (name, wanted) in [("L", 0), ("R", 1), ("AL", 1)] {
        let mut text = vec![8; 4095];
        text.extend(classes(name));
        assert_eq!(base(&text), Ok(Some(wanted)), "{name}");
    }
}

#[test]
fn none_found_exactly_without_a_strong_class() {
    let [l, r, al] = ["L", "R", "AL"].map(|name| classes(name)[0]);
    for (text, found) in short_paragraphs() {
        let strong = text.contains(&l) || text.contains(&r) || text.contains(&al);
        assert_eq!(found.is_some(), strong, "{text:?}");
    }
}

#[test]
fn none_found_is_no_refusal_and_hides_none() {
    assert_eq!(base(&[]), Err((1, 0)));
    assert_eq!(base(&[8; 4097]), Err((3, 0)));
    assert_eq!(base(&[8, 20]), Err((2, 1)));
    assert_eq!(base(&classes("EN B EN")), Err((4, 1)));
}

// The default.

#[test]
fn the_default_where_none_is_found() {
    by_text_or("EN CS EN", 0, 0, "0 0 0", "0 0 0");
    by_text_or("EN CS EN", 1, 1, "1 1 1", "2 2 2");
    by_text_or("B", 0, 0, "0", "0");
    by_text_or("B", 1, 1, "1", "1");
    by_text_or("WS CR B", 1, 1, "1 1 1", "1 1 1");
    by_text_or("RLE EN PDF AN", 0, 0, "- 1 - 0", "- 2 - 2");
    by_text_or("RLE EN PDF AN", 1, 1, "- 3 - 1", "- 4 - 2");
    by_text_or("BN PDF", 1, 1, "- -", "- -");
}

#[test]
fn not_the_default_where_the_text_decides() {
    for fallback in [0, 1] {
        by_text_or("L WS EN", fallback, 0, "0 0 0", "0 0 0");
        by_text_or("AL EN", fallback, 1, "1 1", "1 2");
        by_text_or("EN RLO L", fallback, 0, "0 - 1", "0 - 1");
        by_text_or("EN LRO R", fallback, 1, "1 - 2", "2 - 2");
    }
}

#[test]
fn the_order_of_a_number_after_a_blank() {
    let text = classes("EN WS EN B");
    let (used, found) = resolve_or(&text, BY_TEXT, 0);
    assert_eq!(line(&text, &found, used, 0, 4), [0, 1, 2, 3]);
    let (used, found) = resolve_or(&text, BY_TEXT, 1);
    assert_eq!((used, &found), (1, &levels("2 1 2 1")));
    assert_eq!(line(&text, &found, used, 0, 4), [3, 2, 1, 0]);
}

#[test]
fn both_defaults_with_all_requests() {
    for (text, found) in short_paragraphs() {
        for fallback in [0, 1] {
            let by_text = found.unwrap_or(fallback);
            for (request, wanted) in [(0, 0), (1, 1), (BY_TEXT, by_text)] {
                let used = explicit_or(&text, request, fallback);
                assert_eq!(used, explicit_or(&text, wanted, wanted), "{text:?}");
                assert_eq!(used.0, wanted, "{text:?}");
                let used = resolve_or(&text, request, fallback);
                assert_eq!(used, resolve_or(&text, wanted, wanted), "{text:?}");
                assert_eq!(used.0, wanted, "{text:?}");
            }
        }
    }
}

// Refusal 5.

#[test]
fn no_5_for_a_bad_default_with_any_request() {
    for names in ["EN", "L", "R", "B", "WS AL CR B"] {
        let text = classes(names);
        refused_with_all_requests(&text, text.len() + 1, (5, 0));
    }
}

#[test]
fn no_5_for_every_default_above_1() {
    for fallback in 2..=255 {
        for request in 0..=2 {
            assert_eq!(refused_levels(&[8], request, fallback, 1), (5, 0));
        }
    }
}

#[test]
fn no_5_for_a_bad_request_with_either_default() {
    for request in 3..=255 {
        for fallback in [0, 1] {
            assert_eq!(refused_levels(&[8], request, fallback, 1), (5, 0));
        }
    }
}

#[test]
fn no_1_to_4_come_before_a_bad_default() {
    let mut late = vec![8; 4096];
    late[4095] = 20;
    for room in [0, 5000] {
        refused_with_all_requests(&[], room, (1, 0));
        refused_with_all_requests(&[8; 4097], room, (3, 0));
        refused_with_all_requests(&[20; 4097], room, (3, 0));
        refused_with_all_requests(&[8, 20], room, (2, 1));
        refused_with_all_requests(&late, room, (2, 4095));
        refused_with_all_requests(&classes("EN B EN"), room, (4, 1));
        refused_with_all_requests(&classes("EN CR B EN"), room, (4, 1));
    }
}

#[test]
fn no_5_for_a_bad_default_comes_before_6() {
    for room in [0, 1] {
        refused_with_all_requests(&classes("EN EN"), room, (5, 0));
    }
    for request in 0..=2 {
        for fallback in [0, 1] {
            let found = refused_levels(&classes("EN EN"), request, fallback, 1);
            assert_eq!(found, (6, 0), "request {request}, default {fallback}");
        }
    }
}
