//! Ticket 4: class 19, CR. It is as B in every rule, and a B right after it
//! belongs to it.

use crate::common::{classes, explicit, levels, line, lines, places, resolve};
use crate::refusals::refused_everywhere;
use second::{base, cut, cut_part, line_levels};

/// The numbers that most of this is about.
const B: u8 = 15;
const CR: u8 = 19;
const UNKNOWN: u8 = 20;

/// So many L, then what is given.
fn after_letters(count: usize, end: &[u8]) -> Vec<u8> {
    let mut text = vec![0; count];
    text.extend(end);
    text
}

/// All sequences of up to three classes that are no separators.
fn short_texts() -> Vec<Vec<u8>> {
    let mut texts = vec![Vec::new()];
    let mut done = 0;
    while done < texts.len() && texts[done].len() < 3 {
        for class in (0..CR).filter(|&class| class != B) {
            let mut longer = texts[done].clone();
            longer.push(class);
            texts.push(longer);
        }
        done += 1;
    }
    texts
}

// P1.

#[test]
fn p1_ends_after_a_cr_and_its_b() {
    assert_eq!(cut(&classes("CR B")), Ok(2));
    assert_eq!(cut(&classes("L CR B")), Ok(3));
    assert_eq!(cut(&classes("L CR B R B")), Ok(3));
    assert_eq!(cut(&classes("CR B B")), Ok(2));
    assert_eq!(cut(&classes("CR B CR B")), Ok(2));
}

#[test]
fn p1_ends_after_a_cr_that_no_b_follows() {
    assert_eq!(cut(&classes("CR")), Ok(1));
    assert_eq!(cut(&classes("L CR")), Ok(2));
    assert_eq!(cut(&classes("L CR R CR B")), Ok(2));
    assert_eq!(cut(&classes("CR CR B")), Ok(1));
    assert_eq!(cut(&classes("CR BN B")), Ok(1));
    assert_eq!(cut(&classes("CR WS B")), Ok(1));
}

#[test]
fn p1_ends_after_the_first_b_as_before() {
    assert_eq!(cut(&classes("B CR")), Ok(1));
    assert_eq!(cut(&classes("L B CR B")), Ok(2));
}

#[test]
fn p1_asks_of_what_follows_only_whether_it_is_b() {
    for class in 0..=255 {
        let wanted = if class == B { 3 } else { 2 };
        assert_eq!(cut(&[0, CR, class]), Ok(wanted), "{class}");
        assert_eq!(cut(&[0, CR, class, B]), Ok(wanted), "{class}");
        assert_eq!(cut(&[0, CR, B, class]), Ok(3), "{class}");
    }
}

#[test]
fn p1_cuts_a_whole_text_without_empty_lines() {
    let text = classes("L CR B R WS CR B CR CR B CR BN B B L");
    let mut rest = &text[..];
    let mut lengths = Vec::new();
    while !rest.is_empty() {
        let part = cut_part(rest);
        assert_eq!(cut(rest), Ok(part.len()));
        lengths.push(part.len());
        rest = &rest[part.len()..];
    }
    assert_eq!(lengths, [3, 4, 1, 2, 1, 2, 1, 1]);
}

#[test]
fn p1_refuses_an_unknown_class_before_the_cr() {
    assert_eq!(cut(&[UNKNOWN, CR, B]), Err((2, 0)));
    assert_eq!(cut(&[0, 255, CR]), Err((2, 1)));
    assert!(cut_part(&[UNKNOWN, CR, B]).is_empty());
}

#[test]
fn p1_at_the_longest_paragraph() {
    assert_eq!(cut(&after_letters(4094, &[CR, B])), Ok(4096));
    assert_eq!(cut(&after_letters(4094, &[CR, B, UNKNOWN])), Ok(4096));
    assert_eq!(cut(&after_letters(4094, &[CR, UNKNOWN])), Ok(4095));
    assert_eq!(cut(&after_letters(4095, &[CR])), Ok(4096));
    for class in 0..=255 {
        let wanted = if class == B { Err((3, 0)) } else { Ok(4096) };
        let text = after_letters(4095, &[CR, class]);
        assert_eq!(cut(&text), wanted, "{class}");
        assert_eq!(cut_part(&text).len(), wanted.unwrap_or(0), "{class}");
        assert_eq!(cut(&after_letters(4096, &[class])), Err((3, 0)), "{class}");
    }
    assert_eq!(cut(&after_letters(4095, &[CR, B, UNKNOWN])), Err((3, 0)));
    assert_eq!(cut(&after_letters(4096, &[CR, B])), Err((3, 0)));
}

// The refusals.

#[test]
fn no_2_begins_at_20() {
    assert_eq!(base(&[CR]), Ok(None));
    for class in UNKNOWN..=255 {
        refused_everywhere(&[class], (2, 0));
    }
}

#[test]
fn no_3_for_a_pair_that_ends_beyond() {
    refused_everywhere(&after_letters(4095, &[CR, B]), (3, 0));
    refused_everywhere(&after_letters(4096, &[CR]), (3, 0));
    refused_everywhere(&after_letters(4094, &[CR, B, 0]), (3, 0));
}

#[test]
fn no_4_is_not_given_for_a_last_cr_or_pair() {
    for names in ["CR", "CR B", "R CR", "R CR B", "R WS BN CR B"] {
        assert!(base(&classes(names)).is_ok(), "{names}");
    }
}

#[test]
fn no_4_at_the_first_separator_before_the_last_position() {
    refused_everywhere(&classes("CR L"), (4, 0));
    refused_everywhere(&classes("CR B L"), (4, 0));
    refused_everywhere(&classes("L CR B L"), (4, 1));
    refused_everywhere(&classes("CR B B"), (4, 0));
    refused_everywhere(&classes("CR B CR B"), (4, 0));
    refused_everywhere(&classes("CR CR"), (4, 0));
    refused_everywhere(&classes("CR CR B"), (4, 0));
    refused_everywhere(&classes("CR BN B"), (4, 0));
    refused_everywhere(&classes("B CR"), (4, 0));
    refused_everywhere(&classes("L B CR B"), (4, 1));
    refused_everywhere(&after_letters(4093, &[CR, B, 0]), (4, 4093));
}

#[test]
fn no_2_and_no_4_by_place() {
    refused_everywhere(&[CR, UNKNOWN], (4, 0));
    refused_everywhere(&[CR, UNKNOWN, B], (4, 0));
    refused_everywhere(&[CR, B, UNKNOWN], (4, 0));
    refused_everywhere(&[UNKNOWN, CR, B], (2, 0));
    refused_everywhere(&[0, UNKNOWN, CR, B, 0], (2, 1));
}

// The rules.

#[test]
fn as_b_in_every_rule() {
    for text in short_texts() {
        let [with_b, with_cr, with_pair] =
            [&[B][..], &[CR], &[CR, B]].map(|end| [&text[..], end].concat());
        for request in 0..=2 {
            let (used, wanted) = explicit(&with_b, request);
            assert_eq!(explicit(&with_cr, request), (used, wanted.clone()));
            let pair = [&wanted[..], &[used]].concat();
            assert_eq!(explicit(&with_pair, request), (used, pair), "{text:?}");
            let (used, wanted) = resolve(&with_b, request);
            assert_eq!(resolve(&with_cr, request), (used, wanted.clone()));
            let pair = [&wanted[..], &[used]].concat();
            assert_eq!(resolve(&with_pair, request), (used, pair), "{text:?}");
        }
    }
}

#[test]
fn x8_under_an_override() {
    let text = classes("LRO R WS CR B");
    assert_eq!(explicit(&text, 1), (1, levels("- 2 2 1 1")));
    assert_eq!(resolve(&text, 1), (1, levels("- 2 2 1 1")));
    let text = classes("RLO L CR");
    assert_eq!(explicit(&text, 0), (0, levels("- 1 0")));
    assert_eq!(resolve(&text, 0), (0, levels("- 1 0")));
    let text = classes("RLE RLO LRO EN CR B");
    assert_eq!(explicit(&text, 0), (0, levels("- - - 4 0 0")));
    assert_eq!(resolve(&text, 0), (0, levels("- - - 4 0 0")));
}

#[test]
fn n_takes_cr_as_a_neutral() {
    assert_eq!(resolve(&classes("R ON CR"), 0).1, levels("1 0 0"));
    assert_eq!(resolve(&classes("R ON CR"), 1).1, levels("1 1 1"));
    assert_eq!(resolve(&classes("L WS CR B"), 1).1, levels("2 1 1 1"));
    assert_eq!(resolve(&classes("R WS CR B"), 0).1, levels("1 0 0 0"));
    assert_eq!(resolve(&classes("AN CR B"), 1).1, levels("2 1 1"));
    assert_eq!(resolve(&classes("CR B"), 1).1, levels("1 1"));
}

#[test]
fn p2_finds_no_strong_class_in_cr() {
    assert_eq!(base(&classes("CR B")), Ok(None));
    assert_eq!(base(&classes("EN R CR B")), Ok(Some(1)));
}

#[test]
fn l1_takes_the_blanks_before_cr() {
    let text = classes("L WS BN WS CR");
    let lent = levels("2 4 - 3 2");
    assert_eq!(line_levels(&text, &lent, 1, 0, 5), levels("2 1 - 1 1"));
    assert_eq!(line(&text, &lent, 1, 0, 5), places("4 3 1 0"));
}

#[test]
fn l1_takes_the_blanks_before_cr_b() {
    let text = classes("L WS PDF WS CR B");
    let lent = levels("2 4 - 3 2 5");
    assert_eq!(line_levels(&text, &lent, 1, 0, 6), levels("2 1 - 1 1 1"));
    assert_eq!(line(&text, &lent, 1, 0, 6), places("5 4 3 1 0"));
    let text = classes("RLO R WS CR B");
    let (used, found) = resolve(&text, 0);
    assert_eq!((used, &found), (0, &levels("- 1 1 0 0")));
    assert_eq!(line_levels(&text, &found, 0, 0, 5), levels("- 1 0 0 0"));
}

#[test]
fn l1_goes_by_the_original_class_of_cr() {
    let text = classes("L ON CR B");
    let lent = levels("2 4 3 3");
    assert_eq!(line_levels(&text, &lent, 0, 0, 4), levels("2 4 0 0"));
    assert_eq!(line_levels(&text, &lent, 0, 2, 3), levels("0"));
}

#[test]
fn a_line_may_end_between_cr_and_its_b() {
    let text = classes("R WS CR B");
    let lent = levels("2 2 2 2");
    assert_eq!(line_levels(&text, &lent, 1, 0, 3), levels("2 1 1"));
    assert_eq!(line(&text, &lent, 1, 0, 3), places("2 1 0"));
    assert_eq!(line(&text, &lent, 1, 3, 4), places("3"));
    assert_eq!(lines(&text, &lent, 1, &[3, 4]), places("2 1 0 3"));
    assert_eq!(lines(&text, &lent, 1, &[2, 3, 4]), places("1 0 2 3"));
    assert_eq!(lines(&text, &lent, 1, &[4]), places("3 2 1 0"));
    assert_eq!(lines(&text, &lent, 1, &[2, 4]), places("1 0 3 2"));
}

#[test]
fn a_paragraph_of_4096_positions_with_the_pair() {
    let mut text = vec![3; 4094];
    text.extend([CR, B]);
    let (used, found) = resolve(&text, 2);
    assert_eq!((used, &found), (1, &vec![1; 4096]));
    let backward: Vec<u16> = (0..4096).rev().collect();
    assert_eq!(line(&text, &found, used, 0, 4096), backward);
    let (used, found) = resolve(&text, 0);
    assert_eq!(found[4093..], [1, 0, 0]);
    let mut wanted: Vec<u16> = (0..4094).rev().collect();
    wanted.extend([4094, 4095]);
    assert_eq!(line(&text, &found, used, 0, 4096), wanted);
    assert_eq!(lines(&text, &found, used, &[4095, 4096]), wanted);
}
