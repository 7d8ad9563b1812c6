//! Document 01 as tests: the proof table and other checks, the edges, the
//! plausible errors, and the cut; in parts of their own the refusals, the
//! chapter's examples, class 19 of ticket 4, the default of ticket 3, and the
//! count of ticket 6.

mod chapter;
mod common;
mod fallback;
mod newline;
mod refusals;
mod reversals;

use common::{classes, explicit, levels, line, lines, places, resolve};
use second::{base, cut, cut_part, line_levels, resolve_levels};

/// Base request "by text".
const BY_TEXT: u8 = 2;

/// One row of the table: the resolved levels and the order as one line, from
/// both forms of Order.
fn row(names: &str, request: u8, wanted_levels: &str, wanted_order: &str) {
    let text = classes(names);
    let (base_used, found) = resolve(&text, request);
    assert_eq!(found, levels(wanted_levels), "levels of {names}");
    let whole = line(&text, &found, base_used, 0, text.len());
    assert_eq!(whole, places(wanted_order), "order of {names}");
    let listed = lines(&text, &found, base_used, &[text.len() as u16]);
    assert_eq!(listed, places(wanted_order), "order by ends of {names}");
}

/// The base a request leads to, as both level jobs answer it.
fn base_used(names: &str, request: u8) -> u8 {
    let text = classes(names);
    let used = resolve(&text, request).0;
    assert_eq!(
        explicit(&text, request).0,
        used,
        "the two jobs' bases of {names}"
    );
    used
}

/// `count` codes that go up by one level each, the first from an even level.
fn ladder(count: usize) -> Vec<u8> {
    let step = classes("RLE LRE");
    (0..count).map(|i| step[i % 2]).collect()
}

/// The levels, after X9, of the kept positions alone.
fn explicit_kept(text: &[u8], request: u8) -> Vec<u8> {
    explicit(text, request)
        .1
        .into_iter()
        .filter(|&level| level != 255)
        .collect()
}

/// The levels, after I2, of the kept positions alone.
fn resolved_kept(text: &[u8], request: u8) -> Vec<u8> {
    resolve(text, request)
        .1
        .into_iter()
        .filter(|&level| level != 255)
        .collect()
}

// The table.

#[test]
fn table_l() {
    row("L", BY_TEXT, "0", "0");
    assert_eq!(base_used("L", BY_TEXT), 0);
}

#[test]
fn table_al_en() {
    row("AL EN", BY_TEXT, "1 2", "1 0");
    assert_eq!(base_used("AL EN", BY_TEXT), 1);
}

#[test]
fn table_l_ws_en() {
    row("L WS EN", BY_TEXT, "0 0 0", "0 1 2");
}

#[test]
fn table_en_cs_en() {
    row("EN CS EN", 1, "2 2 2", "0 1 2");
}

#[test]
fn table_en_cs_cs_en() {
    row("EN CS CS EN", 1, "2 1 1 2", "3 2 1 0");
}

#[test]
fn table_an_et_en() {
    row("AN ET EN", 1, "2 2 2", "0 1 2");
}

#[test]
fn table_r_ws_l_from_the_left() {
    row("R WS L", 0, "1 0 0", "0 1 2");
}

#[test]
fn table_r_ws_l_from_the_right() {
    row("R WS L", 1, "1 1 2", "2 1 0");
}

#[test]
fn table_rle_l_pdf_r() {
    row("RLE L PDF R", 0, "- 2 - 1", "3 1");
    assert_eq!(explicit(&classes("RLE L PDF R"), 0), (0, levels("- 1 - 0")));
}

#[test]
fn table_en_bn_cs_en() {
    row("EN BN CS EN", 1, "2 - 2 2", "0 2 3");
}

#[test]
fn table_r_s_r() {
    row("R S R", 0, "1 1 1", "0 1 2");
    let text = classes("R S R");
    assert_eq!(
        line_levels(&text, &levels("1 1 1"), 0, 0, 3),
        levels("1 0 1")
    );
}

#[test]
fn table_pdf_l() {
    row("PDF L", 0, "- 0", "1");
}

#[test]
fn table_nsm() {
    row("NSM", 1, "1", "0");
}

#[test]
fn table_b() {
    row("B", BY_TEXT, "0", "0");
    assert_eq!(base_used("B", BY_TEXT), 0);
}

#[test]
fn table_two_lines() {
    let text = classes("R WS R");
    let (used, found) = resolve(&text, 0);
    assert_eq!((used, &found), (0, &levels("1 1 1")));
    assert_eq!(lines(&text, &found, used, &[2, 3]), places("0 1 2"));
    assert_eq!(line(&text, &found, used, 0, 2), places("0 1"));
    assert_eq!(line(&text, &found, used, 2, 3), places("2"));
}

#[test]
fn table_one_line() {
    row("R WS R", 0, "1 1 1", "2 1 0");
}

#[test]
fn printed_example() {
    row("R WS EN ET", BY_TEXT, "1 1 2 2", "2 3 1 0");
    assert_eq!(base_used("R WS EN ET", BY_TEXT), 1);
}

// The edges.

#[test]
fn edge_4096_and_4097_positions() {
    let text = classes(&"R ".repeat(4096));
    let (used, found) = resolve(&text, BY_TEXT);
    assert_eq!(used, 1);
    assert_eq!(found, vec![1; 4096]);
    assert_eq!(explicit(&text, 0), (0, vec![0; 4096]));
    let backward: Vec<u16> = (0..4096).rev().collect();
    assert_eq!(line(&text, &found, used, 0, 4096), backward);
    let each: Vec<u16> = (1..=4096).collect();
    let forward: Vec<u16> = (0..4096).collect();
    assert_eq!(lines(&text, &found, used, &each), forward);
    assert_eq!(base(&text), Ok(Some(1)));
    assert_eq!(cut(&text), Ok(4096));

    let over = classes(&"R ".repeat(4097));
    assert_eq!(base(&over), Err((3, 0)));
    assert_eq!(cut(&over), Err((3, 0)));
    assert_eq!(resolve_levels(&over, 0, 0, &mut vec![0; 4097]), Err((3, 0)));
}

#[test]
fn edge_4096_positions_that_look_far() {
    let (used, found) = resolve(&[8; 4096], 1);
    assert_eq!((used, found), (1, vec![2; 4096]));
    let blanks = [17; 4096];
    assert_eq!(resolve(&blanks, 1), (1, vec![1; 4096]));
    let lent = [62; 4096];
    assert_eq!(line_levels(&blanks, &lent, 1, 0, 4096), vec![1; 4096]);
    let backward: Vec<u16> = (0..4096).rev().collect();
    assert_eq!(line(&blanks, &lent, 1, 0, 4096), backward);
    let letters = [0; 4096];
    let deep: Vec<u8> = (0..4096).map(|i| if i == 0 { 1 } else { 62 }).collect();
    let mut wanted: Vec<u16> = (1..4096).collect();
    wanted.push(0);
    assert_eq!(line(&letters, &deep, 0, 0, 4096), wanted);
}

#[test]
fn edge_61_codes() {
    let mut text = ladder(61);
    text.extend(classes("L"));
    assert_eq!(explicit_kept(&text, 0), [61]);
    assert_eq!(resolved_kept(&text, 0), [62]);
    let (used, found) = resolve(&text, 0);
    assert_eq!(line(&text, &found, used, 0, text.len()), [61]);
}

#[test]
fn edge_a_62nd_code_is_invalid() {
    for code in ["RLE", "LRE", "RLO", "LRO"] {
        let mut text = ladder(61);
        text.extend(classes(code));
        text.extend(classes("L R PDF L PDF L"));
        assert_eq!(explicit_kept(&text, 0), [61, 61, 61, 60], "after {code}");
        assert_eq!(resolved_kept(&text, 0), [62, 61, 62, 60], "after {code}");
    }
}

#[test]
fn edge_from_base_1_60_codes_reach_61() {
    let mut text = ladder(61).split_off(1);
    text.extend(classes("L RLE L PDF L PDF L"));
    assert_eq!(text.len(), 60 + 7);
    assert_eq!(explicit_kept(&text, 1), [61, 61, 61, 60]);
}

#[test]
fn edge_codes_of_one_kind_go_up_by_two() {
    let mut right = classes(&"RLE ".repeat(31));
    right.extend(classes("R RLE R PDF PDF R"));
    assert_eq!(explicit_kept(&right, 0), [61, 61, 59]);
    let mut left = classes(&"LRO ".repeat(30));
    left.extend(classes("R LRO R PDF PDF R"));
    assert_eq!(explicit_kept(&left, 1), [60, 60, 58]);
}

#[test]
fn edge_every_pdf_of_a_full_ladder_takes_one_level_down() {
    let mut text = ladder(61);
    let mut wanted = Vec::new();
    for level in (0..=61).rev() {
        text.extend(classes("L PDF"));
        wanted.push(level);
    }
    text.extend(classes("L"));
    wanted.push(0);
    assert_eq!(explicit_kept(&text, 0), wanted);
}

// The plausible errors.

#[test]
fn error_forgetting_invalid_codes() {
    let mut text = ladder(60);
    text.extend(classes("LRE RLE L PDF L PDF L PDF L"));
    assert_eq!(explicit_kept(&text, 0), [61, 60, 60, 59]);
}

#[test]
fn error_w5_after_w7() {
    assert_eq!(resolve(&classes("L EN ET"), 1).1, levels("2 2 2"));
}

#[test]
fn error_looking_back_past_the_run() {
    assert_eq!(resolve(&classes("AL LRE EN"), 0).1, levels("1 - 2"));
}

#[test]
fn error_blanks_by_changed_types() {
    let text = classes("RLO WS");
    let (used, found) = resolve(&text, 0);
    assert_eq!((used, &found), (0, &levels("- 1")));
    assert_eq!(line_levels(&text, &found, used, 0, 2), levels("- 0"));
}

#[test]
fn error_reversing_a_line_without_odd_level() {
    row("EN EN", 1, "2 2", "0 1");
}

// Base.

#[test]
fn base_is_that_of_the_first_strong_class() {
    assert_eq!(base(&classes("WS EN L R")), Ok(Some(0)));
    assert_eq!(base(&classes("WS EN R L")), Ok(Some(1)));
    assert_eq!(base(&classes("ON AL L")), Ok(Some(1)));
    assert_eq!(base(&classes("AN EN NSM RLE RLO B")), Ok(None));
}

#[test]
fn base_looks_into_codes() {
    assert_eq!(base(&classes("LRO R PDF L")), Ok(Some(1)));
    assert_eq!(base(&classes("RLO L PDF R")), Ok(Some(0)));
}

#[test]
fn base_by_request_does_not_look_at_the_text() {
    assert_eq!(base_used("R", 0), 0);
    assert_eq!(base_used("L", 1), 1);
    assert_eq!(base_used("L", BY_TEXT), 0);
    assert_eq!(base_used("ON AL", BY_TEXT), 1);
}

// Explicit.

#[test]
fn explicit_levels_of_one_paragraph() {
    let text = classes("R LRE L PDF AL RLO BN EN PDF RLE L B");
    assert_eq!(
        explicit(&text, BY_TEXT),
        (1, levels("1 - 2 - 1 - - 3 - - 3 1"))
    );
    assert_eq!(
        resolve(&text, BY_TEXT),
        (1, levels("1 - 2 - 1 - - 3 - - 4 1"))
    );
}

#[test]
fn b_stays_b_at_the_base_under_an_override() {
    let text = classes("LRO R WS B");
    assert_eq!(explicit(&text, 1), (1, levels("- 2 2 1")));
    assert_eq!(resolve(&text, 1), (1, levels("- 2 2 1")));
    assert_eq!(
        line_levels(&text, &levels("- 2 2 1"), 1, 0, 4),
        levels("- 2 1 1")
    );
}

#[test]
fn an_override_ends_with_its_pdf_and_an_inner_embedding_is_free_of_it() {
    let text = classes("RLO L RLE L PDF L PDF L");
    assert_eq!(resolve(&text, 0).1, levels("- 1 - 4 - 1 - 0"));
}

#[test]
fn lro_makes_left_of_everything() {
    let text = classes("LRO R AL EN AN NSM ON PDF R");
    assert_eq!(resolve(&text, 0).1, levels("- 2 2 2 2 2 2 - 1"));
    assert_eq!(resolve(&text, 1).1, levels("- 2 2 2 2 2 2 - 1"));
}

#[test]
fn an_invalid_override_overrides_nothing() {
    let mut text = ladder(61);
    text.extend(classes("RLO L"));
    assert_eq!(resolved_kept(&text, 0), [62]);
}

#[test]
fn bn_under_an_override_is_removed() {
    let text = classes("RLO BN R BN");
    assert_eq!(resolve(&text, 0).1, levels("- - 1 -"));
    assert_eq!(line(&text, &levels("- - 1 -"), 0, 0, 4), places("2"));
}

// The line.

#[test]
fn removed_positions_do_not_interrupt_blanks() {
    let text = classes("RLO R WS BN WS S R WS BN PDF WS RLE");
    let (used, found) = resolve(&text, 0);
    assert_eq!(found, levels("- 1 1 - 1 1 1 1 - - 0 -"));
    let reset = line_levels(&text, &found, used, 0, 12);
    assert_eq!(reset, levels("- 1 0 - 0 0 1 0 - - 0 -"));
    assert_eq!(line(&text, &found, used, 0, 12), places("1 2 4 5 6 7 10"));
}

#[test]
fn only_blanks_go_back() {
    let text = classes("RLO ON WS ON NSM EN");
    let (used, found) = resolve(&text, 0);
    assert_eq!(
        line_levels(&text, &found, used, 0, 6),
        levels("- 1 1 1 1 1")
    );
}

#[test]
fn blanks_before_b_go_back() {
    let text = classes("L WS WS B");
    let (used, found) = resolve(&text, 1);
    assert_eq!((used, &found), (1, &levels("2 1 1 1")));
    let lent = levels("2 4 3 2");
    assert_eq!(line_levels(&text, &lent, 1, 0, 4), levels("2 1 1 1"));
    assert_eq!(line(&text, &lent, 1, 0, 4), places("3 2 1 0"));
}

#[test]
fn what_follows_the_line_does_not_bear_on_it() {
    let text = classes("R WS S R WS R");
    let lent = levels("1 1 1 1 1 1");
    assert_eq!(line_levels(&text, &lent, 0, 0, 2), levels("1 0"));
    assert_eq!(line_levels(&text, &lent, 0, 2, 6), levels("0 1 1 1"));
    assert_eq!(line(&text, &lent, 0, 3, 6), places("5 4 3"));
    assert_eq!(line(&text, &lent, 0, 3, 5), places("3 4"));
    assert_eq!(lines(&text, &lent, 0, &[3, 6]), places("0 1 2 5 4 3"));
    let parted = classes("R WS WS R");
    assert_eq!(
        line_levels(&parted, &levels("1 1 1 1"), 0, 0, 2),
        levels("1 0")
    );
    assert_eq!(
        line_levels(&parted, &levels("1 1 1 1"), 0, 2, 4),
        levels("1 1")
    );
    assert_eq!(
        lines(&parted, &levels("1 1 1 1"), 0, &[2, 4]),
        places("0 1 3 2")
    );
}

#[test]
fn passes_go_through_levels_not_on_the_line() {
    let text = classes("R L L R");
    assert_eq!(line(&text, &levels("1 4 4 1"), 0, 0, 4), places("3 1 2 0"));
    assert_eq!(line(&text, &levels("1 3 3 1"), 0, 0, 4), places("3 2 1 0"));
    assert_eq!(line(&text, &levels("0 4 4 3"), 0, 0, 4), places("0 3 1 2"));
    assert_eq!(line(&text, &levels("4 2 6 0"), 0, 0, 4), places("0 1 2 3"));
}

#[test]
fn a_line_of_removed_positions_has_an_empty_order() {
    let text = classes("RLE BN PDF L");
    let (used, found) = resolve(&text, 0);
    assert_eq!(found, levels("- - - 0"));
    assert_eq!(line(&text, &found, used, 0, 3), places(""));
    assert_eq!(lines(&text, &found, used, &[1, 3, 4]), places("3"));
}

#[test]
fn positions_are_those_of_the_paragraph() {
    let text = classes("L R R BN R L");
    let (used, found) = resolve(&text, 0);
    assert_eq!(line(&text, &found, used, 2, 6), places("4 2 5"));
    assert_eq!(lines(&text, &found, used, &[2, 6]), places("0 1 4 2 5"));
}

#[test]
fn levels_after_the_paragraph_are_not_looked_at() {
    let text = classes("R R");
    assert_eq!(line(&text, &levels("1 1 - 200 3"), 0, 0, 2), places("1 0"));
    assert_eq!(lines(&text, &levels("1 1 - 200 3"), 0, &[2]), places("1 0"));
}

// The cut.

#[test]
fn cut_ends_after_the_first_b_or_with_the_text() {
    assert_eq!(cut(&classes("L R")), Ok(2));
    assert_eq!(cut(&classes("L B R B")), Ok(2));
    assert_eq!(cut(&classes("B B")), Ok(1));
    assert_eq!(cut(&[0, 15, 20]), Ok(2));
}

#[test]
fn cut_part_is_the_beginning_of_the_lent_classes() {
    let text = classes("L EN B R");
    let part = cut_part(&text);
    assert_eq!(part, &text[..3]);
    assert!(std::ptr::eq(part.as_ptr(), text.as_ptr()));
    assert_eq!(cut_part(&classes("WS R")), &classes("WS R")[..]);
}

#[test]
fn cut_refuses() {
    assert_eq!(cut(&[]), Err((1, 0)));
    assert_eq!(cut(&[0, 3, 20, 15]), Err((2, 2)));
    assert_eq!(cut(&[255, 20]), Err((2, 0)));
    assert!(cut_part(&[]).is_empty());
    assert!(cut_part(&[0, 3, 20, 15]).is_empty());
    assert!(cut_part(&vec![0; 4097]).is_empty());
}

#[test]
fn cut_walks_4096_positions_and_no_more() {
    let mut text = vec![0; 5000];
    assert_eq!(cut(&text), Err((3, 0)));
    text[4096] = 15;
    assert_eq!(cut(&text), Err((3, 0)));
    text[4096] = 99;
    assert_eq!(cut(&text), Err((3, 0)));
    text[4095] = 15;
    assert_eq!(cut(&text), Ok(4096));
    assert_eq!(cut_part(&text).len(), 4096);
    text[4095] = 20;
    assert_eq!(cut(&text), Err((2, 4095)));
    text[7] = 20;
    assert_eq!(cut(&text), Err((2, 7)));
    text[6] = 15;
    assert_eq!(cut(&text), Ok(7));
}
