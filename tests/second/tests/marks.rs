//! The marks: the examples of source document 001 that its text has, by their
//! numbers, those of R1 to R3 in source document 002, a case or more for each
//! step, and the refusals.

use second::{marks, Refused};

/// What an untouched slot holds in these tests; no position.
const UNTOUCHED: u16 = 47_777;

/// The characters of the examples: name, combining class, modifier mark or not.
const KNOWN: [(&str, u8, bool); 24] = [
    ("letter", 0, false),
    ("CGJ", 0, false),
    ("alef-overlay", 0, false),
    ("fatha", 30, false),
    ("damma", 31, false),
    ("kasra", 32, false),
    ("shadda", 33, false),
    ("sukun", 34, false),
    ("superscript-alef", 35, false),
    ("underdot", 220, false),
    ("meem-below", 220, false),
    ("hamza-below", 220, true),
    ("low-noon-fatha", 220, true),
    ("low-noon-damma", 220, true),
    ("diaeresis", 230, false),
    ("breve", 230, false),
    ("madda", 230, false),
    ("meem-above", 230, false),
    ("low-noon-kasra", 230, false),
    ("hamza-above", 230, true),
    ("high-seen", 230, true),
    ("high-yeh", 230, true),
    ("high-noon", 230, true),
    ("dot-above", 230, true),
];

/// The drawing order, after seeing that it was written and nothing after it.
fn order_of(classes: &[u8], flags: &[u8]) -> Vec<u16> {
    let mut buffer = vec![UNTOUCHED; classes.len() + 3];
    assert_eq!(marks(classes, flags, &mut buffer), Ok(classes.len()));
    let after = buffer.split_off(classes.len());
    assert_eq!(after, [UNTOUCHED; 3], "wrote too far");
    buffer
}

/// The refusal, with an order buffer that may not be altered.
fn refused(characters: usize, flags: usize, room: usize) -> Refused {
    let mut buffer = vec![UNTOUCHED; room];
    let found = marks(&vec![230; characters], &vec![1; flags], &mut buffer);
    assert_eq!(buffer, vec![UNTOUCHED; room], "altered order");
    found.expect_err("refused")
}

/// The names of characters, a blank between two, as they are drawn.
fn drawn(names: &str) -> String {
    let words: Vec<&str> = names.split_whitespace().collect();
    let mut classes = Vec::new();
    let mut flags = Vec::new();
    for word in &words {
        let known = KNOWN.iter().find(|(name, ..)| name == word);
        let &(_, class, modifier) = known.expect("a known character");
        classes.push(class);
        flags.push(u8::from(modifier));
    }
    let order = order_of(&classes, &flags);
    let named: Vec<&str> = order.iter().map(|&at| words[usize::from(at)]).collect();
    named.join(" ")
}

fn unchanged(names: &str) {
    assert_eq!(drawn(names), names);
}

// Source document 001.

#[test]
fn section_2_damma_over_shadda() {
    assert_eq!(drawn("letter damma shadda"), "letter shadda damma");
    unchanged("letter shadda damma");
}

#[test]
fn example_1_damma_over_hamza_above() {
    assert_eq!(
        drawn("letter damma hamza-above"),
        "letter hamza-above damma"
    );
    unchanged("letter hamza-above damma");
    unchanged("letter damma CGJ hamza-above");
}

#[test]
fn example_1_kasra_under_hamza_below() {
    assert_eq!(
        drawn("letter kasra hamza-below"),
        "letter hamza-below kasra"
    );
    unchanged("letter hamza-below kasra");
    unchanged("letter kasra CGJ hamza-below");
}

#[test]
fn example_2a_sukun_over_small_high_seen() {
    unchanged("letter high-seen sukun");
}

#[test]
fn example_2b_small_high_seen_over_sukun_needs_cgj() {
    assert_eq!(drawn("letter sukun high-seen"), "letter high-seen sukun");
    unchanged("letter sukun CGJ high-seen");
}

#[test]
fn example_3_shadda_over_small_high_yeh() {
    assert_eq!(drawn("letter shadda high-yeh"), "letter high-yeh shadda");
    unchanged("letter shadda CGJ high-yeh");
}

#[test]
fn example_4a_sukun_over_small_high_noon() {
    assert_eq!(drawn("letter sukun high-noon"), "letter high-noon sukun");
    unchanged("letter sukun CGJ high-noon");
}

#[test]
fn example_4b_damma_over_small_high_noon() {
    assert_eq!(drawn("letter damma high-noon"), "letter high-noon damma");
    unchanged("letter damma CGJ high-noon");
}

#[test]
fn example_5_fatha_over_large_round_dot_above() {
    assert_eq!(drawn("letter fatha dot-above"), "letter dot-above fatha");
    unchanged("letter fatha CGJ dot-above");
}

#[test]
fn example_6a_kasra_under_small_low_noon_with_fatha() {
    assert_eq!(
        drawn("letter kasra low-noon-fatha"),
        "letter low-noon-fatha kasra"
    );
    unchanged("letter kasra CGJ low-noon-fatha");
}

#[test]
fn example_6b_kasra_under_small_low_noon_with_damma() {
    assert_eq!(
        drawn("letter kasra low-noon-damma"),
        "letter low-noon-damma kasra"
    );
    unchanged("letter kasra CGJ low-noon-damma");
}

#[test]
fn section_5_1_superscript_alef_before_madda() {
    unchanged("letter superscript-alef madda");
    assert_eq!(
        drawn("letter madda superscript-alef"),
        "letter superscript-alef madda"
    );
}

#[test]
fn section_5_4_meem_stays_behind_vowels() {
    unchanged("letter fatha meem-above");
    unchanged("letter kasra meem-below");
    unchanged("letter damma meem-above");
    assert_eq!(drawn("letter meem-above fatha"), "letter fatha meem-above");
}

#[test]
fn example_8_alef_overlay_is_not_moved() {
    unchanged("letter fatha alef-overlay madda");
}

#[test]
fn example_9_small_low_noon_with_kasra_needs_cgj() {
    unchanged("letter low-noon-kasra CGJ kasra");
    assert_eq!(
        drawn("letter low-noon-kasra kasra"),
        "letter kasra low-noon-kasra"
    );
}

#[test]
fn section_5_8_marks_below_stand_before_small_low_noon_with_kasra() {
    assert_eq!(
        drawn("letter low-noon-kasra meem-below"),
        "letter meem-below low-noon-kasra"
    );
    assert_eq!(
        drawn("letter low-noon-kasra hamza-below"),
        "letter hamza-below low-noon-kasra"
    );
    unchanged("letter low-noon-kasra CGJ meem-below");
}

// Source document 002, table 3-2.

#[test]
fn table_3_2_canonical_ordering() {
    unchanged("letter underdot diaeresis");
    assert_eq!(
        drawn("letter diaeresis underdot"),
        "letter underdot diaeresis"
    );
    unchanged("letter breve diaeresis");
    unchanged("letter diaeresis breve");
}

// Each step.

#[test]
fn r2_moves_nothing_past_class_0() {
    assert_eq!(order_of(&[230, 0, 220, 0, 1], &[0; 5]), [0, 1, 2, 3, 4]);
    assert_eq!(order_of(&[0, 0, 0], &[1; 3]), [0, 1, 2]);
}

#[test]
fn r3_goes_on_until_nothing_is_left_to_exchange() {
    assert_eq!(order_of(&[5, 4, 3, 2, 1], &[0; 5]), [4, 3, 2, 1, 0]);
    assert_eq!(order_of(&[255, 7, 254, 7, 255], &[0; 5]), [1, 3, 2, 0, 4]);
}

#[test]
fn step_a_keeps_the_order_of_shaddas_and_of_the_others() {
    assert_eq!(
        order_of(&[0, 34, 33, 32, 33, 32], &[0; 6]),
        [0, 2, 4, 3, 5, 1]
    );
}

#[test]
fn classes_beside_33_220_and_230_do_not_move() {
    assert_eq!(order_of(&[32, 33, 34], &[1; 3]), [1, 0, 2]);
    assert_eq!(
        order_of(&[30, 219, 221, 229, 231], &[1; 5]),
        [0, 1, 2, 3, 4]
    );
}

#[test]
fn steps_b_and_c_put_220_before_230_before_shadda() {
    assert_eq!(
        order_of(&[0, 31, 33, 220, 230], &[0, 0, 0, 1, 1]),
        [0, 3, 4, 2, 1]
    );
    assert_eq!(
        order_of(&[0, 230, 220, 33, 31], &[0, 255, 2, 0, 0]),
        [0, 2, 1, 3, 4]
    );
}

#[test]
fn steps_b_and_c_end_at_the_first_mark_that_is_not_flagged() {
    for class in [220, 230] {
        let classes = [0, 31, class, class, class, class];
        assert_eq!(order_of(&classes, &[0, 0, 1, 1, 0, 1]), [0, 2, 3, 1, 4, 5]);
        assert_eq!(order_of(&classes, &[0, 0, 0, 1, 1, 1]), [0, 1, 2, 3, 4, 5]);
        assert_eq!(order_of(&classes, &[0, 0, 1, 1, 1, 1]), [0, 2, 3, 4, 5, 1]);
    }
}

#[test]
fn a_mark_that_is_not_flagged_holds_back_its_own_class_alone() {
    let classes = [0, 31, 220, 220, 230, 230];
    assert_eq!(order_of(&classes, &[0, 0, 0, 1, 1, 1]), [0, 4, 5, 1, 2, 3]);
    assert_eq!(order_of(&classes, &[0, 0, 1, 1, 0, 1]), [0, 2, 3, 1, 4, 5]);
}

#[test]
fn the_front_is_that_of_the_canonical_order() {
    let apart = [0, 230, 31, 230, 220, 230];
    assert_eq!(order_of(&apart, &[0, 1, 0, 1, 0, 0]), [0, 1, 3, 2, 4, 5]);
}

#[test]
fn flags_of_other_classes_have_no_effect() {
    let classes = [0, 34, 33, 35, 240, 1];
    assert_eq!(order_of(&classes, &[1; 6]), order_of(&classes, &[0; 6]));
}

#[test]
fn each_stretch_is_by_itself() {
    let classes = [34, 33, 0, 31, 230, 0, 0, 31, 230];
    let flags = [0, 0, 0, 0, 1, 1, 1, 0, 0];
    assert_eq!(order_of(&classes, &flags), [1, 0, 2, 4, 3, 5, 6, 7, 8]);
}

#[test]
fn flags_after_the_characters_are_not_looked_at() {
    assert_eq!(order_of(&[0, 31, 230], &[0, 0, 0, 1, 1]), [0, 1, 2]);
}

// The refusals.

#[test]
fn no_1_no_characters() {
    assert_eq!(refused(0, 0, 0), (1, 0));
    assert_eq!(refused(0, 2, 2), (1, 0));
}

#[test]
fn no_3_too_many_characters() {
    assert_eq!(refused(4097, 4097, 4097), (3, 0));
    assert_eq!(refused(5000, 5000, 5000), (3, 0));
    let by_turns = [34, 33].repeat(2048);
    let wanted: Vec<u16> = (1..4096).step_by(2).chain((0..4096).step_by(2)).collect();
    assert_eq!(order_of(&by_turns, &[0; 4096]), wanted);
}

#[test]
fn no_3_comes_before_16() {
    assert_eq!(refused(4097, 4096, 4097), (3, 0));
    assert_eq!(refused(4097, 4097, 4096), (3, 0));
    assert_eq!(refused(4097, 0, 0), (3, 0));
}

#[test]
fn no_16_too_few_flags_or_places() {
    assert_eq!(refused(3, 2, 3), (16, 0));
    assert_eq!(refused(3, 3, 2), (16, 0));
    assert_eq!(refused(3, 0, 0), (16, 0));
    assert_eq!(refused(4096, 4095, 4096), (16, 0));
    assert_eq!(refused(4096, 4096, 4095), (16, 0));
}
