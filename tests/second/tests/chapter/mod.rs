//! The chapter's own examples, and a case or more for each rule from X10 to
//! I2 that shows in the levels.

use crate::common::{classes, levels, line, places, resolve};

/// Classes of an example: small letters L, capital letters R, digits EN,
/// comma, full stop and colon CS, blank WS; `>` RLE, `<` LRE, `^` PDF, `|` the
/// right-to-left mark; everything else ON.
fn example(text: &str) -> Vec<u8> {
    text.chars()
        .map(|c| match c {
            'a'..='z' => "L",
            'A'..='Z' | '|' => "R",
            '0'..='9' => "EN",
            ',' | '.' | ':' => "CS",
            ' ' => "WS",
            '>' => "RLE",
            '<' => "LRE",
            '^' => "PDF",
            _ => "ON",
        })
        .map(|name| classes(name)[0])
        .collect()
}

/// What a reader sees: the characters in display order, marks not shown.
fn shown(text: &str, order: &[u16]) -> String {
    let memory: Vec<char> = text.chars().collect();
    order
        .iter()
        .map(|&place| memory[usize::from(place)])
        .filter(|&c| c != '|')
        .collect()
}

/// The display of a memory text, base level by text.
fn display(text: &str) -> String {
    let given = example(text);
    let (base, found) = resolve(&given, 2);
    shown(text, &line(&given, &found, base, 0, given.len()))
}

/// The display of a memory text at levels given as digits.
fn display_at(text: &str, digits: &str, base: u8) -> String {
    let given = example(text);
    let lent: Vec<u8> = digits.bytes().map(|digit| digit - b'0').collect();
    assert_eq!(given.len(), lent.len(), "one level for each character");
    shown(text, &line(&given, &lent, base, 0, given.len()))
}

/// The resolved levels of class names.
fn resolved(names: &str, request: u8, wanted: &str) {
    assert_eq!(
        resolve(&classes(names), request).1,
        levels(wanted),
        "{names} at {request}"
    );
}

#[test]
fn reordering_examples() {
    assert_eq!(
        display_at("car means CAR.", "00000000001110", 0),
        "car means RAC."
    );
    assert_eq!(
        display_at("car MEANS CAR.", "22211111111111", 1),
        ".RAC SNAEM car"
    );
    assert_eq!(
        display_at("he said \"car MEANS CAR.\"", "000000000222111111111100", 0),
        "he said \"RAC SNAEM car.\""
    );
    assert_eq!(
        display_at(
            "DID YOU SAY 'he said \"car MEANS CAR\"'?",
            "11111111111112222222224443333333333211",
            1
        ),
        "?'he said \"RAC SNAEM car\"' YAS UOY DID"
    );
}

#[test]
fn memory_example_of_the_definitions() {
    let given = example("car is THE CAR in arabic");
    let (base, found) = resolve(&given, 2);
    let digits: Vec<u8> = b"000000011111110000000000"
        .iter()
        .map(|digit| digit - b'0')
        .collect();
    assert_eq!((base, found), (0, digits));
}

#[test]
fn number_examples() {
    assert_eq!(
        display("he said \"THE VALUES ARE 123, 456, 789, OK\"."),
        "he said \"KO ,789 ,456 ,123 ERA SEULAV EHT\"."
    );
    assert_eq!(
        display("he said \">IT IS A bmw 500, OK.^\""),
        "he said \".KO ,bmw 500 A SI TI\""
    );
}

#[test]
fn usage_examples() {
    assert_eq!(
        display("he said \"I NEED WATER!\", and expired."),
        "he said \"RETAW DEEN I!\", and expired."
    );
    assert_eq!(
        display("he said \">I NEED WATER!^\", and expired."),
        "he said \"!RETAW DEEN I\", and expired."
    );
    assert_eq!(
        display("he said \"I NEED WATER!|\", and expired."),
        "he said \"!RETAW DEEN I\", and expired."
    );
    assert_eq!(
        display("DID YOU SAY '<he said \"I NEED WATER!|\", and expired.^'?"),
        "?'he said \"!RETAW DEEN I\", and expired.' YAS UOY DID"
    );
}

#[test]
fn x10_the_higher_level_decides_at_a_boundary() {
    resolved("RLE R PDF EN", 0, "- 1 - 2");
    resolved("LRE L PDF EN", 0, "- 2 - 0");
    resolved("LRE L PDF EN", 1, "- 2 - 2");
    resolved("L ON LRE R", 1, "2 2 - 3");
    resolved("R ON RLE L", 0, "1 1 - 2");
}

#[test]
fn x10_beyond_the_paragraph_stands_the_base() {
    resolved("EN", 0, "0");
    resolved("EN", 1, "2");
    resolved("RLE EN", 0, "- 2");
    resolved("LRE ON R", 1, "- 2 3");
    resolved("LRE R ON", 1, "- 3 2");
    resolved("R ON", 0, "1 0");
    resolved("ON R", 0, "0 1");
    resolved("L ON", 1, "2 1");
    resolved("ON L", 1, "1 2");
}

#[test]
fn x10_removed_positions_do_not_part_a_run() {
    resolved("L LRE PDF ON L", 1, "2 - - 2 2");
    resolved("AL RLE BN PDF EN", 0, "1 - - - 2");
    resolved("EN LRE PDF CS BN EN", 1, "2 - - 2 - 2");
    resolved("ET BN ET RLE PDF EN", 1, "2 - 2 - - 2");
    resolved("R BN NSM", 0, "1 - 1");
}

#[test]
fn w1_marks() {
    resolved("R NSM NSM L", 0, "1 1 1 0");
    resolved("NSM EN", 1, "1 2");
    resolved("NSM R", 0, "0 1");
    resolved("EN NSM", 1, "2 2");
    resolved("AN NSM R", 0, "2 2 1");
    resolved("AL NSM EN", 0, "1 1 2");
    resolved("L ON NSM R", 0, "0 0 0 1");
    resolved("RLE R PDF NSM L", 0, "- 1 - 1 0");
    resolved("EN CS NSM EN", 1, "2 1 1 2");
    resolved("EN NSM CS EN", 1, "2 2 2 2");
    resolved("EN CS EN NSM", 1, "2 2 2 2");
}

#[test]
fn w2_numbers_after_arabic_letters() {
    resolved("AL EN CS AN", 1, "1 2 2 2");
    resolved("R EN CS AN", 1, "1 2 1 2");
    resolved("AL ON EN ET", 1, "1 1 2 1");
    resolved("R ON EN ET", 1, "1 1 2 2");
    resolved("AL R EN ET", 1, "1 1 2 2");
    resolved("AL L EN ET", 1, "1 2 2 2");
    resolved("AL EN ES EN", 1, "1 2 1 2");
}

#[test]
fn w4_single_separators() {
    resolved("EN ES EN", 1, "2 2 2");
    resolved("EN CS EN CS EN", 1, "2 2 2 2 2");
    resolved("AN CS AN", 1, "2 2 2");
    resolved("AN ES AN", 1, "2 1 2");
    resolved("EN ES AN", 1, "2 1 2");
    resolved("AN CS EN", 1, "2 1 2");
    resolved("EN CS AN", 1, "2 1 2");
    resolved("EN ES ES EN", 1, "2 1 1 2");
    resolved("EN CS ES EN", 1, "2 1 1 2");
    resolved("CS EN", 1, "1 2");
    resolved("EN CS", 1, "2 1");
    resolved("R CS R", 1, "1 1 1");
    resolved("L CS L", 1, "2 2 2");
    resolved("EN ET CS ET", 1, "2 2 1 1");
}

#[test]
fn w5_terminators() {
    resolved("ET ET EN", 1, "2 2 2");
    resolved("EN ET ET", 1, "2 2 2");
    resolved("AN ET EN", 1, "2 2 2");
    resolved("ET AN", 1, "1 2");
    resolved("AN ET", 1, "2 1");
    resolved("EN ET WS ET", 1, "2 2 1 1");
    resolved("ET CS EN", 1, "1 1 2");
    resolved("EN ET CS EN", 1, "2 2 1 2");
}

#[test]
fn w6_what_is_left_is_neutral() {
    resolved("L ES R", 0, "0 0 1");
    resolved("R ES R", 0, "1 1 1");
    resolved("R CS R", 0, "1 1 1");
    resolved("R ET R", 0, "1 1 1");
    resolved("R CS L", 0, "1 0 0");
}

#[test]
fn w7_numbers_after_left_letters() {
    resolved("L ON EN", 1, "2 2 2");
    resolved("R ON EN", 0, "1 1 2");
    resolved("L EN R", 0, "0 0 1");
    resolved("L R EN", 0, "0 1 2");
    resolved("L AN EN", 0, "0 2 0");
}

#[test]
fn n1_neutrals_between_equal_directions() {
    resolved("R ON R", 0, "1 1 1");
    resolved("L ON L", 1, "2 2 2");
    resolved("R ON AN", 0, "1 1 2");
    resolved("AN ON R", 0, "2 1 1");
    resolved("R ON EN", 0, "1 1 2");
    resolved("R EN ON R", 0, "1 2 1 1");
    resolved("R EN ON AN", 0, "1 2 1 2");
    resolved("AN ON AN", 0, "2 1 2");
    resolved("R WS ON S R", 0, "1 1 1 1 1");
    resolved("L ON B", 0, "0 0 0");
    resolved("R ON B", 1, "1 1 1");
}

#[test]
fn n2_other_neutrals_take_the_run_direction() {
    resolved("R ON L", 0, "1 0 0");
    resolved("R ON L", 1, "1 1 2");
    resolved("L WS ON R", 0, "0 0 0 1");
    resolved("L WS ON R", 1, "2 1 1 1");
    resolved("L ON AN", 1, "2 1 2");
    resolved("LRE R ON L", 0, "- 3 2 2");
    resolved("R ON B", 0, "1 0 0");
    resolved("L WS B", 1, "2 1 1");
}

#[test]
fn implicit_levels() {
    resolved("LRE L R AN PDF L", 0, "- 2 3 4 - 0");
    resolved("LRE R EN PDF L", 0, "- 3 4 - 0");
    resolved("RLE L R AN EN PDF L", 0, "- 2 1 2 2 - 0");
}

#[test]
fn a_mixed_line() {
    let given = classes("L WS R WS EN CS EN WS L R");
    let (base, found) = resolve(&given, 0);
    assert_eq!(found, levels("0 0 1 1 2 2 2 0 0 1"));
    assert_eq!(
        line(&given, &found, base, 0, 10),
        places("0 1 4 5 6 3 2 7 8 9")
    );
}
