//! What the tests have in common: reading classes and levels from words, and
//! calls whose buffers are longer than needed and are looked at afterwards.

use second::{explicit_levels, order_line, order_lines, resolve_levels, Ordered};

/// What an untouched level slot holds in these tests; no level, and not 255.
pub const LEVEL_MARK: u8 = 177;

/// What an untouched order slot holds in these tests; no position.
pub const ORDER_MARK: u16 = 47_777;

/// Class names, a blank between two, as class numbers.
pub fn classes(names: &str) -> Vec<u8> {
    let known = [
        "L", "LRE", "LRO", "R", "AL", "RLE", "RLO", "PDF", "EN", "ES", "ET", "AN", "CS", "NSM",
        "BN", "B", "S", "WS", "ON", "CR",
    ];
    names
        .split_whitespace()
        .map(|name| {
            known
                .iter()
                .position(|&other| other == name)
                .expect("a class name") as u8
        })
        .collect()
}

/// Levels, a blank between two, a dash where removed.
pub fn levels(words: &str) -> Vec<u8> {
    words
        .split_whitespace()
        .map(|word| {
            if word == "-" {
                255
            } else {
                word.parse().expect("a level")
            }
        })
        .collect()
}

/// Places, a blank between two.
pub fn places(words: &str) -> Vec<u16> {
    words
        .split_whitespace()
        .map(|word| word.parse().expect("a place"))
        .collect()
}

/// The base used and the levels after X9, with default 0.
pub fn explicit(classes: &[u8], request: u8) -> (u8, Vec<u8>) {
    explicit_or(classes, request, 0)
}

/// The base used and the levels after I2, with default 0.
pub fn resolve(classes: &[u8], request: u8) -> (u8, Vec<u8>) {
    resolve_or(classes, request, 0)
}

/// The base used and the levels after X9, with the default given.
pub fn explicit_or(classes: &[u8], request: u8, fallback: u8) -> (u8, Vec<u8>) {
    let mut buffer = vec![LEVEL_MARK; classes.len() + 3];
    let base = explicit_levels(classes, request, fallback, &mut buffer).expect("accepted");
    (base, written_levels(buffer, classes.len()))
}

/// The base used and the levels after I2, with the default given.
pub fn resolve_or(classes: &[u8], request: u8, fallback: u8) -> (u8, Vec<u8>) {
    let mut buffer = vec![LEVEL_MARK; classes.len() + 3];
    let base = resolve_levels(classes, request, fallback, &mut buffer).expect("accepted");
    (base, written_levels(buffer, classes.len()))
}

/// The order of one line.
pub fn line(classes: &[u8], levels: &[u8], base: u8, from: usize, to: usize) -> Vec<u16> {
    line_counted(classes, levels, base, from, to).0
}

/// The orders of all lines.
pub fn lines(classes: &[u8], levels: &[u8], base: u8, ends: &[u16]) -> Vec<u16> {
    lines_counted(classes, levels, base, ends).0
}

/// The order of one line, and how many positions were reversed.
pub fn line_counted(
    classes: &[u8],
    levels: &[u8],
    base: u8,
    from: usize,
    to: usize,
) -> (Vec<u16>, usize) {
    let mut buffer = vec![ORDER_MARK; to - from + 3];
    let ordered = order_line(classes, levels, base, from, to, &mut buffer);
    counted(buffer, ordered.expect("accepted"))
}

/// The orders of all lines, and how many positions were reversed on them.
pub fn lines_counted(classes: &[u8], levels: &[u8], base: u8, ends: &[u16]) -> (Vec<u16>, usize) {
    let mut buffer = vec![ORDER_MARK; classes.len() + 3];
    let ordered = order_lines(classes, levels, base, ends, &mut buffer);
    counted(buffer, ordered.expect("accepted"))
}

/// The places that were written, and the count beside them.
fn counted(buffer: Vec<u16>, ordered: Ordered) -> (Vec<u16>, usize) {
    (written_places(buffer, ordered.placed), ordered.reversed)
}

/// The first `count` levels, after seeing that all of them and none after them
/// were written.
fn written_levels(mut buffer: Vec<u8>, count: usize) -> Vec<u8> {
    assert!(
        buffer[count..].iter().all(|&level| level == LEVEL_MARK),
        "wrote too far"
    );
    buffer.truncate(count);
    assert!(!buffer.contains(&LEVEL_MARK), "left a level out");
    buffer
}

/// The first `count` places, after seeing that all of them and none after them
/// were written.
fn written_places(mut buffer: Vec<u16>, count: usize) -> Vec<u16> {
    assert!(
        buffer[count..].iter().all(|&place| place == ORDER_MARK),
        "wrote too far"
    );
    buffer.truncate(count);
    assert!(!buffer.contains(&ORDER_MARK), "left a place out");
    buffer
}
