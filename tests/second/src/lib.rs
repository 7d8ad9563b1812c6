//! A slow, rule-by-rule program for the bidirectional algorithm of the Unicode
//! Standard 3.0, section 3.12, and for the drawing order of Arabic marks, made
//! to test another library against.
//!
//! How it was kept independent: it was written from the chapter (source
//! document 002) and from document 01 alone, before and without sight of the
//! library's code and definitions. The marks were written from source documents
//! 001 and 002 and from what ticket 14 asks, class 19, CR, from what ticket 4
//! asks, the default from what ticket 3 asks, and the count of the reversals from
//! what ticket 6 asks, each in the ticket's own words and in a longer telling,
//! without sight of the library's code and definitions too. It shares no code,
//! no table and no definition with that library.
//!
//! How it is laid out: one function for each rule, named after the rule, with
//! the rule restated above it. Everything is a plain loop over a `Vec`; speed
//! was never a reason for anything.
//!
//! - `paragraph`: P1 (the cut), P2 and P3
//! - `explicit`: X1 to X9
//! - `runs`: X10
//! - `weak`: W1 to W7
//! - `neutral`: N1 and N2
//! - `implicit`: I1 and I2
//! - `line`: L1, and L2 with the count of what it reverses
//! - `marks`: R1 to R3, and steps a to c of the marks
//! - `checks`: the refusals 1 to 10 and 16

#![forbid(unsafe_code)]

mod checks;
mod classes;
mod explicit;
mod implicit;
mod line;
mod marks;
mod neutral;
mod paragraph;
mod runs;
mod weak;

use classes::REMOVED_LEVEL;
use explicit::Position;

/// A refusal: its number (1 to 10 or 16) and its place.
pub type Refused = (u8, usize);

/// What Order answers.
#[derive(Clone, Copy, Debug, PartialEq, Eq)]
pub struct Ordered {
    /// How many places it wrote.
    pub placed: usize,
    /// How many positions were reversed, added over all passes of all lines.
    pub reversed: usize,
}

/// The length of the first paragraph of `classes`, its B, CR or CR B included.
pub fn cut(classes: &[u8]) -> Result<usize, Refused> {
    paragraph::p1(classes)
}

/// The first paragraph itself; empty exactly when `cut` refuses.
pub fn cut_part(classes: &[u8]) -> &[u8] {
    match cut(classes) {
        Ok(length) => &classes[..length],
        Err(_) => &classes[..0],
    }
}

/// The level, 0 or 1, that the text of one paragraph gives it, or none found.
pub fn base(classes: &[u8]) -> Result<Option<u8>, Refused> {
    checks::check_paragraph(classes)?;
    Ok(base_by_text(classes))
}

/// Writes the levels as they stand after X9; answers the base level used.
/// `fallback` is the default, the base level by text where the text gives none.
pub fn explicit_levels(
    classes: &[u8],
    request: u8,
    fallback: u8,
    levels: &mut [u8],
) -> Result<u8, Refused> {
    checks::check_paragraph(classes)?;
    checks::check_request(request, fallback)?;
    checks::check_level_room(classes, levels)?;
    let base = base_asked_for(classes, request, fallback);
    let kept = explicit::explicit(classes, base);
    write_levels(&spread(&kept, classes.len()), levels);
    Ok(base)
}

/// Writes the levels as they stand after I2; answers the base level used.
/// `fallback` is the default, the base level by text where the text gives none.
pub fn resolve_levels(
    classes: &[u8],
    request: u8,
    fallback: u8,
    levels: &mut [u8],
) -> Result<u8, Refused> {
    checks::check_paragraph(classes)?;
    checks::check_request(request, fallback)?;
    checks::check_level_room(classes, levels)?;
    let base = base_asked_for(classes, request, fallback);
    let mut kept = explicit::explicit(classes, base);
    for run in runs::x10(&kept, base) {
        resolve_run(&mut kept, &run);
    }
    write_levels(&spread(&kept, classes.len()), levels);
    Ok(base)
}

/// Writes the display order of the line `from..to`; answers how many places it
/// wrote and how many positions were reversed.
pub fn order_line(
    classes: &[u8],
    levels: &[u8],
    base: u8,
    from: usize,
    to: usize,
    order: &mut [u16],
) -> Result<Ordered, Refused> {
    checks::check_lent(classes, levels, base)?;
    checks::check_line(classes, from, to)?;
    checks::check_order_room(to - from, order)?;
    let mut places = Vec::new();
    let reversed = display_line(classes, levels, base, from, to, &mut places);
    write_order(&places, order);
    Ok(Ordered {
        placed: places.len(),
        reversed,
    })
}

/// Writes the display orders of all lines, one after the other; answers how
/// many places it wrote and how many positions were reversed on all lines. A
/// line runs from the end before it (at first 0) to its own end.
pub fn order_lines(
    classes: &[u8],
    levels: &[u8],
    base: u8,
    ends: &[u16],
    order: &mut [u16],
) -> Result<Ordered, Refused> {
    checks::check_lent(classes, levels, base)?;
    checks::check_ends(classes, ends)?;
    checks::check_order_room(classes.len(), order)?;
    let mut places = Vec::new();
    let mut reversed = 0;
    let mut from = 0;
    for &end in ends {
        let to = usize::from(end);
        reversed += display_line(classes, levels, base, from, to, &mut places);
        from = to;
    }
    write_order(&places, order);
    Ok(Ordered {
        placed: places.len(),
        reversed,
    })
}

/// The levels of the line `from..to` after L1, one for each position of the
/// line; 255 stays on removed positions. The input must be sound.
pub fn line_levels(classes: &[u8], levels: &[u8], base: u8, from: usize, to: usize) -> Vec<u8> {
    line::l1(classes, levels, base, from, to)
}

/// Writes the drawing order of characters, given as their combining classes and
/// a flag for each, not 0 for a modifier mark; answers how many places it wrote.
pub fn marks(classes: &[u8], flags: &[u8], order: &mut [u16]) -> Result<usize, Refused> {
    let places = marks::marks(classes, flags, order)?;
    write_order(&places, order);
    Ok(places.len())
}

/// P2 and P3 together.
fn base_by_text(classes: &[u8]) -> Option<u8> {
    paragraph::p3(paragraph::p2(classes))
}

/// Request 0 or 1 is itself the base level; request 2 asks for the text's, or
/// else for the default.
fn base_asked_for(classes: &[u8], request: u8, fallback: u8) -> u8 {
    match request {
        2 => base_by_text(classes).unwrap_or(fallback),
        level => level,
    }
}

/// Takes one run through the weak, the neutral and the implicit rules, each
/// rule over the whole run before the next begins.
fn resolve_run(kept: &mut [Position], run: &runs::Run) {
    let part = &mut kept[run.start..run.end];
    let mut types: Vec<u8> = part.iter().map(|position| position.class).collect();
    weak::w1(&mut types, run.sor);
    weak::w2(&mut types, run.sor);
    weak::w3(&mut types);
    weak::w4(&mut types);
    weak::w5(&mut types);
    weak::w6(&mut types);
    weak::w7(&mut types, run.sor);
    neutral::n1(&mut types, run.sor, run.eor);
    neutral::n2(&mut types, run.level);
    for (position, &class) in part.iter_mut().zip(&types) {
        position.class = class;
        position.level = if run.level % 2 == 0 {
            implicit::i1(class, run.level)
        } else {
            implicit::i2(class, run.level)
        };
    }
}

/// L1, then L2 on the positions of the line that are kept; their places go
/// after those of the lines before. Answers how many L2 reversed.
fn display_line(
    classes: &[u8],
    levels: &[u8],
    base: u8,
    from: usize,
    to: usize,
    places: &mut Vec<usize>,
) -> usize {
    let reset = line::l1(classes, levels, base, from, to);
    let mut cells = Vec::new();
    for place in from..to {
        if !classes::is_removed(classes[place]) {
            cells.push(line::Cell {
                place,
                level: reset[place - from],
            });
        }
    }
    let reversed = line::l2(&mut cells);
    places.extend(cells.iter().map(|cell| cell.place));
    reversed
}

/// The levels of all `length` positions: those of the kept ones, 255 elsewhere.
fn spread(kept: &[Position], length: usize) -> Vec<u8> {
    let mut all = vec![REMOVED_LEVEL; length];
    for position in kept {
        all[position.place] = position.level;
    }
    all
}

/// Copies the levels into the beginning of the lent buffer.
fn write_levels(all: &[u8], levels: &mut [u8]) {
    levels[..all.len()].copy_from_slice(all);
}

/// Copies the places into the beginning of the lent buffer.
fn write_order(places: &[usize], order: &mut [u16]) {
    for (slot, &place) in order.iter_mut().zip(places) {
        *slot = u16::try_from(place).expect("a position is below 4,096");
    }
}
