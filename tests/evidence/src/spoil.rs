//! Bad input: puts into a sound one what the refusal of a number is given for.
use crate::call::Input;
use crate::classes::*;
use crate::generator::Generator;
use crate::texts::NEWLINES;

/// The faults of the numbers that are given. They go in from the highest down, so that each finds the
/// positions that it needs: the first ones change how many there are.
pub fn spoil(random: &mut Generator, input: &mut Input, numbers: &[u8]) {
    for number in (1..=10).rev().filter(|number| numbers.contains(number)) {
        match number {
            1 => input.classes.to_mut().clear(),
            2 => unknown_class(random, input),
            3 => too_many(random, input),
            4 => early_separator(random, input),
            5 => bad_base(random, input),
            6 => short_levels(random, input),
            7 => bad_level(random, input),
            8 => bad_line(random, input),
            9 => short_order(random, input),
            _ => bad_ends(random, input),
        }
    }
}

/// What the marks are refused for: 1, 3, and 16 in two ways.
#[derive(Clone, Copy, PartialEq)]
pub enum MarksFault {
    TooMany,
    ShortFlags,
    ShortOrder,
    NoCharacters,
}

/// In the order in which they go in: each finds the characters that it needs.
pub const MARKS_FAULTS: [MarksFault; 4] =
    [MarksFault::TooMany, MarksFault::ShortFlags, MarksFault::ShortOrder, MarksFault::NoCharacters];

pub fn spoil_marks(random: &mut Generator, input: &mut Input, faults: &[MarksFault]) {
    for fault in MARKS_FAULTS.into_iter().filter(|fault| faults.contains(fault)) {
        let length = input.combining.len();
        match fault {
            MarksFault::TooMany => lengthen_marks(input, LONGEST + random.between(1, 3)),
            MarksFault::ShortFlags => input.flags.to_mut().truncate(shorter(random, length)),
            MarksFault::ShortOrder => input.order_room = shorter(random, length),
            MarksFault::NoCharacters => input.combining.to_mut().clear(),
        }
    }
}

/// As many characters as are asked for, with enough flags and places.
pub fn lengthen_marks(input: &mut Input, length: usize) {
    input.combining.to_mut().resize(length, 1);
    input.flags.to_mut().resize(length, 0);
    input.order_room = length;
}

fn unknown_class(random: &mut Generator, input: &mut Input) {
    let at = random.place(input.classes.len());
    input.classes.to_mut()[at] = random.pick(&[FIRST_UNKNOWN, 21, 127, 128, 254, 255]);
}

/// In some, the pair CR and B stands so that only its B is too many.
fn too_many(random: &mut Generator, input: &mut Input) {
    let classes = input.classes.to_mut();
    classes.resize(LONGEST + random.between(1, 3), L);
    if random.one_in(3) {
        classes[LONGEST - 1..=LONGEST].copy_from_slice(&[CR, B]);
    }
}

/// As much of a newline as there is room for. A paragraph of one position has none before its last.
fn early_separator(random: &mut Generator, input: &mut Input) {
    let classes = input.classes.to_mut();
    let last = classes.len() - 1;
    if last == 0 {
        return;
    }
    let at = random.place(last);
    for (place, &class) in classes[at..].iter_mut().zip(random.pick(&NEWLINES)) {
        *place = class;
    }
    // CR before a last B is no fault.
    if at + 1 == last && classes[last] == B {
        classes[at] = B;
    }
}

/// Order's base, and Explicit's and Resolve's request, default, or both.
fn bad_base(random: &mut Generator, input: &mut Input) {
    input.base = random.byte_between(2, 255);
    let fault = random.between(0, 2);
    if fault != 0 {
        input.fallback = bad_default(random);
    }
    if fault != 1 {
        input.request = random.byte_between(3, 255);
    }
}

pub fn bad_default(random: &mut Generator) -> u8 {
    let any = random.byte_between(2, 255);
    random.pick(&[2, 3, 255, any])
}

/// Short by one, or by any number.
fn shorter(random: &mut Generator, length: usize) -> usize {
    if random.one_in(2) {
        length - 1
    } else {
        random.place(length)
    }
}

fn short_levels(random: &mut Generator, input: &mut Input) {
    let room = shorter(random, input.classes.len());
    input.level_room = room;
    input.levels.to_mut().truncate(room);
}

fn bad_level(random: &mut Generator, input: &mut Input) {
    let at = random.place(input.classes.len());
    input.levels.to_mut()[at] = if is_removed(input.classes[at]) {
        random.pick(&[0, 1, HIGHEST_LEVEL, HIGHEST_LEVEL + 1, 254])
    } else {
        random.pick(&[HIGHEST_LEVEL + 1, 64, 128, 254, REMOVED_LEVEL])
    };
}

fn bad_line(random: &mut Generator, input: &mut Input) {
    let length = input.classes.len();
    let at = random.place(length + 1);
    (input.from, input.to) = random.pick(&[
        (at, at),
        (at, at.saturating_sub(1)),
        (0, length + 1),
        (at, length + 1),
        (at, usize::MAX),
        (usize::MAX, usize::MAX),
        (usize::MAX, 0),
        // numbers that would be in the paragraph if they were cut to 16 bits
        (0x1_0000, 0x1_0000 + length),
        (0, 0x1_0000 + length),
    ]);
}

/// Too short for all lines, and mostly for the line too.
fn short_order(random: &mut Generator, input: &mut Input) {
    let length = if random.one_in(3) { input.classes.len() } else { input.to - input.from };
    input.order_room = shorter(random, length);
}

fn bad_ends(random: &mut Generator, input: &mut Input) {
    let length = input.classes.len() as u16;
    let ends = input.ends.to_mut();
    let at = random.place(ends.len());
    match random.between(0, 6) {
        0 => ends.clear(),
        1 => ends.insert(0, 0),
        2 => ends.insert(at, ends[at]),
        3 => ends.insert(at, length),
        4 => ends.push(length + 1),
        5 => ends[at] = u16::MAX,
        _ => drop(ends.pop()),
    }
}
