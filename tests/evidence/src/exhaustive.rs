//! Every short paragraph with every request and default, and every way to cut it into lines.
use crate::call::{Input, Job};
use crate::classes::*;
use crate::compare::{compare, Outcome};
use crate::tally::Tally;

/// Up to this length over all classes and the first number that is none.
const LENGTH: usize = 4;
/// And one longer over these: the strong classes, what the weak rules change, a blank, an override and its end,
/// and the separators of a newline.
const FEWER: [u8; 13] = [L, R, AL, EN, AN, ET, CS, NSM, WS, RLO, PDF, B, CR];
/// What is no default: the least such number and the greatest.
const BAD_DEFAULTS: [u8; 2] = [2, 255];
/// How many places the buffers have that are not needed.
const MORE_ROOM: usize = 2;

pub fn run() -> bool {
    let mut tally = Tally::default();
    let all: Vec<u8> = ALL.chain([FIRST_UNKNOWN]).collect();
    let mut paragraphs = 0;
    for length in 0..=LENGTH {
        paragraphs += each_sequence(&all, length, |classes| try_classes(&mut tally, classes));
    }
    paragraphs += each_sequence(&FEWER, LENGTH + 1, |classes| try_classes(&mut tally, classes));
    println!(
        "exhaustive: {paragraphs} class sequences, {} calls of each program, {} differences; \
         Base found none {} times; {}; refusals 1 to 10 met: {}",
        tally.calls,
        tally.differences,
        tally.none_found,
        tally.reversals_met(),
        tally.refusals_met(1..=10)
    );
    tally.differences == 0
}

/// All sequences of a length over the values; says how many.
pub fn each_sequence<T: Copy>(values: &[T], length: usize, mut each: impl FnMut(&[T])) -> usize {
    let count = values.len().pow(length as u32);
    let mut sequence = vec![values[0]; length];
    for mut number in 0..count {
        for place in sequence.iter_mut() {
            *place = values[number % values.len()];
            number /= values.len();
        }
        each(&sequence);
    }
    count
}

fn try_classes(tally: &mut Tally, classes: &[u8]) {
    let room = classes.len() + MORE_ROOM;
    let mut input = Input { classes: classes.into(), level_room: room, order_room: room, ..Input::default() };
    for job in [Job::Cut, Job::CutPart, Job::Base] {
        compare(tally, "", job, &input);
    }
    let mut tried = Vec::new();
    for request in 0..=2 {
        for fallback in BAD_DEFAULTS {
            try_levels(tally, &mut input, request, fallback);
        }
        for fallback in 0..=1 {
            let resolved = try_levels(tally, &mut input, request, fallback);
            // The lines of the same levels at the same base have been tried.
            if !tried.contains(&resolved) {
                try_lines(tally, &mut input);
                tried.push(resolved);
            }
        }
    }
}

/// Explicit and Resolve; the levels and the base of Resolve become those that Order is lent.
fn try_levels(tally: &mut Tally, input: &mut Input, request: u8, fallback: u8) -> Outcome {
    (input.request, input.fallback) = (request, fallback);
    compare(tally, "", Job::Explicit, input);
    let resolved = compare(tally, "", Job::Resolve, input);
    input.base = resolved.answer.map_or(0, |base| base.value as u8);
    input.levels = resolved.levels.clone().into();
    resolved
}

/// Every line, and every list of ends that rises to the paragraph's end.
fn try_lines(tally: &mut Tally, input: &mut Input) {
    let length = input.classes.len();
    for to in 0..=length {
        for from in 0..to {
            (input.from, input.to) = (from, to);
            compare(tally, "", Job::OrderLine, input);
        }
    }
    for cuts in 0..1 << length.saturating_sub(1) {
        let mut ends: Vec<u16> = (1..length as u16).filter(|end| cuts >> (end - 1) & 1 == 1).collect();
        ends.push(length as u16);
        input.ends = ends.into();
        compare(tally, "", Job::OrderLines, input);
    }
}
