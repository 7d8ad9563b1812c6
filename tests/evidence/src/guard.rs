//! Memory at the boundary: every buffer is lent so that it ends, and once more so that it begins, at memory
//! that may not be touched, and what is lent to be read may not be written. Answers and buffers are compared
//! with the second program's as well.
use crate::call::{Input, Job, JOBS};
use crate::classes::{B, CR, HIGHEST_LEVEL, L, LONGEST};
use crate::compare::{check_sum, outcome, UNTOUCHED, UNTOUCHED_PLACE};
use crate::generator::Generator;
use crate::memory::{Guarded, Side};
use crate::program::{LIBRARY, SECOND};
use crate::tally::Tally;
use crate::{marks, shapes, spoil, texts, trap};

/// Every length up to this one, and the longest three.
const SHORT: usize = 100;
/// Requests and defaults. With request 0 or 1 the default is the other level, for it must not count.
const ASKED: [(u8, u8); 4] = [(0, 1), (1, 0), (2, 0), (2, 1)];

/// The buffers that a call may be lent.
struct Buffers {
    classes: Guarded,
    levels: Guarded,
    ends: Guarded,
    combining: Guarded,
    flags: Guarded,
    filled_levels: Guarded,
    filled_order: Guarded,
}

pub fn run() -> bool {
    trap::set();
    let mut tally = Tally::default();
    let mut buffers = Buffers {
        classes: Guarded::new(),
        levels: Guarded::new(),
        ends: Guarded::new(),
        combining: Guarded::new(),
        flags: Guarded::new(),
        filled_levels: Guarded::new(),
        filled_order: Guarded::new(),
    };
    try_input(&mut tally, &mut buffers, &JOBS, &Input::default());
    try_input(&mut tally, &mut buffers, &[Job::Marks], &Input::default());
    for length in (1..=SHORT).chain([LONGEST - 2, LONGEST - 1, LONGEST]) {
        try_length(&mut tally, &mut buffers, length);
        try_most(&mut tally, &mut buffers, length);
        try_texts(&mut tally, &mut buffers, length);
        try_marks(&mut tally, &mut buffers, length);
    }
    println!(
        "guard: {} calls at memory that may not be touched, {} differences; \
         Base found none {} times; {}; refusals 1 to 10 and 16 met: {}",
        tally.calls,
        tally.differences,
        tally.none_found,
        tally.reversals_met(),
        tally.refusals_met((1..=10).chain([16]))
    );
    tally.differences == 0
}

/// Good input of a length, with each request, with CR, CR and B or anything at its end and without a strong
/// class, and bad input.
fn try_length(tally: &mut Tally, buffers: &mut Buffers, length: usize) {
    let random = &mut Generator::new(length as u64, 0);
    let mut sound = Input::default();
    for (request, fallback) in ASKED {
        let mut paragraphs = [
            shapes::paragraph_of(random, length),
            shapes::paragraph_with(random, length, &[CR]),
            shapes::paragraph_with(random, length, &[CR, B]),
            shapes::paragraph_of(random, length),
        ];
        shapes::drop_strong(random, &mut paragraphs[0]);
        for classes in paragraphs {
            sound = resolved(random, classes, request, fallback);
            try_input(tally, buffers, &JOBS, &sound);
        }
    }
    try_bad(tally, buffers, random, &sound);
}

/// Bad input for each refusal, and a bad default with each request.
fn try_bad(tally: &mut Tally, buffers: &mut Buffers, random: &mut Generator, sound: &Input) {
    for number in 1..=10 {
        let mut bad = sound.clone();
        spoil::spoil(random, &mut bad, &[number]);
        try_input(tally, buffers, &JOBS, &bad);
    }
    for request in 0..=2 {
        let bad = Input { request, fallback: spoil::bad_default(random), ..sound.clone() };
        try_input(tally, buffers, &[Job::Explicit, Job::Resolve], &bad);
    }
}

/// A line of which as many positions are reversed as can be: all at the highest level, but one at level 1.
fn try_most(tally: &mut Tally, buffers: &mut Buffers, length: usize) {
    let random = &mut Generator::new(length as u64, 3);
    let mut levels = vec![HIGHEST_LEVEL; length];
    levels[random.place(length)] = 1;
    let line = Input {
        classes: vec![L; length].into(),
        levels: levels.into(),
        to: length,
        ends: vec![length as u16].into(),
        order_room: length,
        ..Input::default()
    };
    try_input(tally, buffers, &[Job::OrderLine, Job::OrderLines], &line);
}

/// Texts to cut in which a newline of each form stands after so many positions.
fn try_texts(tally: &mut Tally, buffers: &mut Buffers, length: usize) {
    let random = &mut Generator::new(length as u64, 2);
    let paragraph = shapes::paragraph_with(random, length, &[]);
    for newline in texts::NEWLINES {
        let text = Input { classes: [&paragraph, newline].concat().into(), ..Input::default() };
        try_input(tally, buffers, &[Job::Cut, Job::CutPart], &text);
    }
}

/// Marks of a length, with no flag and no place more than they need, and bad input for each fault.
fn try_marks(tally: &mut Tally, buffers: &mut Buffers, length: usize) {
    let random = &mut Generator::new(length as u64, 1);
    let sound = marks::shapes::text_of(random, length);
    try_input(tally, buffers, &[Job::Marks], &sound);
    for fault in spoil::MARKS_FAULTS {
        let mut bad = sound.clone();
        spoil::spoil_marks(random, &mut bad, &[fault]);
        try_input(tally, buffers, &[Job::Marks], &bad);
    }
}

/// Sound input with no place more than all jobs need.
fn resolved(random: &mut Generator, classes: Vec<u8>, request: u8, fallback: u8) -> Input<'static> {
    let length = classes.len();
    let (from, to) = shapes::line(random, length);
    let mut input = Input {
        classes: classes.into(),
        request,
        fallback,
        level_room: length,
        from,
        to,
        ends: shapes::ends(random, length).into(),
        order_room: length,
        ..Input::default()
    };
    let resolved = outcome(&LIBRARY, Job::Resolve, &input);
    input.base = resolved.answer.map_or(0, |base| base.value as u8);
    input.levels = resolved.levels[..length].to_vec().into();
    input
}

fn try_input(tally: &mut Tally, buffers: &mut Buffers, jobs: &[Job], input: &Input) {
    for &job in jobs {
        for side in [Side::Begin, Side::End] {
            try_call(tally, buffers, job, side, input);
        }
    }
}

fn try_call(tally: &mut Tally, buffers: &mut Buffers, job: Job, side: Side, input: &Input) {
    let name = format!("{job:?}, the {side:?} of each buffer at the edge\n{input}");
    let (level_room, order_room) = input.room(job);
    let levels = buffers.filled_levels.lend_to_fill(side, &vec![UNTOUCHED; level_room]);
    let order = buffers.filled_order.lend_to_fill(side, &vec![UNTOUCHED_PLACE; order_room]);
    let guarded = Input {
        classes: buffers.classes.lend_to_read(side, &input.classes).into(),
        levels: buffers.levels.lend_to_read(side, &input.levels).into(),
        ends: buffers.ends.lend_to_read(side, &input.ends).into(),
        combining: buffers.combining.lend_to_read(side, &input.combining).into(),
        flags: buffers.flags.lend_to_read(side, &input.flags).into(),
        ..input.clone()
    };
    let answer = trap::named(&name, || guarded.call(&LIBRARY, job, levels, order));
    tally.count_answer(job, answer);
    let second = outcome(&SECOND, job, input);
    if answer != second.answer
        || *levels != second.levels[..level_room]
        || *order != second.order[..order_room]
    {
        tally.differ(|| format!("{name}\n  library {answer:?} {levels:?} {order:?}\n  second  {second:?}"));
    }
    check_sum(tally, "", job, input, [answer, second.answer]);
}
