//! Every function on good and bad input: the answer, and every place of every buffer that was lent.
use melvorash::Class::{self, *};
use melvorash::Refusal::{self, *};
use melvorash::{Ordered, BY_TEXT, LONGEST, REMOVED};

const CLASSES: [Class; 20] =
    [L, LRE, LRO, R, AL, RLE, RLO, PDF, EN, ES, ET, AN, CS, NSM, BN, B, S, WS, ON, CR];
const X: u8 = REMOVED;
/// How an outcome has it that Base found none.
const NONE: usize = usize::MAX;

/// What a buffer holds where nothing was written.
const UNTOUCHED: u8 = 0xA5;
/// How many places lie after those that are lent.
const BEYOND: usize = 4;

#[derive(Clone, Copy, Debug)]
enum Job {
    Cut,
    Base,
    Explicit,
    Resolve,
    OrderLine,
    OrderLines,
    Marks,
}

use Job::*;

const LEVELS: &[Job] = &[Explicit, Resolve];
const ORDER: &[Job] = &[OrderLine, OrderLines];
/// All that check a whole paragraph.
const CHECKED: &[Job] = &[Base, Explicit, Resolve, OrderLine, OrderLines];
/// All that take a paragraph.
const ALL: &[Job] = &[Cut, Base, Explicit, Resolve, OrderLine, OrderLines];

/// What a call is lent; each job takes of it what it has.
#[derive(Clone, Debug, Default, PartialEq)]
struct Lent {
    /// directional, or combining for the marks
    classes: Vec<u8>,
    /// a base request, or the base of an order
    base: u8,
    /// the default that goes with a request
    fallback: u8,
    levels: Vec<u8>,
    from: usize,
    to: usize,
    ends: Vec<u16>,
    flags: Vec<u8>,
    /// how many places the buffer has that is filled
    room: usize,
}

/// What an accepted call answers: its value, and for an order how many positions were reversed.
type Values = (usize, Option<usize>);

/// What a call answered and left in the two buffers that a job may fill.
#[derive(Debug, PartialEq)]
struct Outcome {
    answer: Result<Values, Refusal>,
    levels: Vec<u8>,
    order: Vec<u16>,
}

/// An outcome in which a buffer begins with what was written and is untouched after that.
fn outcome(room: usize, answer: Result<Values, Refusal>, levels: &[u8], order: &[u16]) -> Outcome {
    let (mut all_levels, mut all_order) = (levels.to_vec(), order.to_vec());
    all_levels.resize(room + BEYOND, UNTOUCHED);
    all_order.resize(room + BEYOND, u16::from(UNTOUCHED));
    Outcome { answer, levels: all_levels, order: all_order }
}

fn run(job: Job, given: &Lent) -> Outcome {
    let lent = given.clone();
    let mut left = outcome(lent.room, Ok((0, None)), &[], &[]);
    let levels = &mut left.levels[..lent.room];
    let order = &mut left.order[..lent.room];
    let value = |value: usize| (value, None);
    let wide = |level: u8| value(level.into());
    let both = |ordered: Ordered| (ordered.placed, Some(ordered.reversed));
    let Lent { classes, base, fallback, levels: resolved, from, to, ends, flags, .. } = &lent;
    left.answer = match job {
        Cut => melvorash::cut(classes).map(value),
        Base => melvorash::base(classes).map(|found| found.map_or(value(NONE), wide)),
        Explicit => melvorash::explicit_levels(classes, *base, *fallback, levels).map(wide),
        Resolve => melvorash::resolve_levels(classes, *base, *fallback, levels).map(wide),
        OrderLine => melvorash::order_line(classes, resolved, *base, *from, *to, order).map(both),
        OrderLines => melvorash::order_lines(classes, resolved, *base, ends, order).map(both),
        Marks => melvorash::marks(classes, flags, order).map(value),
    };
    assert_eq!(&lent, given, "{job:?} wrote to what it only reads");
    left
}

fn accepts(job: Job, lent: &Lent, value: usize, levels: &[u8], order: &[u16]) {
    let wanted = outcome(lent.room, Ok((value, None)), levels, order);
    assert_eq!(run(job, lent), wanted, "{job:?} on {lent:?}");
}

fn orders(jobs: &[Job], lent: &Lent, order: &[u16], reversed: usize) {
    for &job in jobs {
        let wanted = outcome(lent.room, Ok((order.len(), Some(reversed))), &[], order);
        assert_eq!(run(job, lent), wanted, "{job:?} on {lent:?}");
    }
}

fn refuses(jobs: &[Job], lent: &Lent, refusal: Refusal) {
    for &job in jobs {
        let wanted = outcome(lent.room, Err(refusal), &[], &[]);
        assert_eq!(run(job, lent), wanted, "{job:?} on {lent:?}");
    }
}

/// The numbers of classes that are given by name; a number stands for itself.
fn classes(names: &str) -> Vec<u8> {
    let number = |name: &str| match CLASSES.iter().find(|class| format!("{class:?}") == name) {
        Some(class) => class.number(),
        None => name.parse().expect("a class's name or a number"),
    };
    names.split_whitespace().map(number).collect()
}

#[test]
fn classes_have_their_numbers() {
    for (number, class) in CLASSES.iter().enumerate() {
        assert_eq!(usize::from(class.number()), number);
    }
}

/// Document 01's table: classes, request, base used, resolved levels, the order of one line; and how many
/// positions that line reverses, which the table does not have.
type Row = (&'static str, u8, u8, &'static [u8], &'static [u16], usize);

const ROWS: &[Row] = &[
    ("L", BY_TEXT, 0, &[0], &[0], 0),
    ("AL EN", BY_TEXT, 1, &[1, 2], &[1, 0], 3),
    ("L WS EN", BY_TEXT, 0, &[0, 0, 0], &[0, 1, 2], 0),
    ("EN CS EN", 1, 1, &[2, 2, 2], &[0, 1, 2], 0),
    ("EN CS CS EN", 1, 1, &[2, 1, 1, 2], &[3, 2, 1, 0], 6),
    ("AN ET EN", 1, 1, &[2, 2, 2], &[0, 1, 2], 0),
    ("R WS L", 0, 0, &[1, 0, 0], &[0, 1, 2], 1),
    ("R WS L", 1, 1, &[1, 1, 2], &[2, 1, 0], 4),
    ("RLE L PDF R", 0, 0, &[X, 2, X, 1], &[3, 1], 3),
    ("EN BN CS EN", 1, 1, &[2, X, 2, 2], &[0, 2, 3], 0),
    ("R S R", 0, 0, &[1, 1, 1], &[0, 1, 2], 2),
    ("PDF L", 0, 0, &[X, 0], &[1], 0),
    ("NSM", 1, 1, &[1], &[0], 1),
    ("B", BY_TEXT, 0, &[0], &[0], 0),
    ("R WS R", 0, 0, &[1, 1, 1], &[2, 1, 0], 3),
    // no row of the page: no position is kept
    ("LRE RLO LRO", 0, 0, &[X, X, X], &[], 0),
];

/// The same for CR, which that table does not have: with its B and without one.
const CR_ROWS: &[Row] = &[
    ("R WS CR B", 0, 0, &[1, 0, 0, 0], &[0, 1, 2, 3], 1),
    ("R WS CR B", 1, 1, &[1, 1, 1, 1], &[3, 2, 1, 0], 4),
    ("R WS CR", 0, 0, &[1, 0, 0], &[0, 1, 2], 1),
    ("L WS CR", 1, 1, &[2, 1, 1], &[2, 1, 0], 4),
    ("EN CR B", BY_TEXT, 0, &[0, 0, 0], &[0, 1, 2], 0),
    ("RLO L CR B", 0, 0, &[X, 1, 0, 0], &[1, 2, 3], 1),
    ("RLO L CR B", 1, 1, &[X, 3, 1, 1], &[3, 2, 1], 5),
    ("LRO R CR", 1, 1, &[X, 2, 1], &[2, 1], 3),
    ("CR B", 1, 1, &[1, 1], &[1, 0], 2),
    ("CR", BY_TEXT, 0, &[0], &[0], 0),
];

#[test]
fn rows_of_the_table() {
    for &(names, request, base, levels, order, reversed) in ROWS.iter().chain(CR_ROWS) {
        let classes = classes(names);
        let (to, ends) = (classes.len(), vec![classes.len() as u16]);
        let resolve = Lent { classes, base: request, room: to + 3, ..Lent::default() };
        accepts(Cut, &resolve, to, &[], &[]);
        accepts(Resolve, &resolve, base.into(), levels, &[]);
        let lines = Lent { base, levels: levels.to_vec(), to, ends, ..resolve };
        orders(ORDER, &lines, order, reversed);
    }
}

#[test]
fn paragraphs_are_cut() {
    for (names, length) in [("L B R", 2), ("B 20", 1), ("L R", 2)] {
        let classes = classes(names);
        assert_eq!(melvorash::cut(&classes), Ok(length));
        assert_eq!(melvorash::cut_part(&classes), &classes[..length]);
    }
    for names in ["", "L 20 B"] {
        assert!(melvorash::cut_part(&classes(names)).is_empty());
    }
}

#[test]
fn paragraphs_are_cut_behind_a_cr_and_its_b() {
    let cases = [
        ("CR B R", 2),
        ("L CR B B", 3),
        ("CR B 20", 2),
        ("L CR L", 2),
        ("CR 20", 1),
        ("CR CR B", 1),
        ("CR BN B", 1),
        ("B CR B", 1),
    ];
    for (names, length) in cases {
        let classes = classes(names);
        assert_eq!(melvorash::cut(&classes), Ok(length), "{names}");
        assert_eq!(melvorash::cut_part(&classes), &classes[..length], "{names}");
    }
    // the B stands behind what is lent
    assert_eq!(melvorash::cut(&classes("L CR B")[..2]), Ok(2));
}

#[test]
fn base_is_by_the_text() {
    for (names, level) in
        [("L", 0), ("R", 1), ("AL", 1), ("L R", 0), ("NSM R L", 1), ("LRE AL B", 1), ("AL CR B", 1)]
    {
        assert_eq!(melvorash::base(&classes(names)), Ok(Some(level)), "{names}");
    }
    for names in ["EN", "WS EN", "ON WS", "RLE", "LRO EN", "B", "CR", "CR B"] {
        assert_eq!(melvorash::base(&classes(names)), Ok(None), "{names}");
    }
}

/// Classes, the base used by the text with default 0 and 1, the levels at each base: explicit, then resolved.
type Text = (&'static str, [u8; 2], [&'static [u8]; 2], [&'static [u8]; 2]);

const TEXTS: &[Text] = &[
    ("EN", [0, 1], [&[0], &[1]], [&[0], &[2]]),
    ("ON WS", [0, 1], [&[0, 0], &[1, 1]], [&[0, 0], &[1, 1]]),
    ("RLE", [0, 1], [&[X], &[X]], [&[X], &[X]]),
    ("RLE EN", [0, 1], [&[X, 1], &[X, 3]], [&[X, 2], &[X, 4]]),
    ("B", [0, 1], [&[0], &[1]], [&[0], &[1]]),
    ("CR B", [0, 1], [&[0, 0], &[1, 1]], [&[0, 0], &[1, 1]]),
    // the text decides
    ("L", [0, 0], [&[0], &[1]], [&[0], &[2]]),
    ("R", [1, 1], [&[0], &[1]], [&[1], &[1]]),
    ("AL", [1, 1], [&[0], &[1]], [&[1], &[1]]),
    ("EN L R", [0, 0], [&[0, 0, 0], &[1, 1, 1]], [&[0, 0, 1], &[2, 2, 1]]),
    ("EN AL B", [1, 1], [&[0, 0, 0], &[1, 1, 1]], [&[0, 1, 0], &[2, 1, 1]]),
];

#[test]
fn the_default_is_used_where_the_text_decides_nothing() {
    for &(names, by_text, explicit, resolved) in TEXTS {
        for (request, used) in (0..).zip([[0, 0], [1, 1], by_text]) {
            for (fallback, base) in (0..).zip(used) {
                let classes = classes(names);
                let lent = Lent { classes, base: request, fallback, room: 5, ..Lent::default() };
                accepts(Explicit, &lent, base.into(), explicit[usize::from(base)], &[]);
                accepts(Resolve, &lent, base.into(), resolved[usize::from(base)], &[]);
            }
        }
    }
}

/// Also where the default would not be used, and in the turn of refusal 5 where there is a second fault.
#[test]
fn bad_defaults_are_refused_with_any_request() {
    let lent = |names, base, fallback, room| Lent {
        classes: classes(names),
        base,
        fallback,
        room,
        ..Lent::default()
    };
    for request in 0..=3 {
        for fallback in [2, 3, 255] {
            refuses(LEVELS, &lent("EN", request, fallback, 2), BadBase);
            refuses(LEVELS, &lent("L R", request, fallback, 2), BadBase);
        }
    }
    refuses(LEVELS, &lent("EN", 3, 1, 1), BadBase);
    refuses(LEVELS, &lent("EN EN", BY_TEXT, 2, 1), BadBase);
    refuses(LEVELS, &lent("EN EN", BY_TEXT, 1, 1), ShortLevels);
    refuses(LEVELS, &lent("", BY_TEXT, 2, 0), NoClasses);
    refuses(LEVELS, &lent("EN 20", BY_TEXT, 2, 2), UnknownClass(1));
    refuses(LEVELS, &lent("EN B EN", BY_TEXT, 2, 3), EarlySeparator(1));
}

#[test]
fn explicit_levels_come_before_the_rules_on_types() {
    let rle = Lent { classes: classes("RLE L PDF R"), room: 6, ..Lent::default() };
    accepts(Explicit, &rle, 0, &[X, 1, X, 0], &[]);
    let al = Lent { classes: classes("AL EN"), base: BY_TEXT, room: 2, ..Lent::default() };
    accepts(Explicit, &al, 1, &[1, 1], &[]);
    let rlo = Lent { classes: classes("RLO L CR B"), room: 5, ..Lent::default() };
    accepts(Explicit, &rlo, 0, &[X, 1, 0, 0], &[]);
    let lro = Lent { classes: classes("LRO R CR"), base: 1, room: 4, ..Lent::default() };
    accepts(Explicit, &lro, 1, &[X, 2, 1], &[]);
}

#[test]
fn lines_are_ordered_apart() {
    let whole = Lent { classes: classes("R WS R"), levels: vec![1, 1, 1], room: 4, ..Lent::default() };
    orders(&[OrderLine], &Lent { from: 0, to: 2, ..whole.clone() }, &[0, 1], 1);
    orders(&[OrderLine], &Lent { from: 2, to: 3, ..whole.clone() }, &[2], 1);
    orders(&[OrderLines], &Lent { ends: vec![2, 3], ..whole }, &[0, 1, 2], 2);
}

#[test]
fn a_line_may_end_between_cr_and_b() {
    let at_0 = Lent { classes: classes("R WS CR B"), levels: vec![1, 0, 0, 0], room: 5, ..Lent::default() };
    let at_1 = Lent { levels: vec![1, 1, 1, 1], base: 1, ..at_0.clone() };
    for (whole, first, reversed) in [(at_0, [0, 1, 2], [1, 0]), (at_1, [2, 1, 0], [3, 1])] {
        orders(&[OrderLine], &Lent { from: 0, to: 3, ..whole.clone() }, &first, reversed[0]);
        orders(&[OrderLine], &Lent { from: 3, to: 4, ..whole.clone() }, &[3], reversed[1]);
        let both = [&first[..], &[3]].concat();
        orders(&[OrderLines], &Lent { ends: vec![3, 4], ..whole }, &both, reversed[0] + reversed[1]);
    }
}

/// One line: classes, base, levels, the order, how many positions are reversed.
type Line = (&'static str, u8, &'static [u8], &'static [u16], usize);

fn order_all(lines: &[Line]) {
    for &(names, base, levels, order, reversed) in lines {
        let (levels, to) = (levels.to_vec(), levels.len());
        let ends = vec![to as u16];
        let line = Lent { classes: classes(names), base, levels, to, ends, room: to + 1, ..Lent::default() };
        orders(ORDER, &line, order, reversed);
    }
}

/// Levels that Resolve does not give, so that the order shows what the line puts back to the base.
#[test]
fn a_line_puts_cr_and_the_blanks_before_it_back() {
    order_all(&[
        ("R WS CR B", 0, &[1, 1, 1, 1], &[0, 1, 2, 3], 1),
        ("R WS CR", 0, &[1, 1, 1], &[0, 1, 2], 1),
        ("R WS BN CR", 0, &[1, 1, X, 1], &[0, 1, 3], 1),
        ("R CR", 1, &[2, 3], &[1, 0], 3),
    ]);
}

#[test]
fn reversed_positions_are_counted() {
    order_all(&[
        // no odd level: no pass
        ("L", 0, &[0], &[0], 0),
        ("L L L", 1, &[2, 0, 62], &[0, 1, 2], 0),
        // one odd level: one pass, a stretch of one counted as one
        ("R", 0, &[1], &[0], 1),
        ("R", 0, &[61], &[0], 1),
        ("R L R R", 0, &[1, 0, 1, 1], &[0, 1, 3, 2], 3),
        // a pass for each number down to the lowest odd level, also where no position is at it
        ("R L", 0, &[1, 4], &[1, 0], 5),
        ("R L", 0, &[3, 62], &[1, 0], 61),
        ("L R R R", 0, &[0, 5, 9, 5], &[0, 3, 2, 1], 7),
        // levels below the lowest odd one
        ("L R L L", 0, &[2, 3, 4, 0], &[0, 2, 1, 3], 3),
        ("L L R", 0, &[60, 60, 61], &[0, 1, 2], 1),
        // removed positions are not reversed, and do not part a stretch
        ("R PDF L BN R", 0, &[1, X, 2, X, 1], &[4, 2, 0], 4),
        ("LRE BN", 1, &[X, X], &[], 0),
    ]);
}

/// What counts is the level on the line: the reset lowers or takes away the lowest odd level, or brings one.
#[test]
fn reversed_positions_are_counted_after_the_reset() {
    order_all(&[
        ("R WS", 0, &[3, 9], &[0, 1], 1),
        ("R WS", 1, &[3, 9], &[1, 0], 4),
        ("L S", 0, &[4, 7], &[0, 1], 0),
        ("L WS B", 1, &[4, 0, 0], &[2, 1, 0], 6),
        ("WS WS", 1, &[62, 61], &[1, 0], 2),
    ]);
}

/// The sum over the lines, each with a lowest odd level of its own; one line has another count.
#[test]
fn reversed_positions_of_all_lines_add_up() {
    let levels = vec![3, 4, 1, 2, 2, 4, 5];
    let lent = Lent { classes: vec![L.number(); 7], levels, room: 7, ..Lent::default() };
    let lines = |ends: &[u16]| Lent { ends: ends.to_vec(), ..lent.clone() };
    let apart: [(usize, usize, &[u16], usize); 4] =
        [(0, 2, &[1, 0], 3), (2, 4, &[3, 2], 3), (4, 6, &[4, 5], 0), (6, 7, &[6], 1)];
    for (from, to, order, reversed) in apart {
        orders(&[OrderLine], &Lent { from, to, ..lent.clone() }, order, reversed);
    }
    orders(&[OrderLines], &lines(&[2, 4, 6, 7]), &[1, 0, 3, 2, 4, 5, 6], 7);
    orders(&[OrderLines], &lines(&[7]), &[3, 4, 5, 6, 2, 1, 0], 21);
}

/// The longest line, all at level 62 but one. Where that one is at level 1 no line can reverse more.
#[test]
fn the_most_positions_are_reversed() {
    let last = LONGEST as u16 - 1;
    for (at, odd, reversed) in [(0, 1, 253_891), (1000, 1, 253_891), (last, 1, 253_891), (last, 61, 8_191)] {
        let mut levels = vec![62; LONGEST];
        levels[usize::from(at)] = odd;
        let order: Vec<u16> = (at + 1..=last).chain([at]).chain(0..at).collect();
        let (classes, ends) = (vec![L.number(); LONGEST], vec![last + 1]);
        let lent = Lent { classes, levels, to: LONGEST, ends, room: LONGEST, ..Lent::default() };
        orders(ORDER, &lent, &order, reversed);
    }
}

/// A line for each position: every one is a stretch of one.
#[test]
fn the_most_lines_add_up() {
    let counted: Vec<u16> = (0..LONGEST as u16).collect();
    let (classes, ends) = (vec![R.number(); LONGEST], (1..=LONGEST as u16).collect());
    let lent = Lent { classes, ends, room: LONGEST, ..Lent::default() };
    for (level, reversed) in [(1, LONGEST), (61, LONGEST), (62, 0)] {
        orders(&[OrderLines], &Lent { levels: vec![level; LONGEST], ..lent.clone() }, &counted, reversed);
    }
}

/// Combining classes, flags, the drawing order.
const STACKS: &[(&[u8], &[u8], &[u16])] = &[
    (&[0], &[0], &[0]),
    // shadda stands before damma
    (&[0, 31, 33], &[0, 0, 0], &[0, 2, 1]),
    // canonical ordering, and marks of one class stay in their order
    (&[0, 230, 220, 230, 220], &[0, 0, 0, 0, 0], &[0, 2, 4, 1, 3]),
    // modifier marks: 220 before 230 before shadda
    (&[0, 33, 31, 230, 220], &[0, 0, 0, 1, 255], &[0, 4, 3, 1, 2]),
    (&[0, 31, 230, 230, 230], &[0, 0, 128, 1, 0], &[0, 2, 3, 1, 4]),
    (&[0, 31, 220, 33, 220, 220], &[0, 0, 2, 0, 0, 1], &[0, 2, 3, 1, 4, 5]),
    // no effect: a flag behind a mark of its class that has none, and one of another class
    (&[0, 31, 230, 230], &[0, 0, 0, 1], &[0, 1, 2, 3]),
    (&[0, 34, 30, 240], &[1, 1, 1, 1], &[0, 2, 1, 3]),
    // nothing moves past class 0, and a stretch needs none before it
    (&[0, 31, 0, 33, 0, 230], &[1, 1, 1, 1, 1, 1], &[0, 1, 2, 3, 4, 5]),
    (&[34, 33, 0, 34, 33], &[0, 0, 0, 0, 0], &[1, 0, 2, 4, 3]),
    // any byte is a class
    (&[255, 1, 254], &[0, 0, 0], &[1, 2, 0]),
];

#[test]
fn marks_are_put_in_stacking_order() {
    for &(classes, flags, order) in STACKS {
        let exact =
            Lent { classes: classes.to_vec(), flags: flags.to_vec(), room: classes.len(), ..Lent::default() };
        accepts(Marks, &exact, order.len(), &[], order);
        let longer = Lent { flags: [flags, &[1, 0]].concat(), room: classes.len() + 3, ..exact };
        accepts(Marks, &longer, order.len(), &[], order);
    }
}

#[test]
fn bad_marks_are_refused() {
    let lent = |characters, flags, room| Lent {
        classes: vec![230; characters],
        flags: vec![1; flags],
        room,
        ..Lent::default()
    };
    for (flags, room) in [(0, 0), (1, 2)] {
        refuses(&[Marks], &lent(0, flags, room), NoClasses);
    }
    for (flags, room) in [(LONGEST + 1, LONGEST + 1), (0, LONGEST + 1), (LONGEST + 1, 0), (0, 0)] {
        refuses(&[Marks], &lent(LONGEST + 1, flags, room), TooLong);
    }
    for (flags, room) in [(2, 3), (3, 2), (2, 2), (0, 4), (4, 0), (0, 0)] {
        refuses(&[Marks], &lent(3, flags, room), ShortBuffer);
    }
}

#[test]
fn the_most_characters_are_taken() {
    let sukun_and_shadda = [34, 33].repeat(LONGEST / 2);
    let (sukuns, shaddas) = ((0..LONGEST as u16).step_by(2), (1..LONGEST as u16).step_by(2));
    let order: Vec<u16> = shaddas.chain(sukuns).collect();
    let flags = vec![0; LONGEST];
    let most = Lent { classes: sukun_and_shadda, flags, room: LONGEST, ..Lent::default() };
    accepts(Marks, &most, LONGEST, &[], &order);
    refuses(&[Marks], &Lent { flags: vec![0; LONGEST - 1], ..most.clone() }, ShortBuffer);
    refuses(&[Marks], &Lent { room: LONGEST - 1, ..most }, ShortBuffer);
}

/// Most bad input here has a second fault, which is not the one to be given.
#[test]
fn bad_classes_are_refused() {
    let bad = |names: &str| Lent { classes: classes(names), base: 3, ..Lent::default() };
    refuses(ALL, &bad(""), NoClasses);
    refuses(ALL, &bad("L 20"), UnknownClass(1));
    refuses(ALL, &bad("20 CR B"), UnknownClass(0));
    refuses(ALL, &bad("L L 255 B L"), UnknownClass(2));
    for names in ["L B 20", "L CR 20", "L CR L", "L CR B L", "L CR B B", "L CR CR B", "L CR BN B", "L B CR B"]
    {
        refuses(CHECKED, &bad(names), EarlySeparator(1));
    }
    for names in ["CR B L", "CR CR B", "CR BN B", "B CR"] {
        refuses(CHECKED, &bad(names), EarlySeparator(0));
    }
    refuses(LEVELS, &bad("CR B"), BadBase);
    let longer = Lent { classes: vec![0; LONGEST + 1], base: 3, fallback: 2, ..Lent::default() };
    refuses(ALL, &longer, TooLong);
    let mut unknown_last = longer;
    unknown_last.classes[LONGEST] = 20;
    refuses(ALL, &unknown_last, TooLong);
}

#[test]
fn bad_requests_and_short_levels_are_refused() {
    let lent = |base, room| Lent { classes: classes("L R"), base, room, ..Lent::default() };
    refuses(LEVELS, &lent(3, 0), BadBase);
    refuses(LEVELS, &lent(255, 2), BadBase);
    refuses(LEVELS, &lent(0, 1), ShortLevels);
}

#[test]
fn bad_levels_are_refused() {
    let lent = |names: &str, base, levels: &[u8]| Lent {
        classes: classes(names),
        base,
        levels: levels.to_vec(),
        ..Lent::default()
    };
    refuses(ORDER, &lent("L R", 2, &[0]), BadBase);
    refuses(ORDER, &lent("L R", 0, &[63]), ShortLevels);
    refuses(ORDER, &lent("L R", 0, &[62, 63]), BadLevel(1));
    refuses(ORDER, &lent("L R L", 0, &[0, X, 63]), BadLevel(1));
    refuses(ORDER, &lent("L L PDF", 0, &[0, 0, 0]), BadLevel(2));
}

#[test]
fn bad_lines_and_short_orders_are_refused() {
    let sound = Lent { classes: classes("L PDF R"), levels: vec![0, X, 1], ..Lent::default() };
    let line = |from, to, room| Lent { from, to, room, ..sound.clone() };
    refuses(&[OrderLine], &line(1, 1, 0), BadLine);
    refuses(&[OrderLine], &line(2, 1, 4), BadLine);
    refuses(&[OrderLine], &line(0, 4, 0), BadLine);
    refuses(&[OrderLine], &line(0, usize::MAX, 4), BadLine);
    refuses(&[OrderLine], &line(0, 2, 1), ShortOrder);
    let lines = |ends: &[u16], room| Lent { ends: ends.to_vec(), room, ..sound.clone() };
    for ends in [&[][..], &[0, 3], &[2, 2, 3], &[2], &[4]] {
        refuses(&[OrderLines], &lines(ends, 0), BadEnds);
    }
    refuses(&[OrderLines], &lines(&[1, 3], 2), ShortOrder);
}

#[test]
fn the_longest_paragraph_is_taken() {
    let zeros = vec![0; LONGEST];
    let counted: Vec<u16> = (0..LONGEST as u16).collect();
    let ended = [&zeros[2..], &classes("CR B")].concat();
    for classes in [zeros.clone(), ended] {
        let longest = Lent {
            classes,
            levels: zeros.clone(),
            to: LONGEST,
            ends: vec![LONGEST as u16],
            room: LONGEST,
            ..Lent::default()
        };
        accepts(Cut, &longest, LONGEST, &[], &[]);
        accepts(Base, &longest, 0, &[], &[]);
        accepts(Explicit, &longest, 0, &zeros, &[]);
        accepts(Resolve, &longest, 0, &zeros, &[]);
        orders(ORDER, &longest, &counted, 0);
    }
}

/// Base looks at every position where it has to.
#[test]
fn the_longest_paragraph_has_a_base_or_none() {
    let mut numbers = vec![EN.number(); LONGEST];
    assert_eq!(melvorash::base(&numbers), Ok(None));
    numbers[LONGEST - 1] = R.number();
    assert_eq!(melvorash::base(&numbers), Ok(Some(1)));
}

/// CR as the last position that a paragraph may have, and what may follow it.
#[test]
fn the_longest_paragraph_ends_with_cr() {
    let ended = |l: usize, names: &str| [vec![0; l], classes(names)].concat();
    for end in ["CR", "CR L", "CR 20", "CR CR"] {
        let lent = Lent { classes: ended(LONGEST - 1, end), ..Lent::default() };
        accepts(Cut, &lent, LONGEST, &[], &[]);
    }
    let pair_beyond = Lent { classes: ended(LONGEST - 1, "CR B"), base: 3, ..Lent::default() };
    refuses(ALL, &pair_beyond, TooLong);
    let unknown_beyond = Lent { classes: ended(LONGEST - 1, "CR 20"), base: 3, ..Lent::default() };
    refuses(CHECKED, &unknown_beyond, TooLong);
}

#[test]
fn refusals_have_their_numbers_places_and_sentences() {
    let all = [
        NoClasses,
        UnknownClass(7),
        TooLong,
        EarlySeparator(7),
        BadBase,
        ShortLevels,
        BadLevel(7),
        BadLine,
        ShortOrder,
        BadEnds,
        ShortBuffer,
    ];
    for (number, refusal) in (1..=10).chain([16]).zip(all) {
        let has_place = matches!(refusal, UnknownClass(_) | EarlySeparator(_) | BadLevel(_));
        assert_eq!(refusal.number(), number);
        assert_eq!(refusal.place(), if has_place { 7 } else { 0 });
        assert_eq!(refusal.to_string().contains('7'), has_place);
    }
}
