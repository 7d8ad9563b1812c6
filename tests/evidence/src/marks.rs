//! Marks in stacking order: every short text over a few classes, random texts, and bad input. Both programs on
//! each, the laws of a drawing order, and that nothing was written to what is only read.
mod law;
pub mod shapes;

use crate::call::{Input, Job};
use crate::classes::LONGEST;
use crate::compare::{compare, Outcome};
use crate::exhaustive::each_sequence;
use crate::generator::Generator;
use crate::random::{each_case, Options};
use crate::spoil::{lengthen_marks, spoil_marks, MARKS_FAULTS};
use crate::tally::Tally;

/// Every sequence up to this length over these classes, each with and without a flag.
const LENGTH: usize = 5;
const CLASSES: [u8; 8] = [0, 27, 30, 33, 34, 220, 230, 240];
/// And one longer over these: flags only where one may count.
const FEWER: [(u8, u8); 8] = [(0, 0), (30, 0), (33, 0), (34, 0), (220, 0), (220, 1), (230, 0), (230, 1)];
/// How many places the order has there that are not needed.
const MORE_ROOM: usize = 2;
/// Counts that would be accepted if they were cut to 16 bits.
const WIDE: [usize; 3] = [0x1_0001, 0x1_0000 + 100, 0x1_0000 + LONGEST];

pub fn run(options: &Options) -> bool {
    let mut tally = Tally::default();
    let sequences = try_sequences(&mut tally);
    try_wide(&mut tally);
    each_case(options, &mut tally, |tally, case| Case::new(tally, options.seed, case).run());
    println!(
        "marks: {sequences} sequences, seed {}: {} texts, {} calls of each program, \
         {} differences; refusals 1, 3 and 16 met: {}",
        options.seed,
        options.count,
        tally.calls,
        tally.differences,
        tally.refusals_met([1, 3, 16])
    );
    tally.differences == 0
}

/// Says how many sequences there are.
fn try_sequences(tally: &mut Tally) -> usize {
    let pairs: Vec<(u8, u8)> = CLASSES.iter().flat_map(|&class| [(class, 0), (class, 1)]).collect();
    let mut try_pairs = |pairs: &[(u8, u8)]| {
        let input = Input {
            combining: pairs.iter().map(|pair| pair.0).collect(),
            flags: pairs.iter().map(|pair| pair.1).collect(),
            order_room: pairs.len() + MORE_ROOM,
            ..Input::default()
        };
        try_text(tally, "", &input);
    };
    let short: usize = (0..=LENGTH).map(|length| each_sequence(&pairs, length, &mut try_pairs)).sum();
    short + each_sequence(&FEWER, LENGTH + 1, &mut try_pairs)
}

fn try_wide(tally: &mut Tally) {
    for count in WIDE {
        let mut input = Input::default();
        lengthen_marks(&mut input, count);
        try_text(tally, "", &input);
    }
}

/// One call of each program; gives what the library did.
fn try_text(tally: &mut Tally, name: &str, input: &Input) -> Outcome {
    let lent = (input.combining.to_vec(), input.flags.to_vec());
    let library = compare(tally, name, Job::Marks, input);
    if (&*input.combining, &*input.flags) != (&lent.0[..], &lent.1[..]) {
        tally.differ(|| format!("{name}what is only read was written: {lent:?}\n{input}"));
    }
    if library.answer.is_ok() {
        let drawn = library.order.iter().take(input.combining.len()).copied();
        if let Some(law) = law::broken(&input.combining, &drawn.collect::<Vec<u16>>()) {
            tally.differ(|| format!("{name}{law}\n{input}\n  {library:?}"));
        }
    }
    library
}

struct Case<'a> {
    tally: &'a mut Tally,
    name: String,
    random: Generator,
}

impl Case<'_> {
    fn new(tally: &mut Tally, seed: u64, case: u64) -> Case<'_> {
        Case { tally, name: format!("seed {seed}, case {case}: "), random: Generator::new(seed, case) }
    }

    fn run(&mut self) {
        let input = shapes::text(&mut self.random);
        let drawn = self.try_text(&input);
        self.exchanges(&input, &drawn);
        self.refusals(input);
    }

    fn try_text(&mut self, input: &Input) -> Outcome {
        try_text(self.tally, &self.name, input)
    }

    /// Canonically equivalent text, made by exchanges: the same characters have to be drawn in the same order.
    fn exchanges(&mut self, input: &Input, drawn: &Outcome) {
        let places = shapes::exchanged(&mut self.random, &input.combining);
        let moved = |values: &[u8]| places.iter().map(|&place| values[usize::from(place)]).collect();
        let equivalent =
            Input { combining: moved(&input.combining), flags: moved(&input.flags), ..input.clone() };
        let again = self.try_text(&equivalent);
        let characters = again.order.iter().map(|&at| places.get(usize::from(at)));
        if !characters.take(places.len()).eq(drawn.order.iter().take(places.len()).map(Some)) {
            let found = format!("{equivalent}\n  {drawn:?}\n  {again:?}");
            self.tally.differ(|| format!("{}equivalent text drawn otherwise\n{input}\n{found}", self.name));
        }
    }

    /// The text with one fault, or two.
    fn refusals(&mut self, mut input: Input) {
        let faults = [self.random.pick(&MARKS_FAULTS), self.random.pick(&MARKS_FAULTS)];
        spoil_marks(&mut self.random, &mut input, &faults);
        self.try_text(&input);
    }
}
