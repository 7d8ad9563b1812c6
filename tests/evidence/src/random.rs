//! Random paragraphs, lines, levels and bad input: both programs on each, and the law on pairs and the law of the
//! sum on each order.
use crate::call::{Input, Job, JOBS};
use crate::classes::{is_removed, LONGEST};
use crate::compare::{compare, Outcome};
use crate::generator::Generator;
use crate::tally::Tally;
use crate::{law, shapes, spoil, texts};
use std::time::{Duration, Instant};

const BETWEEN_PROGRESS_LINES: Duration = Duration::from_secs(30);
/// One case in so many has a long text too.
const LONG_TEXTS: usize = 10;
/// One case in so many has a long paragraph at high levels too.
const HIGH_LEVELS: usize = 500;

pub struct Options {
    pub seed: u64,
    pub count: u64,
    pub progress: bool,
}

/// Runs the cases one after the other, with progress where it is asked for.
pub fn each_case(options: &Options, tally: &mut Tally, mut run: impl FnMut(&mut Tally, u64)) {
    let mut shown = Instant::now();
    for case in 1..=options.count {
        run(tally, case);
        if options.progress && shown.elapsed() >= BETWEEN_PROGRESS_LINES {
            shown = Instant::now();
            eprintln!("{case} of {} cases, {} differences", options.count, tally.differences);
        }
    }
}

pub fn run(options: &Options) -> bool {
    let mut tally = Tally::default();
    each_case(options, &mut tally, |tally, case| Case::new(tally, options.seed, case).run());
    println!(
        "random: seed {}: {} paragraphs, {} calls of each program, {} differences; \
         Base found none {} times; {}; refusals 1 to 10 met: {}",
        options.seed,
        options.count,
        tally.calls,
        tally.differences,
        tally.none_found,
        tally.reversals_met(),
        tally.refusals_met(1..=10)
    );
    tally.differences == 0
}

struct Case<'a> {
    tally: &'a mut Tally,
    name: String,
    random: Generator,
}

impl Case<'_> {
    fn new(tally: &mut Tally, seed: u64, case: u64) -> Case<'_> {
        Case { tally, name: format!("seed {seed}, case {case}: "), random: Generator::new(seed, case) }
    }

    fn run(&mut self) {
        let classes = shapes::paragraph(&mut self.random);
        self.cuts(&classes);
        let mut input = self.resolved(classes);
        for job in [Job::CutPart, Job::Base, Job::Explicit] {
            self.compare(job, &input);
        }
        self.orders(&input);
        input.levels = shapes::levels(&mut self.random, &input.classes).into();
        input.base = self.random.byte_between(0, 1);
        self.orders(&input);
        self.refusals(input);
        if self.random.one_in(HIGH_LEVELS) {
            self.many_reversals();
        }
    }

    fn compare(&mut self, job: Job, input: &Input) -> Outcome {
        compare(self.tally, &self.name, job, input)
    }

    /// The paragraph out of a text that goes on.
    fn cuts(&mut self, classes: &[u8]) {
        let text = texts::around(&mut self.random, classes);
        self.cut(text);
        if self.random.one_in(LONG_TEXTS) {
            let text = texts::long(&mut self.random);
            self.cut(text);
        }
    }

    /// Both forms of Cut.
    fn cut(&mut self, text: Vec<u8>) {
        let input = Input { classes: text.into(), ..Input::default() };
        self.compare(Job::Cut, &input);
        self.compare(Job::CutPart, &input);
    }

    /// A sound input for every job, with the levels and the base that the library resolves.
    fn resolved(&mut self, classes: Vec<u8>) -> Input<'static> {
        let random = &mut self.random;
        let length = classes.len();
        let (from, to) = shapes::line(random, length);
        let mut input = Input {
            classes: classes.into(),
            request: random.byte_between(0, 2),
            fallback: random.byte_between(0, 1),
            level_room: length + random.between(0, 2),
            from,
            to,
            ends: shapes::ends(random, length).into(),
            order_room: length + random.between(0, 2),
            ..Input::default()
        };
        let resolved = self.compare(Job::Resolve, &input);
        input.base = resolved.answer.map_or(0, |base| base.value as u8);
        input.levels = resolved.levels.into();
        input
    }

    /// Long lines of which nearly all positions are reversed many times.
    fn many_reversals(&mut self) {
        let length = self.random.between(LONGEST / 2, LONGEST);
        let classes = shapes::paragraph_of(&mut self.random, length);
        let mut input = self.resolved(classes);
        input.levels = shapes::high_levels(&mut self.random, &input.classes).into();
        self.orders(&input);
    }

    /// Both forms of Order, and the law on what the library wrote.
    fn orders(&mut self, input: &Input) {
        for job in [Job::OrderLine, Job::OrderLines] {
            let outcome = self.compare(job, input);
            if !self.law_holds(job, input, &outcome) {
                self.tally.differ(|| format!("{}the law on pairs\n{input}\n  {outcome:?}", self.name));
            }
        }
    }

    /// The law on each of the job's lines, whose orders follow each other.
    fn law_holds(&mut self, job: Job, input: &Input, outcome: &Outcome) -> bool {
        let mut rest = match outcome.answer {
            Ok(answer) if answer.value <= outcome.order.len() => &outcome.order[..answer.value],
            _ => return false,
        };
        for (from, to) in input.lines(job) {
            let kept = input.classes[from..to].iter().filter(|&&class| !is_removed(class));
            let (order, later) = rest.split_at(kept.count().min(rest.len()));
            if !law::holds(&mut self.random, &input.line_levels((from, to)), from, order) {
                return false;
            }
            rest = later;
        }
        rest.is_empty()
    }

    /// Every job on the input with one or two faults in it.
    fn refusals(&mut self, mut input: Input) {
        let mut numbers = [self.random.byte_between(1, 10), self.random.byte_between(1, 10)];
        if self.random.one_in(2) {
            numbers[1] = numbers[0];
        }
        spoil::spoil(&mut self.random, &mut input, &numbers);
        for job in JOBS {
            self.compare(job, &input);
        }
    }
}
