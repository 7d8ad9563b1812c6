//! One call of either program on one input.
use crate::classes;
use crate::program::Program;
use second::{Ordered, Refused};
use std::borrow::Cow;
use std::fmt;

#[derive(Clone, Copy, Debug, PartialEq)]
pub enum Job {
    Cut,
    CutPart,
    Base,
    Explicit,
    Resolve,
    OrderLine,
    OrderLines,
    Marks,
}

/// All that take a paragraph.
pub const JOBS: [Job; 7] =
    [Job::Cut, Job::CutPart, Job::Base, Job::Explicit, Job::Resolve, Job::OrderLine, Job::OrderLines];

/// Base's answer where none is found; no byte, so no level.
pub const NONE_FOUND: Answer = Answer { value: 256, reversed: None };

/// What an accepted call answers: a number, and Order the count of the reversals beside it.
#[derive(Clone, Copy, Debug, PartialEq)]
pub struct Answer {
    pub value: usize,
    pub reversed: Option<usize>,
}

impl From<usize> for Answer {
    fn from(value: usize) -> Answer {
        Answer { value, reversed: None }
    }
}

impl From<u8> for Answer {
    fn from(level: u8) -> Answer {
        Answer::from(usize::from(level))
    }
}

impl From<Ordered> for Answer {
    fn from(ordered: Ordered) -> Answer {
        Answer { value: ordered.placed, reversed: Some(ordered.reversed) }
    }
}

/// What the jobs are lent to read and how much room they get to write; each takes of it what it has.
#[derive(Clone, Default)]
pub struct Input<'a> {
    pub classes: Cow<'a, [u8]>,
    /// Explicit's and Resolve's request and default
    pub request: u8,
    pub fallback: u8,
    /// the places of the level buffer that is filled
    pub level_room: usize,
    /// Order's own base, levels, line and line ends
    pub base: u8,
    pub levels: Cow<'a, [u8]>,
    pub from: usize,
    pub to: usize,
    pub ends: Cow<'a, [u16]>,
    /// the marks' own classes and flags
    pub combining: Cow<'a, [u8]>,
    pub flags: Cow<'a, [u8]>,
    /// the places of the order buffer
    pub order_room: usize,
}

impl Input<'_> {
    /// How many levels and places of an order the job is lent to fill.
    pub fn room(&self, job: Job) -> (usize, usize) {
        match job {
            Job::Cut | Job::CutPart | Job::Base => (0, 0),
            Job::Explicit | Job::Resolve => (self.level_room, 0),
            Job::OrderLine | Job::OrderLines | Job::Marks => (0, self.order_room),
        }
    }

    /// Makes the call. `levels` and `order` are the buffers to fill.
    pub fn call(
        &self,
        program: &Program,
        job: Job,
        levels: &mut [u8],
        order: &mut [u16],
    ) -> Result<Answer, Refused> {
        let Input {
            classes, request, fallback, base, levels: lent, from, to, ends, combining, flags, ..
        } = self;
        match job {
            Job::Cut => (program.cut)(classes).map(Answer::from),
            Job::CutPart => length_of_part(classes, (program.cut_part)(classes)).map(Answer::from),
            Job::Base => (program.base)(classes).map(|found| found.map_or(NONE_FOUND, Answer::from)),
            Job::Explicit => {
                (program.explicit_levels)(classes, *request, *fallback, levels).map(Answer::from)
            }
            Job::Resolve => (program.resolve_levels)(classes, *request, *fallback, levels).map(Answer::from),
            Job::OrderLine => (program.order_line)(classes, lent, *base, *from, *to, order).map(Answer::from),
            Job::OrderLines => (program.order_lines)(classes, lent, *base, ends, order).map(Answer::from),
            Job::Marks => (program.marks)(combining, flags, order).map(Answer::from),
        }
    }

    /// The lines that the job orders, each from where to where.
    pub fn lines(&self, job: Job) -> Vec<(usize, usize)> {
        let ends = || self.ends.iter().map(|&end| usize::from(end));
        match job {
            Job::OrderLine => vec![(self.from, self.to)],
            Job::OrderLines => [0].into_iter().chain(ends()).zip(ends()).collect(),
            _ => Vec::new(),
        }
    }

    /// The levels of a line after the second program's reset, 255 where removed. The input must be sound.
    pub fn line_levels(&self, (from, to): (usize, usize)) -> Vec<u8> {
        second::line_levels(&self.classes, &self.levels, self.base, from, to)
    }
}

/// The part's length. One that does not begin where the classes begin is given as a refusal that is none.
fn length_of_part(classes: &[u8], part: &[u8]) -> Result<usize, Refused> {
    if part.as_ptr() == classes.as_ptr() {
        Ok(part.len())
    } else {
        Err((u8::MAX, part.len()))
    }
}

impl fmt::Display for Input<'_> {
    fn fmt(&self, f: &mut fmt::Formatter<'_>) -> fmt::Result {
        writeln!(f, "  classes {}", classes::named(&self.classes))?;
        writeln!(f, "  request {}, default {}", self.request, self.fallback)?;
        writeln!(f, "  room for levels {}", self.level_room)?;
        writeln!(f, "  base {}, levels {:?}", self.base, self.levels)?;
        writeln!(f, "  from {} to {}, ends {:?}", self.from, self.to, self.ends)?;
        writeln!(f, "  combining classes {:?}, flags {:?}", self.combining, self.flags)?;
        write!(f, "  room for the order {}", self.order_room)
    }
}
