use crate::boundary::{Answer, OrderAnswer};
use crate::Ordered;
use std::fmt;

/// Why a call was refused. Then no lent buffer has changed. A position is held where one is at fault: the
/// first such from the left.
///
/// Where several apply, the first in this order is given: 1, 3, then 2 or 4 at the first faulty position, then
/// 5, 6, 7, 8 or 10, 9; the marks have 1, 3 and 16 alone. [`crate::cut`] gives 1, and then walks from the first
/// position over at most 4,096: 2 where an unknown class comes before any B or CR, also where more than 4,096
/// classes are lent; the first B or CR among them ends the paragraph, a CR together with a B directly after it,
/// whatever follows; 3 where there is none and more follow, or where the 4,096th is a CR and a B follows it.
#[derive(Clone, Copy, Debug, PartialEq, Eq, Hash)]
pub enum Refusal {
    /// There are no classes.
    NoClasses,
    /// A class is above 19.
    UnknownClass(usize),
    /// There are more than 4,096 positions or characters.
    TooLong,
    /// B or CR stands before the last position, and is no CR that a last B follows directly.
    EarlySeparator(usize),
    /// The base request is above 2, or the default above 1 with any request, or the base of an order above 1.
    BadBase,
    /// The level buffer has fewer positions than the paragraph.
    ShortLevels,
    /// A lent level is not 0 to 62 on a kept position, or not 255 on a removed one.
    BadLevel(usize),
    /// The line's `from` is not below its `to`, or its `to` is beyond the paragraph.
    BadLine,
    /// The order buffer is shorter than the line, or than the paragraph for all lines.
    ShortOrder,
    /// The ends are none, begin with 0, do not rise strictly, or their last is not the paragraph's length.
    BadEnds,
    /// There are fewer flags or places of the order than characters.
    ShortBuffer,
}

impl Refusal {
    /// The number of the refusal, 1 to 10 or 16.
    pub fn number(self) -> usize {
        match self {
            Refusal::NoClasses => 1,
            Refusal::UnknownClass(_) => 2,
            Refusal::TooLong => 3,
            Refusal::EarlySeparator(_) => 4,
            Refusal::BadBase => 5,
            Refusal::ShortLevels => 6,
            Refusal::BadLevel(_) => 7,
            Refusal::BadLine => 8,
            Refusal::ShortOrder => 9,
            Refusal::BadEnds => 10,
            Refusal::ShortBuffer => 16,
        }
    }

    /// The position at fault, and 0 where none is.
    pub fn place(self) -> usize {
        match self {
            Refusal::UnknownClass(at) | Refusal::EarlySeparator(at) | Refusal::BadLevel(at) => at,
            _ => 0,
        }
    }
}

impl fmt::Display for Refusal {
    fn fmt(&self, f: &mut fmt::Formatter<'_>) -> fmt::Result {
        match self {
            Refusal::NoClasses => write!(f, "there are no classes"),
            Refusal::UnknownClass(at) => write!(f, "the class at position {at} is unknown"),
            Refusal::TooLong => write!(f, "there are more than 4,096 positions or characters"),
            Refusal::EarlySeparator(at) => write!(f, "B or CR at position {at} does not end the paragraph"),
            Refusal::BadBase => write!(f, "there is no such request, default or base level"),
            Refusal::ShortLevels => write!(f, "the level buffer is shorter than the paragraph"),
            Refusal::BadLevel(at) => write!(f, "the level at position {at} is none that resolving gives"),
            Refusal::BadLine => write!(f, "the line is empty or goes beyond the paragraph"),
            Refusal::ShortOrder => write!(f, "the order buffer is too short"),
            Refusal::BadEnds => write!(f, "the line ends do not rise to the paragraph's length"),
            Refusal::ShortBuffer => write!(f, "there are fewer flags or places of the order than characters"),
        }
    }
}

impl std::error::Error for Refusal {}

/// The value of an accepted call, or the refusal.
pub(crate) fn outcome(answer: Answer) -> Result<usize, Refusal> {
    told(answer.refusal, answer.place, answer.value)
}

/// The same for an order, which has two values.
pub(crate) fn order_outcome(answer: OrderAnswer) -> Result<Ordered, Refusal> {
    let values = Ordered { placed: answer.value, reversed: answer.reversed };
    told(answer.refusal, answer.place, values)
}

/// The values where the number is 0, and else the refusal that it stands for.
fn told<T>(number: usize, at: usize, values: T) -> Result<T, Refusal> {
    match number {
        0 => Ok(values),
        1 => Err(Refusal::NoClasses),
        2 => Err(Refusal::UnknownClass(at)),
        3 => Err(Refusal::TooLong),
        4 => Err(Refusal::EarlySeparator(at)),
        5 => Err(Refusal::BadBase),
        6 => Err(Refusal::ShortLevels),
        7 => Err(Refusal::BadLevel(at)),
        8 => Err(Refusal::BadLine),
        9 => Err(Refusal::ShortOrder),
        10 => Err(Refusal::BadEnds),
        16 => Err(Refusal::ShortBuffer),
        number => unreachable!("the library gives no refusal {number}"),
    }
}
