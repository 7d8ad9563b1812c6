//! The embedding levels and the order of bidirectional text, by section 3.12 of the Unicode Standard 3.0, and
//! the drawing order of Arabic marks ([`marks`]), by Unicode Standard Annex #53.
//!
//! A paragraph is lent as the numbers of its [`Class`]es, one byte for each position. Resolve its levels,
//! choose where its lines end, and order each line:
//!
//! ```
//! use melvorash::Class::{EN, ET, R, WS};
//!
//! let classes = [R, WS, EN, ET].map(melvorash::Class::number);
//! let (mut levels, mut order) = ([0; 4], [0; 4]);
//! let base = melvorash::resolve_levels(&classes, melvorash::BY_TEXT, 0, &mut levels)?;
//! let line = melvorash::order_line(&classes, &levels, base, 0, 4, &mut order)?;
//! assert_eq!((base, levels), (1, [1, 1, 2, 2]));
//! assert_eq!(order[..line.placed], [2, 3, 1, 0]);
//! assert_eq!(line.reversed, 6);
//! # Ok::<(), melvorash::Refusal>(())
//! ```
//!
//! Every function takes any input whatever. What it cannot take it refuses, and then it has altered nothing.
#![deny(missing_docs, unsafe_code)]

#[allow(unsafe_code)]
mod boundary;
mod class;
mod ordered;
mod refusal;

pub use class::Class;
pub use ordered::Ordered;
pub use refusal::Refusal;

use refusal::{order_outcome, outcome};

/// The request for base level 0.
pub const LEFT_TO_RIGHT: u8 = 0;
/// The request for base level 1.
pub const RIGHT_TO_LEFT: u8 = 1;
/// The request for the base level that the first L, R or AL of the text asks for, or else the default.
pub const BY_TEXT: u8 = 2;
/// The level of a removed position, one of class LRE, LRO, RLE, RLO, PDF or BN.
pub const REMOVED: u8 = 255;
/// The most positions that a paragraph may have, and the most characters that [`marks`] takes.
pub const LONGEST: usize = 4096;

/// The length of the first paragraph. It ends after the first B or CR, or where the classes end; where a B
/// follows the CR directly it ends after that B.
///
/// ```
/// use melvorash::Class::{B, CR, L, R};
///
/// let classes = [L, CR, B, R].map(melvorash::Class::number);
/// assert_eq!(melvorash::cut(&classes), Ok(3));
/// ```
pub fn cut(classes: &[u8]) -> Result<usize, Refusal> {
    outcome(boundary::cut(classes))
}

/// The first paragraph as a part of the lent classes, empty exactly where [`cut`] refuses.
pub fn cut_part(classes: &[u8]) -> &[u8] {
    &classes[..cut(classes).unwrap_or(0)]
}

/// The base level of one paragraph by its text, 0 or 1, or none found where it has no L, R or AL.
///
/// ```
/// use melvorash::Class::{AL, EN, WS};
///
/// assert_eq!(melvorash::base(&[EN, WS, AL].map(melvorash::Class::number)), Ok(Some(1)));
/// assert_eq!(melvorash::base(&[EN, WS].map(melvorash::Class::number)), Ok(None));
/// ```
pub fn base(classes: &[u8]) -> Result<Option<u8>, Refusal> {
    level(boundary::base(classes)).map(|found| (found != boundary::NONE_FOUND).then_some(found))
}

/// Writes a level for each position as it stands after X1 to X9, and nothing after them. Answers the base
/// level used: the request itself, or by the text what [`base`] finds, or else `fallback`, the default. That is
/// 0 or 1 with every request, also where it is not used.
pub fn explicit_levels(classes: &[u8], request: u8, fallback: u8, levels: &mut [u8]) -> Result<u8, Refusal> {
    level(boundary::explicit(classes, request, fallback, levels))
}

/// Writes a level for each position as it stands after I1 and I2, and nothing after them. Request, default and
/// answer are those of [`explicit_levels`].
///
/// ```
/// // a number alone: its base level is the default
/// let classes = [melvorash::Class::EN.number()];
/// let mut levels = [0];
/// let base = melvorash::resolve_levels(&classes, melvorash::BY_TEXT, 1, &mut levels)?;
/// assert_eq!((base, levels), (1, [2]));
/// # Ok::<(), melvorash::Refusal>(())
/// ```
pub fn resolve_levels(classes: &[u8], request: u8, fallback: u8, levels: &mut [u8]) -> Result<u8, Refusal> {
    level(boundary::resolve(classes, request, fallback, levels))
}

/// Writes the kept positions of the line `from..to` from left to right, and nothing after them. Takes the
/// levels and the base level that [`resolve_levels`] gave. Answers how many positions were written, and how many
/// were reversed.
///
/// ```
/// use melvorash::Class::{EN, R};
///
/// // the pass at level 2 reverses the number's two digits, and the pass at level 1 all three positions
/// let classes = [R, EN, EN].map(melvorash::Class::number);
/// let mut order = [0; 3];
/// let line = melvorash::order_line(&classes, &[1, 2, 2], 1, 0, 3, &mut order)?;
/// assert_eq!((line.placed, order), (3, [1, 2, 0]));
/// assert_eq!(line.reversed, 5);
/// # Ok::<(), melvorash::Refusal>(())
/// ```
pub fn order_line(
    classes: &[u8],
    levels: &[u8],
    base: u8,
    from: usize,
    to: usize,
    order: &mut [u16],
) -> Result<Ordered, Refusal> {
    order_outcome(boundary::order_line(classes, levels, base, from, to, order))
}

/// The same for all lines: `ends` holds the position after each line's last, the last of them the
/// paragraph's length. Each line's order follows the one before, and each of the two numbers is the lines' sum.
pub fn order_lines(
    classes: &[u8],
    levels: &[u8],
    base: u8,
    ends: &[u16],
    order: &mut [u16],
) -> Result<Ordered, Refusal> {
    order_outcome(boundary::order_lines(classes, levels, base, ends, order))
}

/// Writes the positions of decomposed characters in the order in which their marks are drawn, from the inside
/// out, and nothing after them. Answers how many, which is all of them.
///
/// `classes` are combining classes here, any bytes, and a flag is not 0 for the annex's modifier combining
/// marks. After canonical ordering, in each longest stretch of classes that are not 0, class 33 goes to the
/// beginning; before it go those of class 230 up to the first that is not flagged, and before these the same
/// of class 220. Nothing moves past a character of class 0.
///
/// ```
/// // a letter, damma, shadda and hamza above, which is a modifier mark: damma is drawn last
/// let mut order = [0; 4];
/// let drawn = melvorash::marks(&[0, 31, 33, 230], &[0, 0, 0, 1], &mut order)?;
/// assert_eq!((drawn, order), (4, [0, 3, 2, 1]));
/// # Ok::<(), melvorash::Refusal>(())
/// ```
pub fn marks(classes: &[u8], flags: &[u8], order: &mut [u16]) -> Result<usize, Refusal> {
    outcome(boundary::marks(classes, flags, order))
}

/// A base level is 0 or 1, and none found is 2, so they fit a byte.
fn level(answer: boundary::Answer) -> Result<u8, Refusal> {
    outcome(answer).map(|level| level as u8)
}
