//! The two programs that are compared, each as a table of its functions.
use crate::library;
use second::{Ordered, Refused};

pub type Levels = fn(&[u8], u8, u8, &mut [u8]) -> Result<u8, Refused>;
pub type OrderLine = fn(&[u8], &[u8], u8, usize, usize, &mut [u16]) -> Result<Ordered, Refused>;
pub type OrderLines = fn(&[u8], &[u8], u8, &[u16], &mut [u16]) -> Result<Ordered, Refused>;
pub type Marks = fn(&[u8], &[u8], &mut [u16]) -> Result<usize, Refused>;

pub struct Program {
    pub cut: fn(&[u8]) -> Result<usize, Refused>,
    pub cut_part: fn(&[u8]) -> &[u8],
    pub base: fn(&[u8]) -> Result<Option<u8>, Refused>,
    pub explicit_levels: Levels,
    pub resolve_levels: Levels,
    pub order_line: OrderLine,
    pub order_lines: OrderLines,
    pub marks: Marks,
}

pub const LIBRARY: Program = Program {
    cut: library::cut,
    cut_part: library::cut_part,
    base: library::base,
    explicit_levels: library::explicit_levels,
    resolve_levels: library::resolve_levels,
    order_line: library::order_line,
    order_lines: library::order_lines,
    marks: library::marks,
};

pub const SECOND: Program = Program {
    cut: second::cut,
    cut_part: second::cut_part,
    base: second::base,
    explicit_levels: second::explicit_levels,
    resolve_levels: second::resolve_levels,
    order_line: second::order_line,
    order_lines: second::order_lines,
    marks: second::marks,
};
