//! The library under test, called through its Rust crate and so through the boundary that C calls too.
//! Nothing else here calls it, so a fault put into this file stands between the library and every test.
use second::{Ordered, Refused};

pub fn cut(classes: &[u8]) -> Result<usize, Refused> {
    melvorash::cut(classes).map_err(refused)
}

pub fn cut_part(classes: &[u8]) -> &[u8] {
    melvorash::cut_part(classes)
}

pub fn base(classes: &[u8]) -> Result<Option<u8>, Refused> {
    melvorash::base(classes).map_err(refused)
}

pub fn explicit_levels(classes: &[u8], request: u8, fallback: u8, levels: &mut [u8]) -> Result<u8, Refused> {
    melvorash::explicit_levels(classes, request, fallback, levels).map_err(refused)
}

pub fn resolve_levels(classes: &[u8], request: u8, fallback: u8, levels: &mut [u8]) -> Result<u8, Refused> {
    melvorash::resolve_levels(classes, request, fallback, levels).map_err(refused)
}

pub fn order_line(
    classes: &[u8],
    levels: &[u8],
    base: u8,
    from: usize,
    to: usize,
    order: &mut [u16],
) -> Result<Ordered, Refused> {
    melvorash::order_line(classes, levels, base, from, to, order).map(ordered).map_err(refused)
}

pub fn order_lines(
    classes: &[u8],
    levels: &[u8],
    base: u8,
    ends: &[u16],
    order: &mut [u16],
) -> Result<Ordered, Refused> {
    melvorash::order_lines(classes, levels, base, ends, order).map(ordered).map_err(refused)
}

pub fn marks(classes: &[u8], flags: &[u8], order: &mut [u16]) -> Result<usize, Refused> {
    melvorash::marks(classes, flags, order).map_err(refused)
}

fn ordered(answer: melvorash::Ordered) -> Ordered {
    Ordered { placed: answer.placed, reversed: answer.reversed }
}

fn refused(refusal: melvorash::Refusal) -> Refused {
    (refusal.number() as u8, refusal.place())
}
