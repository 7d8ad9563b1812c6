//! The exported functions as C has them (`include/melvorash.h`), and a safe call of each.
//!
//! SAFETY, of every call here: a slice is a pointer and a length that fit each other and is aligned; the one
//! `&mut` slice overlaps no other; the library keeps no pointer and takes any numbers whatever.

#[repr(C)]
pub(crate) struct Answer {
    pub(crate) refusal: usize,
    pub(crate) place: usize,
    pub(crate) value: usize,
}

/// The answer of an order: as the other, with one number more.
#[repr(C)]
pub(crate) struct OrderAnswer {
    pub(crate) refusal: usize,
    pub(crate) place: usize,
    pub(crate) value: usize,
    pub(crate) reversed: usize,
}

/// What `base` answers where the paragraph has no strong class.
pub(crate) const NONE_FOUND: u8 = 2;

#[rustfmt::skip]
extern "C" {
    fn melvorash_cut(classes: *const u8, class_count: usize) -> Answer;
    fn melvorash_base(classes: *const u8, class_count: usize) -> Answer;
    fn melvorash_explicit(classes: *const u8, class_count: usize, request: u8, fallback: u8, levels: *mut u8, level_count: usize) -> Answer;
    fn melvorash_resolve(classes: *const u8, class_count: usize, request: u8, fallback: u8, levels: *mut u8, level_count: usize) -> Answer;
    fn melvorash_order_line(classes: *const u8, class_count: usize, levels: *const u8, level_count: usize, base: u8, from: usize, to: usize, order: *mut u16, order_count: usize) -> OrderAnswer;
    fn melvorash_order_lines(classes: *const u8, class_count: usize, levels: *const u8, level_count: usize, base: u8, ends: *const u16, end_count: usize, order: *mut u16, order_count: usize) -> OrderAnswer;
    fn melvorash_marks(classes: *const u8, class_count: usize, flags: *const u8, flag_count: usize, order: *mut u16, order_count: usize) -> Answer;
}

pub(crate) fn cut(classes: &[u8]) -> Answer {
    unsafe { melvorash_cut(classes.as_ptr(), classes.len()) }
}

pub(crate) fn base(classes: &[u8]) -> Answer {
    unsafe { melvorash_base(classes.as_ptr(), classes.len()) }
}

pub(crate) fn explicit(classes: &[u8], request: u8, fallback: u8, levels: &mut [u8]) -> Answer {
    unsafe {
        melvorash_explicit(
            classes.as_ptr(),
            classes.len(),
            request,
            fallback,
            levels.as_mut_ptr(),
            levels.len(),
        )
    }
}

pub(crate) fn resolve(classes: &[u8], request: u8, fallback: u8, levels: &mut [u8]) -> Answer {
    unsafe {
        melvorash_resolve(
            classes.as_ptr(),
            classes.len(),
            request,
            fallback,
            levels.as_mut_ptr(),
            levels.len(),
        )
    }
}

pub(crate) fn order_line(
    classes: &[u8],
    levels: &[u8],
    base: u8,
    from: usize,
    to: usize,
    order: &mut [u16],
) -> OrderAnswer {
    unsafe {
        melvorash_order_line(
            classes.as_ptr(),
            classes.len(),
            levels.as_ptr(),
            levels.len(),
            base,
            from,
            to,
            order.as_mut_ptr(),
            order.len(),
        )
    }
}

pub(crate) fn order_lines(
    classes: &[u8],
    levels: &[u8],
    base: u8,
    ends: &[u16],
    order: &mut [u16],
) -> OrderAnswer {
    unsafe {
        melvorash_order_lines(
            classes.as_ptr(),
            classes.len(),
            levels.as_ptr(),
            levels.len(),
            base,
            ends.as_ptr(),
            ends.len(),
            order.as_mut_ptr(),
            order.len(),
        )
    }
}

pub(crate) fn marks(classes: &[u8], flags: &[u8], order: &mut [u16]) -> Answer {
    unsafe {
        melvorash_marks(
            classes.as_ptr(),
            classes.len(),
            flags.as_ptr(),
            flags.len(),
            order.as_mut_ptr(),
            order.len(),
        )
    }
}
