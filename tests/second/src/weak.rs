//! The weak types: W1 to W7. Each function takes the types of one whole run.

use crate::classes::{AL, AN, CS, EN, ES, ET, L, NSM, ON, R};

/// W1: an NSM takes the type of the character before it in the run; the first
/// character of the run takes the type that stands before the run.
pub fn w1(types: &mut [u8], sor: u8) {
    for i in 0..types.len() {
        if types[i] == NSM {
            types[i] = if i == 0 { sor } else { types[i - 1] };
        }
    }
}

/// W2: an EN becomes AN if, looking back from it, AL is the first strong type
/// met.
pub fn w2(types: &mut [u8], sor: u8) {
    for i in 0..types.len() {
        if types[i] == EN && strong_before(types, i, sor) == AL {
            types[i] = AN;
        }
    }
}

/// W3: every AL becomes R.
pub fn w3(types: &mut [u8]) {
    for class in types {
        if *class == AL {
            *class = R;
        }
    }
}

/// W4: a single ES with an EN on both sides becomes EN; a single CS with two
/// numbers of the same type at its sides becomes that type.
pub fn w4(types: &mut [u8]) {
    for i in 1..types.len() {
        if i + 1 == types.len() {
            break;
        }
        let before = types[i - 1];
        let after = types[i + 1];
        if before != after {
            continue;
        }
        if types[i] == ES && before == EN {
            types[i] = EN;
        }
        if types[i] == CS && (before == EN || before == AN) {
            types[i] = before;
        }
    }
}

/// W5: a whole stretch of ET becomes EN if an EN stands right before or right
/// after it.
pub fn w5(types: &mut [u8]) {
    let mut start = 0;
    while start < types.len() {
        if types[start] != ET {
            start += 1;
            continue;
        }
        let mut end = start;
        while end < types.len() && types[end] == ET {
            end += 1;
        }
        let touches_before = start > 0 && types[start - 1] == EN;
        let touches_after = end < types.len() && types[end] == EN;
        if touches_before || touches_after {
            for slot in &mut types[start..end] {
                *slot = EN;
            }
        }
        start = end;
    }
}

/// W6: whatever is still ES, ET or CS becomes ON.
pub fn w6(types: &mut [u8]) {
    for class in types {
        if *class == ES || *class == ET || *class == CS {
            *class = ON;
        }
    }
}

/// W7: an EN becomes L if, looking back from it, L is the first strong type
/// met.
pub fn w7(types: &mut [u8], sor: u8) {
    for i in 0..types.len() {
        if types[i] == EN && strong_before(types, i, sor) == L {
            types[i] = L;
        }
    }
}

/// The nearest R, L or AL before place `i` of the run, or else the type that
/// stands before the run.
fn strong_before(types: &[u8], i: usize, sor: u8) -> u8 {
    let mut j = i;
    while j > 0 {
        j -= 1;
        if types[j] == R || types[j] == L || types[j] == AL {
            return types[j];
        }
    }
    sor
}
