//! The explicit codes: X1 to X9. The stack has one entry for every code that
//! is not yet matched by a PDF, the invalid ones included.

use crate::classes::{is_removed, B, CR, L, LRE, LRO, PDF, R, RLE, RLO};

/// The highest level a code may ask for.
const HIGHEST_EXPLICIT: u8 = 61;

/// A position of the paragraph on its way through the rules.
pub struct Position {
    /// Where it stands in the paragraph.
    pub place: usize,
    /// The class it came with.
    pub original: u8,
    /// The class it has now.
    pub class: u8,
    /// The level it has now.
    pub level: u8,
}

/// The directional override status (BD6).
#[derive(Clone, Copy)]
enum Status {
    Neutral,
    Right,
    Left,
}

/// A code still waiting for its PDF.
enum Entry {
    /// It took effect; this is what held before it.
    Valid { level: u8, status: Status },
    /// It did not take effect.
    Invalid,
}

/// What is known between two characters.
struct State {
    level: u8,
    status: Status,
    stack: Vec<Entry>,
}

/// X1: begin at the paragraph's level, with no override and nothing to match.
fn x1(base: u8) -> State {
    State {
        level: base,
        status: Status::Neutral,
        stack: Vec::new(),
    }
}

/// X2: RLE asks for the least greater odd level, without override.
fn x2(state: &mut State) {
    let asked = least_greater_odd(state.level);
    enter(state, asked, Status::Neutral);
}

/// X3: LRE asks for the least greater even level, without override.
fn x3(state: &mut State) {
    let asked = least_greater_even(state.level);
    enter(state, asked, Status::Neutral);
}

/// X4: RLO asks for the least greater odd level, and overrides to R.
fn x4(state: &mut State) {
    let asked = least_greater_odd(state.level);
    enter(state, asked, Status::Right);
}

/// X5: LRO asks for the least greater even level, and overrides to L.
fn x5(state: &mut State) {
    let asked = least_greater_even(state.level);
    enter(state, asked, Status::Left);
}

/// X6: any character that is no code takes the current level and, while an
/// override holds, the override's direction as its class.
fn x6(state: &State, position: &mut Position) {
    position.level = state.level;
    match state.status {
        Status::Neutral => {}
        Status::Right => position.class = R,
        Status::Left => position.class = L,
    }
}

/// X7: a PDF matches the nearest earlier code not yet matched. If that code
/// was valid, what held before it holds again; if it was invalid, or if there
/// is none, nothing changes.
fn x7(state: &mut State) {
    match state.stack.pop() {
        Some(Entry::Valid { level, status }) => {
            state.level = level;
            state.status = status;
        }
        Some(Entry::Invalid) => {}
        None => {}
    }
}

/// X8: the end of the paragraph ends all codes. The separator itself, each of
/// CR and B where it is the pair, stands outside them: it is at the paragraph's
/// level and stays what it is.
fn x8(state: &mut State, base: u8, position: &mut Position) {
    *state = x1(base);
    position.level = base;
    position.class = position.original;
}

/// X9: take out all codes, PDF and BN. The original class decides, so a BN that
/// an override has changed goes as well.
fn x9(all: Vec<Position>) -> Vec<Position> {
    let mut kept = Vec::new();
    for position in all {
        if !is_removed(position.original) {
            kept.push(position);
        }
    }
    kept
}

/// X1 to X9 over one paragraph; answers the kept positions in memory order.
pub fn explicit(classes: &[u8], base: u8) -> Vec<Position> {
    let mut state = x1(base);
    let mut all = Vec::new();
    for (place, &original) in classes.iter().enumerate() {
        let mut position = Position {
            place,
            original,
            class: original,
            level: state.level,
        };
        match original {
            RLE => x2(&mut state),
            LRE => x3(&mut state),
            RLO => x4(&mut state),
            LRO => x5(&mut state),
            PDF => x7(&mut state),
            B | CR => x8(&mut state, base, &mut position),
            _ => x6(&state, &mut position),
        }
        all.push(position);
    }
    x9(all)
}

/// Parts a and b of X2 to X5: a code whose level is at most 61 is valid, what
/// held before it is remembered and the new level and status hold from here;
/// any other code is invalid and only waits for its PDF.
fn enter(state: &mut State, asked: u8, status: Status) {
    if asked <= HIGHEST_EXPLICIT {
        state.stack.push(Entry::Valid {
            level: state.level,
            status: state.status,
        });
        state.level = asked;
        state.status = status;
    } else {
        state.stack.push(Entry::Invalid);
    }
}

/// The least odd number above the level.
fn least_greater_odd(level: u8) -> u8 {
    let mut asked = level + 1;
    while asked % 2 != 1 {
        asked += 1;
    }
    asked
}

/// The least even number above the level.
fn least_greater_even(level: u8) -> u8 {
    let mut asked = level + 1;
    while asked % 2 != 0 {
        asked += 1;
    }
    asked
}
