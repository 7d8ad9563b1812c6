//! The Unicode consortium's BidiTest file: every row as one paragraph and one line, in every direction of its
//! bit set. The file gives levels after L1, which the library does not give out, so its resolved levels get
//! the second program's L1. It gives no count of the reversals, but by the law of the sum its levels do. A
//! refusal is a difference too, so a row with B before its last position would be one; edition 6.2.0 has none.
use crate::classes;
use crate::program::{Program, LIBRARY, SECOND};
use crate::sum;
use crate::tally::Tally;
use second::{Ordered, Refused};

/// The file's auto direction is left to right where the text gives none.
const DEFAULT: u8 = 0;
/// The bits of a row's set, the request that each stands for, and its name.
const DIRECTIONS: [(u8, u8, &str); 3] = [(1, 2, "by text"), (2, 0, "left to right"), (4, 1, "right to left")];

/// The levels after L1, the order of the whole row as one line, and how many positions were reversed for it.
#[derive(Debug, Default, PartialEq)]
struct Displayed {
    levels: Vec<u8>,
    order: Vec<u16>,
    reversed: usize,
}

#[derive(Default)]
struct Counts {
    rows: usize,
    cases: usize,
    separators_inside: usize,
    /// what the file itself says of how many rows it has
    stated_rows: Option<usize>,
    library: Tally,
    second: Tally,
}

pub fn run(path: &str) -> Result<bool, String> {
    let text = std::fs::read_to_string(path).map_err(|error| format!("{path}: {error}"))?;
    let mut wanted = Displayed::default();
    let mut counts = Counts::default();
    for (index, line) in text.lines().enumerate() {
        take_line(&mut wanted, &mut counts, line, index + 1)
            .ok_or_else(|| format!("{path}: line {}: {line} is not of the format", index + 1))?;
    }
    println!(
        "biditest: {} rows ({} with B before the last position), {} cases; \
         differences: library {}, second program {}",
        counts.rows,
        counts.separators_inside,
        counts.cases,
        counts.library.differences,
        counts.second.differences
    );
    if counts.stated_rows != Some(counts.rows) {
        return Err(format!("{path}: the file's own count of its rows is {:?}", counts.stated_rows));
    }
    Ok(counts.library.differences + counts.second.differences == 0)
}

/// Nothing where the line is not of the file's format.
fn take_line(wanted: &mut Displayed, counts: &mut Counts, line: &str, number: usize) -> Option<()> {
    if let Some(levels) = line.strip_prefix("@Levels:") {
        wanted.levels = levels.split_whitespace().map(level).collect::<Option<_>>()?;
        wanted.reversed = sum::of_line(&wanted.levels);
    } else if let Some(order) = line.strip_prefix("@Reorder:") {
        wanted.order = order.split_whitespace().map(|place| place.parse().ok()).collect::<Option<_>>()?;
    } else if let Some(total) = line.strip_prefix("#Total Count:") {
        counts.stated_rows = Some(total.trim().parse().ok()?);
    } else if !line.is_empty() && !line.starts_with('#') {
        let (names, bits) = line.split_once(';')?;
        let row: Vec<u8> = names.split_whitespace().map(classes::number).collect::<Option<_>>()?;
        let bits = u8::from_str_radix(bits.trim(), 16).ok().filter(|bits| (1..=7).contains(bits))?;
        try_row(wanted, counts, &row, bits, number);
    }
    Some(())
}

fn level(word: &str) -> Option<u8> {
    match word {
        "x" => Some(classes::REMOVED_LEVEL),
        _ => word.parse().ok(),
    }
}

fn try_row(wanted: &Displayed, counts: &mut Counts, row: &[u8], bits: u8, number: usize) {
    counts.rows += 1;
    counts.separators_inside += usize::from(row.iter().rev().skip(1).any(|&class| class == classes::B));
    for (_, request, direction) in DIRECTIONS.iter().filter(|(bit, ..)| bits & bit != 0) {
        counts.cases += 1;
        let programs = [("library", &LIBRARY, &mut counts.library), ("second", &SECOND, &mut counts.second)];
        for (program_name, program, tally) in programs {
            let found = displayed(program, row, *request);
            if found.as_ref() != Ok(wanted) {
                let names = classes::named(row);
                let place = format!("{program_name}, line {number}, {direction}");
                tally.differ(|| format!("{place}: {names}\n  wanted {wanted:?}\n  found {found:?}"));
            }
        }
    }
}

fn displayed(program: &Program, classes: &[u8], request: u8) -> Result<Displayed, Refused> {
    let length = classes.len();
    let mut levels = vec![0; length];
    let mut order = vec![0; length];
    let base = (program.resolve_levels)(classes, request, DEFAULT, &mut levels)?;
    let Ordered { placed, reversed } = (program.order_line)(classes, &levels, base, 0, length, &mut order)?;
    order.truncate(placed);
    Ok(Displayed { levels: second::line_levels(classes, &levels, base, 0, length), order, reversed })
}
