//! Runs the Unicode consortium's BidiTest file against this program.
//!
//! Usage: `biditest <path of the file>`
//!
//! Each row is one paragraph and one line of display. A row counts as one case
//! for each direction of its bit set. In every case the levels after L1 (`x`
//! where removed) and the order must be those the file gives. A refusal counts
//! as a difference; so a row with B before its last position, of which the
//! edition in use has none, would be shown and not passed over.
//!
//! Ends with 0 only if the file was read wholly and no case differs.

use std::process::ExitCode;

use second::{line_levels, order_line, resolve_levels};

/// How many differing cases are shown one by one.
const MOST_SHOWN: usize = 100;

/// What a level buffer holds at a removed position; `x` in the file.
const REMOVED: u8 = 255;

/// The file's auto direction is left to right where the text gives none.
const DEFAULT: u8 = 0;

/// The directions of the bit set: bit, request, name.
const DIRECTIONS: [(u32, u8, &str); 3] = [(1, 2, "by text"), (2, 0, "LTR"), (4, 1, "RTL")];

/// What the file says and what has been counted so far.
#[derive(Default)]
struct Progress {
    levels: Option<Vec<u8>>,
    order: Option<Vec<u16>>,
    stated_rows: Option<usize>,
    rows: usize,
    cases: usize,
    different: usize,
    rows_with_inner_b: usize,
}

/// A row of the file: its classes and its bit set.
struct Row {
    classes: Vec<u8>,
    bits: u32,
}

fn main() -> ExitCode {
    let path = match std::env::args().nth(1) {
        Some(path) => path,
        None => return fail("usage: biditest <path of the BidiTest file>"),
    };
    let text = match std::fs::read_to_string(&path) {
        Ok(text) => text,
        Err(error) => return fail(&format!("{path}: {error}")),
    };
    let mut progress = Progress::default();
    for (index, line) in text.lines().enumerate() {
        if let Err(message) = take_line(&mut progress, line.trim(), index + 1) {
            return fail(&format!("line {}: {message}", index + 1));
        }
    }
    conclude(&progress)
}

/// Prints the message and gives the exit code of a run that failed.
fn fail(message: &str) -> ExitCode {
    eprintln!("{message}");
    ExitCode::FAILURE
}

/// Prints the counts and decides how the run ends.
fn conclude(progress: &Progress) -> ExitCode {
    println!("rows {}", progress.rows);
    println!("cases {}", progress.cases);
    println!(
        "rows with B before the last position {}",
        progress.rows_with_inner_b
    );
    println!("different {}", progress.different);
    if progress.cases == 0 {
        return fail("the file has no cases");
    }
    if progress.stated_rows != Some(progress.rows) {
        return fail("the file's own total count is missing or is not the number of rows");
    }
    if progress.different != 0 {
        return ExitCode::FAILURE;
    }
    ExitCode::SUCCESS
}

/// Takes one line of the file, without blanks at its ends.
fn take_line(progress: &mut Progress, line: &str, number: usize) -> Result<(), String> {
    if let Some(rest) = line.strip_prefix("#Total Count:") {
        let stated = rest.trim().parse::<usize>();
        progress.stated_rows = Some(stated.map_err(|error| error.to_string())?);
    } else if let Some(rest) = line.strip_prefix("@Levels:") {
        progress.levels = Some(read_levels(rest)?);
    } else if let Some(rest) = line.strip_prefix("@Reorder:") {
        progress.order = Some(read_order(rest)?);
    } else if !line.is_empty() && !line.starts_with('#') && !line.starts_with('@') {
        let row = read_row(line)?;
        run_row(progress, &row, line, number)?;
    }
    Ok(())
}

/// The levels of an `@Levels` line.
fn read_levels(rest: &str) -> Result<Vec<u8>, String> {
    let mut levels = Vec::new();
    for word in rest.split_whitespace() {
        if word == "x" {
            levels.push(REMOVED);
        } else {
            levels.push(word.parse().map_err(|_| format!("level {word}"))?);
        }
    }
    Ok(levels)
}

/// The places of an `@Reorder` line.
fn read_order(rest: &str) -> Result<Vec<u16>, String> {
    let mut order = Vec::new();
    for word in rest.split_whitespace() {
        order.push(word.parse().map_err(|_| format!("place {word}"))?);
    }
    Ok(order)
}

/// A data line: class names, a semicolon, a bit set in hexadecimal.
fn read_row(line: &str) -> Result<Row, String> {
    let (names, bits) = line.split_once(';').ok_or("no semicolon")?;
    let mut classes = Vec::new();
    for name in names.split_whitespace() {
        classes.push(class_number(name).ok_or(format!("class {name}"))?);
    }
    let bits = u32::from_str_radix(bits.trim(), 16).map_err(|error| error.to_string())?;
    if bits == 0 || bits > 7 {
        return Err(format!("bit set {bits}"));
    }
    Ok(Row { classes, bits })
}

/// The class number of document 01 for a name of the file.
fn class_number(name: &str) -> Option<u8> {
    let number = match name {
        "L" => 0,
        "LRE" => 1,
        "LRO" => 2,
        "R" => 3,
        "AL" => 4,
        "RLE" => 5,
        "RLO" => 6,
        "PDF" => 7,
        "EN" => 8,
        "ES" => 9,
        "ET" => 10,
        "AN" => 11,
        "CS" => 12,
        "NSM" => 13,
        "BN" => 14,
        "B" => 15,
        "S" => 16,
        "WS" => 17,
        "ON" => 18,
        _ => return None,
    };
    Some(number)
}

/// Runs one row in each direction of its bit set and counts.
fn run_row(progress: &mut Progress, row: &Row, line: &str, number: usize) -> Result<(), String> {
    let levels = progress
        .levels
        .as_ref()
        .ok_or("no levels before this row")?;
    let order = progress.order.as_ref().ok_or("no order before this row")?;
    progress.rows += 1;
    if row.classes[..row.classes.len().saturating_sub(1)].contains(&15) {
        progress.rows_with_inner_b += 1;
    }
    for (bit, request, name) in DIRECTIONS {
        if row.bits & bit == 0 {
            continue;
        }
        progress.cases += 1;
        let wanted = (levels.clone(), order.clone());
        let found = run_case(&row.classes, request);
        if found.as_ref() != Ok(&wanted) {
            progress.different += 1;
            if progress.different <= MOST_SHOWN {
                println!("line {number}, {name}: {line}");
                println!("  wanted {wanted:?}");
                println!("  found  {found:?}");
            }
        }
    }
    Ok(())
}

/// The levels after L1 and the order of the whole row as one line.
fn run_case(classes: &[u8], request: u8) -> Result<(Vec<u8>, Vec<u16>), second::Refused> {
    let length = classes.len();
    let mut levels = vec![0; length];
    let base = resolve_levels(classes, request, DEFAULT, &mut levels)?;
    let mut order = vec![0; length];
    let ordered = order_line(classes, &levels, base, 0, length, &mut order)?;
    order.truncate(ordered.placed);
    Ok((line_levels(classes, &levels, base, 0, length), order))
}
