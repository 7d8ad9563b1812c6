//! Evidence from outside that the library's definitions are right: what the library answers beside the
//! consortium's BidiTest file, beside a second program written apart from it, and beside the law on pairs, the
//! law of the sum and the laws of the marks.
//! Each command prints what it compared, and ends with status 1 where anything differs.
mod biditest;
mod call;
mod classes;
mod compare;
mod exhaustive;
mod generator;
mod guard;
mod law;
mod library;
mod marks;
mod memory;
mod program;
mod random;
mod shapes;
mod spoil;
mod sum;
mod tally;
mod texts;
mod trap;

use std::process::ExitCode;

const USAGE: &str = "evidence biditest FILE
evidence exhaustive
evidence random --seed N --count N [--progress]
evidence marks --seed N --count N [--progress]
evidence guard";

fn main() -> ExitCode {
    let words: Vec<String> = std::env::args().skip(1).collect();
    match run(&words.iter().map(String::as_str).collect::<Vec<&str>>()) {
        Ok(true) => ExitCode::SUCCESS,
        Ok(false) => ExitCode::FAILURE,
        Err(message) => {
            eprintln!("{message}");
            ExitCode::FAILURE
        }
    }
}

/// Whether nothing differed, or why there is no answer.
fn run(words: &[&str]) -> Result<bool, String> {
    match *words {
        ["biditest", file] => biditest::run(file),
        ["exhaustive"] => Ok(exhaustive::run()),
        ["random", ref words @ ..] => Ok(random::run(&options(words)?)),
        ["marks", ref words @ ..] => Ok(marks::run(&options(words)?)),
        ["guard"] => Ok(guard::run()),
        _ => Err(USAGE.to_string()),
    }
}

/// The options of the commands that have random cases.
fn options(words: &[&str]) -> Result<random::Options, String> {
    let (seed, count, progress) = match *words {
        ["--seed", seed, "--count", count] => (seed, count, false),
        ["--seed", seed, "--count", count, "--progress"] => (seed, count, true),
        _ => return Err(USAGE.to_string()),
    };
    let number = |word: &str| word.parse().map_err(|_| format!("{word} is no number"));
    Ok(random::Options { seed: number(seed)?, count: number(count)?, progress })
}
