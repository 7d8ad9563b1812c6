//! The library beside the second program: the same answer, and every place of the filled buffer the same. And
//! the count of the reversals beside the sum that it is to equal.
use crate::call::{Answer, Input, Job};
use crate::program::{Program, LIBRARY, SECOND};
use crate::sum;
use crate::tally::Tally;
use second::Refused;

/// What a buffer holds where nothing was written; it is no level, and twice it is no position.
pub const UNTOUCHED: u8 = 0xA5;
pub const UNTOUCHED_PLACE: u16 = 0xA5A5;
/// How many places lie after those that are lent.
const BEYOND: usize = 2;

/// What a call answered and left in the buffers that a job may fill, and after them.
#[derive(Debug, PartialEq)]
pub struct Outcome {
    pub answer: Result<Answer, Refused>,
    pub levels: Vec<u8>,
    pub order: Vec<u16>,
}

pub fn outcome(program: &Program, job: Job, input: &Input) -> Outcome {
    let (level_room, order_room) = input.room(job);
    let mut levels = vec![UNTOUCHED; level_room + BEYOND];
    let mut order = vec![UNTOUCHED_PLACE; order_room + BEYOND];
    let answer = input.call(program, job, &mut levels[..level_room], &mut order[..order_room]);
    Outcome { answer, levels, order }
}

/// Both programs on one input; gives what the library did. `name` says where a difference was found.
pub fn compare(tally: &mut Tally, name: &str, job: Job, input: &Input) -> Outcome {
    let library = outcome(&LIBRARY, job, input);
    let second = outcome(&SECOND, job, input);
    tally.count_answer(job, library.answer);
    if library != second {
        tally.differ(|| format!("{name}{job:?}\n{input}\n  library {library:?}\n  second  {second:?}"));
    }
    check_sum(tally, name, job, input, [library.answer, second.answer]);
    library
}

/// The law of the sum on the count that the library answers, the first of the two answers, where both programs
/// take the input.
pub fn check_sum(
    tally: &mut Tally,
    name: &str,
    job: Job,
    input: &Input,
    answers: [Result<Answer, Refused>; 2],
) {
    if let [Ok(Answer { reversed: Some(reversed), .. }), Ok(_)] = answers {
        if !sum::holds(input.lines(job).into_iter().map(|line| input.line_levels(line)), reversed) {
            tally.differ(|| format!("{name}the law of the sum: {job:?} counts {reversed}\n{input}"));
        }
    }
}
