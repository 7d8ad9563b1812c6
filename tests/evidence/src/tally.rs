//! What was compared, and what differed.
use crate::call::{Answer, Job, NONE_FOUND};
use second::Refused;

/// How many differences are printed; all are counted.
const MOST_SHOWN: u64 = 20;

#[derive(Default)]
pub struct Tally {
    /// Calls that were made of both programs.
    pub calls: u64,
    pub differences: u64,
    /// How often the library's Base found none.
    pub none_found: u64,
    /// How often the library's Order counted more reversals than 16 bits hold, and the most that it counted.
    wide_counts: u64,
    most_reversed: usize,
    /// How often the library gave each refusal, by its number.
    refusals: [u64; 17],
}

impl Tally {
    pub fn count_answer(&mut self, job: Job, library: Result<Answer, Refused>) {
        self.calls += 1;
        self.none_found += u64::from(job == Job::Base && library == Ok(NONE_FOUND));
        match library {
            Ok(answer) => self.count_reversed(answer.reversed.unwrap_or(0)),
            Err((number, _)) => {
                if let Some(count) = self.refusals.get_mut(usize::from(number)) {
                    *count += 1;
                }
            }
        }
    }

    fn count_reversed(&mut self, reversed: usize) {
        self.wide_counts += u64::from(reversed > usize::from(u16::MAX));
        self.most_reversed = self.most_reversed.max(reversed);
    }

    pub fn differ(&mut self, what: impl FnOnce() -> String) {
        self.differences += 1;
        if self.differences <= MOST_SHOWN {
            println!("different: {}", what());
        }
    }

    /// What was seen of the counts of the reversals.
    pub fn reversals_met(&self) -> String {
        format!("counts above 16 bits {}, the highest {}", self.wide_counts, self.most_reversed)
    }

    /// The counts of the refusals of these numbers.
    pub fn refusals_met(&self, numbers: impl IntoIterator<Item = usize>) -> String {
        let count = |number: usize| self.refusals[number].to_string();
        numbers.into_iter().map(count).collect::<Vec<String>>().join(" ")
    }
}
