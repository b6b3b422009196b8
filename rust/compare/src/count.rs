//! Counts of calls by kind and answer.

use crate::call::{Answer, Call, KINDS};

/// The numbers that the rules have answers for.
pub const NUMBERS: [u8; 19] = [
    0, 1, 2, 3, 4, 5, 6, 16, 17, 18, 19, 32, 33, 34, 35, 36, 37, 38, 39,
];

/// How often each number was the answer.
#[derive(Clone, Copy)]
pub struct Answers([u64; 256]);

impl Default for Answers {
    fn default() -> Answers {
        Answers([0; 256])
    }
}

impl Answers {
    pub fn add(&mut self, number: u8) {
        self.0[usize::from(number)] += 1;
    }

    pub fn of(&self, number: u8) -> u64 {
        self.0[usize::from(number)]
    }

    pub fn total(&self) -> u64 {
        self.0.iter().sum()
    }
}

#[derive(Default)]
pub struct Counts {
    by_kind: [Answers; KINDS.len()],
    total: u64,
}

impl Counts {
    pub fn add(&mut self, call: &Call, answer: &Answer) {
        self.by_kind[call.kind()].add(answer.number);
        self.total += 1;
    }

    pub fn total(&self) -> u64 {
        self.total
    }

    fn of(&self, number: u8) -> u64 {
        self.by_kind.iter().map(|answers| answers.of(number)).sum()
    }

    /// Numbers that no call was answered with.
    pub fn missing(&self) -> Vec<u8> {
        NUMBERS
            .into_iter()
            .filter(|number| self.of(*number) == 0)
            .collect()
    }

    /// A line for each number, with the kinds of call it answered, and one for
    /// each kind.
    pub fn print(&self) {
        for number in NUMBERS {
            let mut line = format!("answer {number:2}: {:9} ", self.of(number));
            for (kind, answers) in KINDS.iter().zip(&self.by_kind) {
                match answers.of(number) {
                    0 => {}
                    count => line.push_str(&format!(" {kind} {count}")),
                }
            }
            println!("{line}");
        }
        for (kind, answers) in KINDS.iter().zip(&self.by_kind) {
            println!("call {kind:12}: {:9}", answers.total());
        }
    }
}
