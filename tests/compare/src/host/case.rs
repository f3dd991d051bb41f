//! The bytes of a C call: what it is handed and what it leaves.

use crate::protocol::{words_of_access, Call, Request};
use reference::host;

/// The three runs of a call.
#[derive(Clone, Debug, PartialEq, Eq)]
pub struct Runs {
    pub registers: Vec<u8>,
    pub buffer: Vec<u8>,
    pub tables: Vec<u8>,
}

#[derive(Clone, Debug)]
pub struct Case {
    pub call: Call,
    pub runs: Runs,
}

#[derive(Clone, Debug, PartialEq, Eq)]
pub struct Answer {
    pub number: u64,
    pub runs: Runs,
}

/// What cases are put to whose bytes may hold no whole numbers.
pub trait PutCase {
    fn put_case(&mut self, case: Case);
}

impl Case {
    /// The request with its numbers as bytes; the tables are the run that the call finds.
    pub fn of(request: &Request, tables: &[u32]) -> Case {
        Case {
            call: request.call,
            runs: Runs {
                registers: bytes_of_words(&request.registers),
                buffer: bytes_of_numbers(&request.buffer),
                tables: bytes_of_words(tables),
            },
        }
    }

    pub fn to_bytes(&self) -> Vec<u8> {
        let arguments = match self.call {
            Call::Raw(access) => words_of_access(0, access),
            Call::Served(access) => words_of_access(1, access),
            Call::Store { index, value } => [2, index, value, 0, 0],
            Call::Start => [3, 0, 0, 0, 0],
            Call::Setting { number, value } => [4, number, value, 0, 0],
            other => panic!("{other:?} is no C call"),
        };
        let Runs {
            registers,
            buffer,
            tables,
        } = &self.runs;
        let lengths = [registers, buffer, tables].map(|run| run.len() as u32);
        let mut bytes = bytes_of_words(&arguments);
        bytes.extend(bytes_of_words(&lengths));
        for run in [registers, buffer, tables] {
            bytes.extend(run);
        }
        bytes
    }

    pub fn answer_bytes(&self) -> usize {
        8 + self.runs.registers.len() + self.runs.buffer.len() + self.runs.tables.len()
    }

    /// What the second program answers.
    pub fn expected(&self) -> Answer {
        let mut runs = self.runs.clone();
        let Runs {
            registers,
            buffer,
            tables,
        } = &mut runs;
        let number = match self.call {
            Call::Raw(access) => host::raw_access(
                registers,
                buffer,
                access.address,
                access.user,
                access.write,
                access.draw,
            ),
            Call::Served(access) => host::served_access(
                registers,
                buffer,
                tables,
                access.address,
                access.user,
                access.write,
                access.draw,
            ),
            Call::Store { index, value } => {
                host::table_store(registers, buffer, tables, index, value)
            }
            Call::Start => host::start(registers, buffer),
            Call::Setting { number, value } => host::guarded_setting(registers, number, value),
            other => panic!("{other:?} is no C call"),
        };
        Answer { number, runs }
    }

    /// Takes exactly `answer_bytes` bytes apart.
    pub fn answer_of(&self, bytes: &[u8]) -> Answer {
        let (number, rest) = bytes.split_first_chunk().expect("an answer has a number");
        let (registers, rest) = rest.split_at(self.runs.registers.len());
        let (buffer, tables) = rest.split_at(self.runs.buffer.len());
        Answer {
            number: u64::from_be_bytes(*number),
            runs: Runs {
                registers: registers.to_vec(),
                buffer: buffer.to_vec(),
                tables: tables.to_vec(),
            },
        }
    }
}

pub fn bytes_of_words(words: &[u32]) -> Vec<u8> {
    words.iter().flat_map(|word| word.to_be_bytes()).collect()
}

pub fn bytes_of_numbers(numbers: &[u64]) -> Vec<u8> {
    numbers
        .iter()
        .flat_map(|number| number.to_be_bytes())
        .collect()
}

pub fn words_of_bytes(bytes: &[u8]) -> Vec<u32> {
    let (words, _) = bytes.as_chunks();
    words.iter().map(|&word| u32::from_be_bytes(word)).collect()
}

pub fn numbers_of_bytes(bytes: &[u8]) -> Vec<u64> {
    let (numbers, _) = bytes.as_chunks();
    let numbers = numbers.iter();
    numbers.map(|&number| u64::from_be_bytes(number)).collect()
}

#[cfg(test)]
mod tests {
    use super::*;

    #[test]
    fn a_start_and_a_setting_have_their_kinds() {
        let words_of = |call| {
            let none = Vec::new;
            let runs = Runs {
                registers: none(),
                buffer: none(),
                tables: none(),
            };
            words_of_bytes(&Case { call, runs }.to_bytes())
        };
        assert_eq!(words_of(Call::Start), [3, 0, 0, 0, 0, 0, 0, 0]);
        let setting = Call::Setting {
            number: 5,
            value: 62,
        };
        assert_eq!(words_of(setting), [4, 5, 62, 0, 0, 0, 0, 0]);
    }

    #[test]
    fn requests_and_answers_have_their_runs_in_order() {
        let case = Case {
            call: Call::Store {
                index: 5,
                value: 0x0102_0304,
            },
            runs: Runs {
                registers: vec![0xA1],
                buffer: vec![0xB1, 0xB2],
                tables: vec![0xC1, 0xC2, 0xC3],
            },
        };
        let bytes = case.to_bytes();
        assert_eq!(bytes[..12], [0, 0, 0, 2, 0, 0, 0, 5, 1, 2, 3, 4]);
        assert_eq!(bytes[20..32], [0, 0, 0, 1, 0, 0, 0, 2, 0, 0, 0, 3]);
        assert_eq!(bytes[32..], [0xA1, 0xB1, 0xB2, 0xC1, 0xC2, 0xC3]);
        let answer: Vec<u8> = (1..=14).collect();
        assert_eq!(answer.len(), case.answer_bytes());
        let answer = case.answer_of(&answer);
        assert_eq!(answer.number, 0x0102_0304_0506_0708);
        assert_eq!(answer.runs.registers, [9]);
        assert_eq!(answer.runs.buffer, [10, 11]);
        assert_eq!(answer.runs.tables, [12, 13, 14]);
    }
}
