//! The start and the guarded setting over bytes, by tests/host, compared with the calls over words,
//! by the program `probe`. The second program only names the outcomes.

use super::case::{self, bytes_of_numbers, bytes_of_words, Case};
use super::{difference, layout};
use crate::cases;
use crate::expected::{self, REFUSED};
use crate::outcome::{self, setting, start, Runs};
use crate::program::Program;
use crate::protocol::{Answer, Call, Request};
use crate::put::Put;
use crate::random::Random;
use crate::tally::Tally;
use std::rc::Rc;

pub const CASES: usize = 40_000;

/// So many calls of one process have answers under way at the most.
const CASES_FOR_A_PROCESS: usize = 4000;

const MOST_PRINTED: usize = 10;

/// The requests that both programs get.
#[derive(Default)]
struct Requests(Vec<Request>);

impl Put for Requests {
    fn put(&mut self, request: Request) {
        self.0.push(request);
    }

    /// Neither call takes tables.
    fn tables(&self) -> &[u32] {
        &[]
    }
}

pub fn compare(probe: &str, host: &str, seed: u64, number: usize) -> Result<bool, String> {
    let mut random = Random::new(seed);
    let mut requests = Requests::default();
    cases::start_and_setting_edges(&mut requests, &mut random);
    while requests.0.len() < number {
        requests.put(cases::any_start_or_setting(&mut random));
    }
    let mut tally = Tally::expecting(all());
    let mut differences = 0;
    for (part, requests) in requests.0.chunks(CASES_FOR_A_PROCESS).enumerate() {
        let over_words = over_words(probe, requests)?;
        let over_bytes = over_bytes(host, requests)?;
        for (n, request) in requests.iter().enumerate() {
            let case = Case::of(request, &[]);
            let expected = in_bytes(request, &over_words[n]);
            let agreed = over_bytes[n] == expected;
            for outcome in outcomes(request) {
                tally.add(&outcome, agreed);
            }
            differences += usize::from(!agreed);
            if !agreed && differences <= MOST_PRINTED {
                let number = CASES_FOR_A_PROCESS * part + n + 1;
                difference::print(number, &case, &expected, &over_bytes[n]);
            }
        }
    }
    println!("cases: {}", requests.0.len());
    Ok(tally.print() == 0)
}

fn all() -> Vec<String> {
    let all = [start::all(), setting::all()].concat().into_iter();
    all.filter(|outcome| !outcome.starts_with("sequence"))
        .collect()
}

fn outcomes(request: &Request) -> Vec<String> {
    let answer = expected::answer(request, &mut Rc::default());
    let none = Runs {
        before: &[],
        after: &[],
    };
    outcome::of(request, none, &answer)
}

/// What the call over bytes has to answer and to leave where the call over words gives this answer.
/// A refused start over words answers registers that are all 0; over bytes it leaves them.
fn in_bytes(request: &Request, answer: &Answer) -> case::Answer {
    let is_refused_start = matches!(request.call, Call::Start) && answer.words[0] == REFUSED;
    let registers = match is_refused_start {
        true => &request.registers,
        false => &answer.registers,
    };
    case::Answer {
        number: layout::number_of(request.call, answer),
        runs: case::Runs {
            registers: bytes_of_words(registers),
            buffer: bytes_of_numbers(&answer.buffer),
            tables: Vec::new(),
        },
    }
}

fn over_words(probe: &str, requests: &[Request]) -> Result<Vec<Answer>, String> {
    let lengths = requests.iter().map(|it| Answer::byte_length(it, 0));
    let input = requests.iter().flat_map(Request::to_bytes).collect();
    let answers = answers(probe, input, lengths.collect())?;
    let both = answers.iter().zip(requests);
    Ok(both
        .map(|(bytes, request)| Answer::from_bytes(bytes, request))
        .collect())
}

fn over_bytes(host: &str, requests: &[Request]) -> Result<Vec<case::Answer>, String> {
    let cases: Vec<Case> = requests.iter().map(|it| Case::of(it, &[])).collect();
    let lengths = cases.iter().map(Case::answer_bytes).collect();
    let input = cases.iter().flat_map(Case::to_bytes).collect();
    let answers = answers(host, input, lengths)?;
    let both = answers.iter().zip(&cases);
    Ok(both.map(|(bytes, case)| case.answer_of(bytes)).collect())
}

/// What the program writes for these bytes, cut into answers of these lengths.
fn answers(path: &str, input: Vec<u8>, lengths: Vec<usize>) -> Result<Vec<Vec<u8>>, String> {
    let total: usize = lengths.iter().sum();
    let output = Program::output_of(path, vec![input], total)?;
    if output.len() != total {
        return Err(format!(
            "{path} answers {} bytes instead of {total}",
            output.len()
        ));
    }
    let mut rest = &output[..];
    Ok(lengths
        .into_iter()
        .map(|length| rest.split_off(..length).expect("the answers are whole"))
        .map(<[u8]>::to_vec)
        .collect())
}

#[cfg(test)]
mod tests {
    use super::*;
    use crate::expected::DONE;
    use reference::Registers;

    fn answered(call: Call, words: [u32; 4], registers: Registers) -> case::Answer {
        let handed = Registers {
            kseg: 0x1234,
            ..Registers::default()
        };
        let answer = Answer {
            words,
            registers: registers.to_words(),
            pool: None,
            state: None,
            buffer: vec![0x3F80_0000],
            tables: Vec::new(),
        };
        in_bytes(&Request::without_run(call, handed, vec![7]), &answer)
    }

    #[test]
    fn an_accepted_start_leaves_the_bytes_of_the_answer_over_words() {
        let answer = answered(Call::Start, [DONE, 0, 0, 0], Registers::default());
        assert_eq!(answer.number, 0);
        assert_eq!(answer.runs.registers, [0; 44]);
        assert_eq!(answer.runs.buffer, [0, 0, 0, 0, 0x3F, 0x80, 0, 0]);
    }

    #[test]
    fn a_refused_start_leaves_the_registers_and_a_refused_setting_those_of_the_answer() {
        let zero = Registers::default();
        let answer = answered(Call::Start, [REFUSED, 2, 0, 0], zero);
        assert_eq!(answer.number, 2 << 56);
        assert_eq!(answer.runs.registers[..4], [0, 0, 0x12, 0x34]);
        let setting = Call::Setting {
            number: 5,
            value: 63,
        };
        let answer = answered(setting, [REFUSED, 5, 0, 0], zero);
        assert_eq!(answer.number, 5 << 56);
        assert_eq!(answer.runs.registers, [0; 44]);
    }
}
