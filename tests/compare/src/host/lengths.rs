//! C calls with runs of wrong lengths, alone and together, and of every allowed one.

use super::case::{bytes_of_numbers, bytes_of_words, Case, PutCase, Runs};
use crate::cases::{setting, spoil, state};
use crate::protocol::Call;
use crate::random::Random;
use reference::{Access, Registers, SLOTS};

/// The lengths that are tried, the right one first, in bytes.
pub const REGISTERS: [usize; 8] = [44, 0, 1, 4, 43, 45, 48, 64];
pub const BUFFERS: [usize; 11] = [512, 0, 1, 8, 44, 256, 504, 511, 513, 520, 640];
/// The first two are right.
pub const TABLES: [usize; 14] = [
    4096, 8192, 0, 1, 256, 2048, 4092, 4095, 4097, 6144, 65535, 65540, 69632, 131_072,
];

/// Those at the front are short enough to be tried often.
const SMALL_TABLES: usize = 10;

const CALLS_OF_A_LENGTH: usize = 8;

/// The kinds of calls, those that may take tables first.
const KINDS: usize = 5;
const WITH_TABLES: usize = 3;

pub fn edges(to: &mut dyn PutCase, random: &mut Random) {
    alone(to, random);
    together(to, random);
}

/// Every length of each run with nothing else wrong, for each call.
fn alone(to: &mut dyn PutCase, random: &mut Random) {
    let right = [REGISTERS[0], BUFFERS[0], TABLES[1]];
    let mut all = Vec::new();
    for (run, lengths) in [&REGISTERS[..], &BUFFERS, &TABLES].into_iter().enumerate() {
        all.extend(lengths.iter().map(|&length| {
            let mut lengths = right;
            lengths[run] = length;
            lengths
        }));
    }
    for lengths in all {
        for kind in 0..KINDS {
            for _ in 0..CALLS_OF_A_LENGTH {
                let registers = Registers {
                    test: 0,
                    context: random.below(63) as u32,
                    ..state::registers(random)
                };
                let arguments = Arguments {
                    draw: random.bits(2),
                    index: random.below((lengths[2] / 4).max(1)) as u32,
                    setting: setting::accepted(random),
                };
                let call = arguments.of_call(random, kind);
                to.put_case(case(random, call, registers, lengths));
            }
        }
    }
}

/// Every length of each run with every length of the others, for each call that takes them.
fn together(to: &mut dyn PutCase, random: &mut Random) {
    for registers in REGISTERS {
        for buffer in BUFFERS {
            for tables in TABLES {
                for kind in 0..WITH_TABLES {
                    to.put_case(any(random, kind, [registers, buffer, tables]));
                }
            }
            for kind in WITH_TABLES..KINDS {
                for _ in 0..CALLS_OF_A_LENGTH {
                    to.put_case(any(random, kind, [registers, buffer, 0]));
                }
            }
        }
    }
}

/// One run or several of a wrong length.
pub fn random(random: &mut Random) -> Case {
    let kind = random.below(KINDS);
    let mut some = |lengths: &[usize]| match random.one_in(3) {
        true => random.pick(lengths),
        false => lengths[0],
    };
    let lengths = [
        some(&REGISTERS),
        some(&BUFFERS),
        some(&TABLES[..SMALL_TABLES]),
    ];
    any(random, kind, lengths)
}

/// A call that may be refused for more than its lengths.
fn any(random: &mut Random, kind: usize, lengths: [usize; 3]) -> Case {
    let mut registers = state::registers(random);
    if random.one_in(4) {
        registers = state::spoil(random, registers);
    }
    let words = (lengths[2] / 4) as u32;
    let arguments = Arguments {
        draw: random.pick(&[0, 1, 2, 3, 0, 3, 4, u32::MAX]),
        index: random.pick(&[0, words / 2, words.saturating_sub(1), words, u32::MAX]),
        setting: any_setting(random),
    };
    let call = arguments.of_call(random, kind);
    case(random, call, registers, lengths)
}

/// A setting that is accepted, or one that is refused with 5, with 7 or on both grounds.
fn any_setting(random: &mut Random) -> (u32, u32) {
    let grounds = (random.one_in(2), random.one_in(2));
    match grounds {
        (false, false) => setting::accepted(random),
        _ => spoil::refused_setting(random, grounds),
    }
}

/// The arguments for which a call may be refused.
struct Arguments {
    draw: u32,
    index: u32,
    setting: (u32, u32),
}

impl Arguments {
    fn of_call(self, random: &mut Random, kind: usize) -> Call {
        let access = Access {
            address: random.bits(32),
            user: random.one_in(2),
            write: random.one_in(2),
            draw: self.draw,
        };
        match kind {
            0 => Call::Raw(access),
            1 => Call::Served(access),
            2 => Call::Store {
                index: self.index,
                value: random.bits(32),
            },
            3 => Call::Start,
            _ => {
                let (number, value) = self.setting;
                Call::Setting { number, value }
            }
        }
    }
}

/// The call with runs of these lengths.
fn case(
    random: &mut Random,
    call: Call,
    fields: Registers,
    [registers, buffer, tables]: [usize; 3],
) -> Case {
    let numbers = bytes_of_numbers(&state::buffer(random, SLOTS));
    let fill = random.bits(32).to_be_bytes();
    Case {
        call,
        runs: Runs {
            registers: of_length(&bytes_of_words(&fields.to_words()), registers),
            buffer: of_length(&numbers, buffer),
            tables: of_length(&fill, tables),
        },
    }
}

/// The bytes cut or repeated to a length.
fn of_length(bytes: &[u8], length: usize) -> Vec<u8> {
    bytes.iter().copied().cycle().take(length).collect()
}
