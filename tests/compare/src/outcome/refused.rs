//! Outcomes of refusals: every set of grounds that can come together, and each single ground.

use reference::{check_buffer, check_registers, fits, Refusal, Registers, FIELD_BITS, FIELD_NAMES};

/// The wrong buffer lengths that have to be tried.
pub const WRONG_LENGTHS: [usize; 5] = [0, 1, 63, 65, 80];

/// The numbers of those checks that fail, each asked by itself.
pub fn grounds(checks: &[Result<(), Refusal>]) -> Vec<u32> {
    checks
        .iter()
        .filter_map(|check| check.err().map(Refusal::number))
        .collect()
}

/// An outcome for each set of grounds out of the possible ones, which stand in their order.
pub fn all_sets_of_grounds(call: &str, possible: &[u32]) -> Vec<String> {
    (1..1 << possible.len())
        .map(|set: usize| {
            let grounds: Vec<u32> = (0..possible.len())
                .filter(|n| set >> n & 1 == 1)
                .map(|n| possible[n])
                .collect();
            set_of_grounds(call, &grounds, grounds[0])
        })
        .collect()
}

pub fn set_of_grounds(call: &str, grounds: &[u32], refused: u32) -> String {
    let grounds: Vec<String> = grounds.iter().map(u32::to_string).collect();
    format!("{call} refused {refused}, grounds {}", grounds.join(" "))
}

/// The same where two grounds have one number: a ground's name begins with it.
pub fn all_sets_of_named(call: &str, possible: &[&str]) -> Vec<String> {
    (1..1usize << possible.len())
        .map(|set| {
            let chosen = (0..possible.len()).filter(|n| set >> n & 1 == 1);
            refused_on(call, &chosen.map(|n| possible[n]).collect::<Vec<&str>>())
        })
        .collect()
}

/// The names of those checks that fail.
pub fn named_grounds<'a>(names: &[&'a str], checks: &[Result<(), Refusal>]) -> Vec<&'a str> {
    names
        .iter()
        .zip(checks)
        .filter(|(_, check)| check.is_err())
        .map(|(name, _)| *name)
        .collect()
}

pub fn refused_on(call: &str, grounds: &[&str]) -> String {
    let number = grounds[0].split(' ').next().unwrap_or_default();
    format!("{call} refused {number}, grounds {}", grounds.join(", "))
}

/// Outcomes of the register fields of a call that takes registers.
pub fn all_fields(call: &str) -> Vec<String> {
    let mut all = vec![several_fields(call)];
    for (name, bits) in FIELD_NAMES.iter().zip(FIELD_BITS) {
        all.push(largest(call, name));
        if bits < 32 {
            all.push(first_too_large(call, name));
        }
    }
    all
}

/// Largest values count in accepted calls, too large ones in calls refused for them alone.
pub fn of_fields(call: &str, registers: Registers, grounds: &[u32]) -> Vec<String> {
    let fields = || {
        let words = registers.to_words().into_iter();
        words.zip(FIELD_BITS).zip(FIELD_NAMES)
    };
    if grounds.is_empty() {
        return fields()
            .filter(|((word, bits), _)| u64::from(*word) + 1 == 1u64 << bits)
            .map(|(_, name)| largest(call, name))
            .collect();
    }
    let too_large: Vec<((u32, u32), &str)> = fields()
        .filter(|((word, bits), _)| !fits(*word, *bits))
        .collect();
    match too_large[..] {
        [((word, bits), name)] if word == 1 << bits && grounds == [1] => {
            vec![first_too_large(call, name)]
        }
        [_, _, ..] => vec![several_fields(call)],
        _ => Vec::new(),
    }
}

/// Outcomes of the buffer's length.
pub fn all_lengths(call: &str) -> Vec<String> {
    WRONG_LENGTHS.map(|n| wrong_length(call, n)).to_vec()
}

pub fn of_length(call: &str, buffer: &[u64], grounds: &[u32]) -> Vec<String> {
    if grounds == [2] && WRONG_LENGTHS.contains(&buffer.len()) {
        return vec![wrong_length(call, buffer.len())];
    }
    Vec::new()
}

/// The table run lengths that are refused, by kind, but that of no words; longer runs than 16,384
/// words are not tried.
pub fn all_runs(call: &str) -> Vec<String> {
    [1, 64, 1023, 1025, 1536]
        .map(|words| wrong_run(call, words))
        .to_vec()
}

pub fn of_run(call: &str, words: usize, grounds: &[u32]) -> Vec<String> {
    match grounds {
        [3] => vec![wrong_run(call, words)],
        _ => Vec::new(),
    }
}

pub fn wrong_run(call: &str, words: usize) -> String {
    let kind = match words {
        0 => "of no words",
        1..=63 => "of 1 to 63 words",
        1023 => "of 1023 words",
        64..=1022 => "of 64 to 1022 words",
        _ if words.is_multiple_of(512) => "a multiple of 512 alone",
        _ => "no multiple of 512",
    };
    format!("{call} refused 3, run {kind}")
}

/// The smallest table run that is accepted. It has room for a directory and for no table, so that
/// no walk in it finds a leaf.
pub const SMALLEST_RUN: usize = 1024;

pub fn smallest_run(call: &str) -> String {
    format!("{call} accepted, table run of {SMALLEST_RUN} words")
}

/// Outcomes of a draw above 3.
pub fn all_draws(call: &str) -> Vec<String> {
    [4, 5, u32::MAX].map(|draw| draw_of(call, draw)).to_vec()
}

pub fn draw_of(call: &str, draw: u32) -> String {
    match draw {
        4 | u32::MAX => format!("{call} refused 4, draw {draw}"),
        _ => format!("{call} refused 4, another draw"),
    }
}

/// Outcomes of a register number that is none.
pub fn all_unknown_numbers(call: &str) -> Vec<String> {
    [10, 11, u32::MAX]
        .map(|number| unknown_number(call, number))
        .to_vec()
}

pub fn unknown_number(call: &str, number: u32) -> String {
    match number {
        10 | u32::MAX => format!("{call} refused 7, number {number}"),
        _ => format!("{call} refused 7, another unknown number"),
    }
}

/// The grounds 1 and 2 of a call that takes registers and a buffer, each with its check.
pub fn checks_1_and_2(registers: Registers, buffer: &[u64]) -> [Result<(), Refusal>; 2] {
    [check_registers(registers), check_buffer(buffer)]
}

fn wrong_length(call: &str, length: usize) -> String {
    format!("{call} refused 2, buffer of {length}")
}

fn largest(call: &str, name: &str) -> String {
    format!("{call} accepted, {name} at its largest value")
}

fn first_too_large(call: &str, name: &str) -> String {
    format!("{call} refused 1, {name} alone one past its bits")
}

fn several_fields(call: &str) -> String {
    format!("{call} refused 1, several fields too large")
}
