//! Random registers and buffers, good ones and spoilt ones.

use crate::random::Random;
use reference::{start, Entry, Registers, FIELDS, FIELD_BITS, LOCATIONS, SLOTS};

/// The buffer lengths that are tried: the right one, then wrong ones.
pub const LENGTHS: [usize; 6] = [64, 0, 1, 63, 65, 80];

/// Registers whose fields all fit.
pub fn registers(random: &mut Random) -> Registers {
    let words = FIELD_BITS.map(|bits| random.bits(bits));
    let registers = Registers::from_words(words);
    Registers {
        kseg: match random.below(4) {
            0 => 0,
            1 => 0xFFFF,
            _ => registers.kseg,
        },
        context: match random.below(4) {
            0 => 63,
            1 => random.pick(&[0, 1, 5, 62]),
            _ => registers.context,
        },
        ..registers
    }
}

/// The largest value a field can hold.
pub fn largest(bits: u32) -> u32 {
    ((1u64 << bits) - 1) as u32
}

/// A value that exceeds the bits, where there is one.
fn too_large(random: &mut Random, bits: u32) -> u32 {
    if bits == 32 {
        return random.bits(32);
    }
    let first = 1 << bits;
    match random.below(4) {
        0 => first,
        1 => u32::MAX,
        2 => first << random.below(32 - bits as usize),
        _ => first | random.bits(32),
    }
}

/// One field or several made too large.
pub fn spoil(random: &mut Random, registers: Registers) -> Registers {
    let mut words = registers.to_words();
    let several = random.one_in(3);
    for _ in 0..if several { 1 + random.below(4) } else { 1 } {
        let field = random.pick(&[0, 1, 2, 5, 6, 7, 8, 9, 10]);
        words[field] = too_large(random, FIELD_BITS[field]);
    }
    Registers::from_words(words)
}

/// Good registers, each field at its largest value, past its bits in two ways, and several.
pub fn register_edges(random: &mut Random) -> Vec<Registers> {
    let mut edges = vec![registers(random)];
    for field in 0..FIELDS {
        let bits = FIELD_BITS[field];
        let mut values = vec![largest(bits), u32::MAX];
        if bits < 32 {
            values.push(1 << bits);
        }
        for value in values {
            let mut words = registers(random).to_words();
            words[field] = value;
            edges.push(Registers::from_words(words));
        }
    }
    for _ in 0..20 {
        let once = registers(random);
        let twice = spoil(random, once);
        edges.push(spoil(random, twice));
    }
    edges
}

/// Every register number with values around its width and around 63, and with each single bit.
pub fn register_values() -> Vec<(u32, u32)> {
    let mut all = Vec::new();
    for (number, bits) in (0..10).zip(FIELD_BITS) {
        let largest = largest(bits);
        let past = largest.wrapping_add(1);
        let edges = [0, 1, largest / 2, largest - 1, largest, past];
        let far = [past.wrapping_add(1), past.wrapping_mul(2)];
        let near_63 = [61, 62, 63, 64, 65, 126, 127, u32::MAX - 1, u32::MAX];
        let bit_by_bit = (0..32).map(|bit| 1 << bit);
        let values = edges.into_iter().chain(far).chain(near_63);
        all.extend(values.chain(bit_by_bit).map(|value| (number, value)));
    }
    all
}

/// A buffer of any length: empty slots, plausible entries or plain random numbers.
pub fn buffer(random: &mut Random, length: usize) -> Vec<u64> {
    match random.below(4) {
        0 => started(random, length, false),
        1 => started(random, length, true),
        2 => (0..length).map(|_| number_of(random)).collect(),
        _ => (0..length).map(|_| random.bits64()).collect(),
    }
}

/// A buffer of a wrong length.
pub fn wrong_buffer(random: &mut Random) -> Vec<u64> {
    let length = random.pick(&LENGTHS[1..]);
    buffer(random, length)
}

/// The buffer as a start leaves it.
pub fn empty_slots() -> Vec<u64> {
    let mut buffer = vec![0; SLOTS];
    start(&mut buffer).0.expect("the buffer is 64 long");
    buffer
}

/// Spoils the registers, the buffer, both or neither; true where the call's last argument is
/// to be spoilt as well. Every set of grounds but none comes up.
pub fn spoil_a_call(random: &mut Random, registers: &mut Registers, buffer: &mut Vec<u64>) -> bool {
    let grounds = 1 + random.below(7);
    if grounds & 1 != 0 {
        *registers = spoil(random, *registers);
    }
    if grounds & 2 != 0 {
        *buffer = wrong_buffer(random);
    }
    grounds & 4 != 0
}

/// The start's buffer, cut or repeated to a length, with or without junk in the bits that are not read.
fn started(random: &mut Random, length: usize, junk: bool) -> Vec<u64> {
    let slots = empty_slots();
    (0..length)
        .map(|n| slots[n % SLOTS] | if junk { high_bits(random) } else { 0 })
        .collect()
}

/// Junk from bit 44 up, in half of the cases none.
pub fn high_bits(random: &mut Random) -> u64 {
    match random.below(4) {
        0 => random.bits64() << 44,
        1 => 1 << (44 + random.below(20)),
        _ => 0,
    }
}

/// The number of an entry on a low page.
fn number_of(random: &mut Random) -> u64 {
    let entry = Entry {
        vpn15: random.bits(2),
        ..Entry::unpack(random.bits64())
    };
    entry.pack() | high_bits(random)
}

/// A virtual page number: any, a low one, or one at the edge.
pub fn page(random: &mut Random) -> u32 {
    match random.below(4) {
        0 => random.bits(7),
        1 => random.pick(&[0, 15, 16, 63, 64, 0x3FFFF, 0x40000, 0x7FFF0, 0x7FFFF]),
        _ => random.bits(19),
    }
}

/// An address on a page: its first byte, its last or any.
pub fn address_on(random: &mut Random, page: u32) -> u32 {
    let offset = match random.below(4) {
        0 => 0,
        1 => 8191,
        _ => random.bits(13),
    };
    page * 8192 + offset
}

/// Copies an entry's number to the same set at the next location.
pub fn copy_to_next_location(buffer: &mut [u64], slot: usize) {
    let set = slot / LOCATIONS;
    let next = LOCATIONS * set + (slot + 1) % LOCATIONS;
    buffer[next] = buffer[slot];
}
