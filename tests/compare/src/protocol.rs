//! The bytes of a request and of its answer.

use crate::mups16::call::{UnitCall, KIND as MUPS16};
use reference::heap::{Pool, BIT_NUMBERS};
use reference::mups16::{State, STATE_WORDS};
use reference::{Access, Registers, FIELDS};

#[derive(Clone, Copy, Debug)]
pub enum Call {
    Start,
    Raw(Access),
    Write {
        number: u32,
        value: u32,
    },
    Read {
        number: u32,
    },
    Walk {
        page_id: u32,
        vpn: u32,
    },
    Served(Access),
    Store {
        index: u32,
        value: u32,
    },
    Setting {
        number: u32,
        value: u32,
    },
    /// Asks for the table run that the program keeps.
    Tables,
    /// The request and its answer have a pool.
    OnPool(PoolCall),
    /// The request and its answer have the state of the MUPS/16 unit.
    Mups16(UnitCall),
}

#[derive(Clone, Copy, Debug, PartialEq, Eq)]
pub enum PoolCall {
    New { first: u32, size: u32 },
    Take,
    Give { pfn: u32 },
    Held,
    Map { index: u32, leaf: u32 },
    Collect { id: u32 },
}

impl Call {
    /// The kind and its four arguments.
    fn words(self) -> [u32; 5] {
        match self {
            Call::Start => [0; 5],
            Call::Raw(access) => words_of_access(1, access),
            Call::Write { number, value } => [2, number, value, 0, 0],
            Call::Read { number } => [3, number, 0, 0, 0],
            Call::Walk { page_id, vpn } => [4, page_id, vpn, 0, 0],
            Call::Served(access) => words_of_access(5, access),
            Call::Store { index, value } => [6, index, value, 0, 0],
            Call::Setting { number, value } => [7, number, value, 0, 0],
            Call::Tables => [8, 0, 0, 0, 0],
            Call::OnPool(call) => call.words(),
            Call::Mups16(call) => call.words(),
        }
    }

    fn from_words(words: [u32; 5]) -> Option<Call> {
        let [kind, first, second, _, _] = words;
        Some(match kind {
            0 => Call::Start,
            1 => Call::Raw(access_of(words)),
            2 => Call::Write {
                number: first,
                value: second,
            },
            3 => Call::Read { number: first },
            4 => Call::Walk {
                page_id: first,
                vpn: second,
            },
            5 => Call::Served(access_of(words)),
            6 => Call::Store {
                index: first,
                value: second,
            },
            7 => Call::Setting {
                number: first,
                value: second,
            },
            8 => Call::Tables,
            MUPS16 => Call::Mups16(UnitCall::from_words(words)?),
            _ => Call::OnPool(PoolCall::from_words(words)?),
        })
    }
}

impl PoolCall {
    fn words(self) -> [u32; 5] {
        match self {
            PoolCall::New { first, size } => [9, first, size, 0, 0],
            PoolCall::Take => [10, 0, 0, 0, 0],
            PoolCall::Give { pfn } => [11, pfn, 0, 0, 0],
            PoolCall::Held => [12, 0, 0, 0, 0],
            PoolCall::Map { index, leaf } => [13, index, leaf, 0, 0],
            PoolCall::Collect { id } => [14, id, 0, 0, 0],
        }
    }

    fn from_words([kind, first, second, _, _]: [u32; 5]) -> Option<PoolCall> {
        Some(match kind {
            9 => PoolCall::New {
                first,
                size: second,
            },
            10 => PoolCall::Take,
            11 => PoolCall::Give { pfn: first },
            12 => PoolCall::Held,
            13 => PoolCall::Map {
                index: first,
                leaf: second,
            },
            14 => PoolCall::Collect { id: first },
            _ => return None,
        })
    }
}

fn access_of([_, address, user, write, draw]: [u32; 5]) -> Access {
    Access {
        address,
        user: user == 1,
        write: write == 1,
        draw,
    }
}

pub fn words_of_access(kind: u32, access: Access) -> [u32; 5] {
    let (user, write) = (u32::from(access.user), u32::from(access.write));
    [kind, access.address, user, write, access.draw]
}

#[derive(Clone, Debug)]
pub struct Request {
    pub call: Call,
    pub registers: [u32; FIELDS],
    /// None but in a call on a pool.
    pub pool: Option<Box<Pool>>,
    /// None but in a call of the MUPS/16 unit.
    pub state: Option<[u32; STATE_WORDS]>,
    pub buffer: Vec<u64>,
    /// An empty run keeps the table run as the last request left it.
    pub tables: Vec<u32>,
}

impl Request {
    /// A request that hands over no table run.
    pub fn without_run(call: Call, registers: Registers, buffer: Vec<u64>) -> Request {
        Request {
            call,
            registers: registers.to_words(),
            pool: None,
            state: None,
            buffer,
            tables: Vec::new(),
        }
    }

    /// A call on a pool that hands over no table run.
    pub fn on_pool(call: PoolCall, registers: Registers, pool: Pool, buffer: Vec<u64>) -> Request {
        Request {
            pool: Some(Box::new(pool)),
            ..Request::without_run(Call::OnPool(call), registers, buffer)
        }
    }

    /// A call of the MUPS/16 unit that hands over no table run.
    pub fn of_mups16(
        call: UnitCall,
        registers: Registers,
        state: State,
        buffer: Vec<u64>,
    ) -> Request {
        Request {
            state: Some(state.to_words()),
            ..Request::without_run(Call::Mups16(call), registers, buffer)
        }
    }

    /// The state of a call of the MUPS/16 unit.
    pub fn state(&self) -> State {
        let words = self.state.expect("a call of the MUPS/16 unit has a state");
        State::from_words(words)
    }

    /// The pool of a call on one.
    pub fn pool(&self) -> &Pool {
        self.pool.as_ref().expect("a call on a pool has one")
    }

    pub fn to_bytes(&self) -> Vec<u8> {
        let mut bytes = Vec::new();
        let lengths = [self.buffer.len() as u32, self.tables.len() as u32, 0];
        put_words(&mut bytes, &self.call.words());
        put_words(&mut bytes, &lengths);
        put_words(&mut bytes, &self.registers);
        put_pool(&mut bytes, self.pool.as_deref());
        put_words(&mut bytes, self.state.as_ref().map_or(&[], |state| state));
        put_numbers(&mut bytes, &self.buffer);
        put_words(&mut bytes, &self.tables);
        bytes
    }

    /// How many bytes follow the head of a request.
    pub fn rest_length(head: &[u8]) -> usize {
        let [kind, buffer, tables] = [0, 5, 6].map(|n| word_of(&head[4 * n..4 * n + 4]));
        let beside = match kind {
            MUPS16 => STATE_BYTES,
            9.. => POOL_BYTES,
            _ => 0,
        };
        4 * FIELDS + beside + 8 * buffer as usize + 4 * tables as usize
    }

    /// A request from its head and what follows; none where there is no such call.
    pub fn from_bytes(head: &[u8], rest: &[u8]) -> Option<Request> {
        let head: Vec<u32> = head.chunks_exact(4).map(word_of).collect();
        let call = Call::from_words(std::array::from_fn(|n| head[n]))?;
        let (registers, mut rest) = rest.split_at(4 * FIELDS);
        let registers: Vec<u32> = registers.chunks_exact(4).map(word_of).collect();
        let (mut pool, mut state) = (None, None);
        match call {
            Call::OnPool(_) => pool = Some(Box::new(pool_of(part(&mut rest, POOL_BYTES)))),
            Call::Mups16(_) => state = Some(state_of(part(&mut rest, STATE_BYTES))),
            _ => {}
        }
        let (buffer, tables) = rest.split_at(8 * head[5] as usize);
        Some(Request {
            call,
            registers: std::array::from_fn(|n| registers[n]),
            pool,
            state,
            buffer: buffer.chunks_exact(8).map(number_of).collect(),
            tables: tables.chunks_exact(4).map(word_of).collect(),
        })
    }
}

/// The kind, its four arguments, the lengths of the runs, and 0.
pub const HEAD_WORDS: usize = 8;

#[derive(Clone, Debug, PartialEq, Eq)]
pub struct Answer {
    pub words: [u32; 4],
    pub registers: [u32; FIELDS],
    /// None but in the answer to a call on a pool.
    pub pool: Option<Box<Pool>>,
    /// None but in the answer of the MUPS/16 unit.
    pub state: Option<[u32; STATE_WORDS]>,
    pub buffer: Vec<u64>,
    /// Empty but where the table run was asked for.
    pub tables: Vec<u32>,
}

impl Answer {
    /// The bytes of the answer to a request, with so many words of a table run.
    pub fn byte_length(request: &Request, words: usize) -> usize {
        let pool = request.pool.as_ref().map_or(0, |_| POOL_BYTES);
        let state = request.state.map_or(0, |_| STATE_BYTES);
        4 * (4 + FIELDS) + pool + state + 8 * request.buffer.len() + 4 * words
    }

    pub fn to_bytes(&self) -> Vec<u8> {
        let mut bytes = Vec::new();
        put_words(&mut bytes, &self.words);
        put_words(&mut bytes, &self.registers);
        put_pool(&mut bytes, self.pool.as_deref());
        put_words(&mut bytes, self.state.as_ref().map_or(&[], |state| state));
        put_numbers(&mut bytes, &self.buffer);
        put_words(&mut bytes, &self.tables);
        bytes
    }

    /// Takes exactly `byte_length` bytes apart.
    pub fn from_bytes(bytes: &[u8], request: &Request) -> Answer {
        let (head, mut tail) = bytes.split_at(4 * (4 + FIELDS));
        let head: Vec<u32> = head.chunks_exact(4).map(word_of).collect();
        let pool = request.pool.as_ref();
        let pool = pool.map(|_| Box::new(pool_of(part(&mut tail, POOL_BYTES))));
        let state = request.state;
        let state = state.map(|_| state_of(part(&mut tail, STATE_BYTES)));
        let (buffer, tables) = tail.split_at(8 * request.buffer.len());
        Answer {
            words: std::array::from_fn(|n| head[n]),
            registers: std::array::from_fn(|n| head[4 + n]),
            pool,
            state,
            buffer: buffer.chunks_exact(8).map(number_of).collect(),
            tables: tables.chunks_exact(4).map(word_of).collect(),
        }
    }
}

/// The first pfn, the size and the bits.
const POOL_BYTES: usize = 4 + 4 + 8 * BIT_NUMBERS;

const STATE_BYTES: usize = 4 * STATE_WORDS;

/// Takes so many bytes off.
fn part<'a>(bytes: &mut &'a [u8], length: usize) -> &'a [u8] {
    let (part, rest) = bytes.split_at(length);
    *bytes = rest;
    part
}

fn state_of(bytes: &[u8]) -> [u32; STATE_WORDS] {
    std::array::from_fn(|n| word_of(&bytes[4 * n..4 * n + 4]))
}

fn pool_of(bytes: &[u8]) -> Pool {
    Pool {
        first: word_of(&bytes[..4]),
        size: word_of(&bytes[4..8]),
        bits: std::array::from_fn(|n| number_of(&bytes[8 + 8 * n..16 + 8 * n])),
    }
}

fn put_pool(bytes: &mut Vec<u8>, pool: Option<&Pool>) {
    if let Some(pool) = pool {
        put_words(bytes, &[pool.first, pool.size]);
        put_numbers(bytes, &pool.bits);
    }
}

fn put_words(bytes: &mut Vec<u8>, words: &[u32]) {
    for word in words {
        bytes.extend(word.to_be_bytes());
    }
}

fn put_numbers(bytes: &mut Vec<u8>, numbers: &[u64]) {
    for number in numbers {
        bytes.extend(number.to_be_bytes());
    }
}

fn number_of(eight: &[u8]) -> u64 {
    (u64::from(word_of(&eight[..4])) << 32) | u64::from(word_of(&eight[4..]))
}

fn word_of(four: &[u8]) -> u32 {
    four.iter()
        .fold(0, |word, &byte| (word << 8) | u32::from(byte))
}

#[cfg(test)]
mod tests {
    use super::*;

    #[test]
    fn a_request_has_its_lengths_and_runs_in_place() {
        let request = Request {
            call: Call::Write {
                number: 8,
                value: 0x0102_0304,
            },
            registers: std::array::from_fn(|n| n as u32),
            pool: None,
            state: None,
            buffer: vec![0x1122_3344_5566_7788],
            tables: vec![0xAABB_CCDD],
        };
        let bytes = request.to_bytes();
        assert_eq!(bytes.len(), 4 * (8 + 11) + 8 + 4);
        assert_eq!(bytes[..12], [0, 0, 0, 2, 0, 0, 0, 8, 1, 2, 3, 4]);
        assert_eq!(bytes[20..32], [0, 0, 0, 1, 0, 0, 0, 1, 0, 0, 0, 0]);
        assert_eq!(bytes[72..76], [0, 0, 0, 10]);
        assert_eq!(bytes[76..80], [0x11, 0x22, 0x33, 0x44]);
        assert_eq!(bytes[84..], [0xAA, 0xBB, 0xCC, 0xDD]);
    }

    #[test]
    fn an_answer_is_taken_apart_in_order() {
        let request = Request::without_run(Call::Tables, Registers::default(), vec![0]);
        let length = Answer::byte_length(&request, 1);
        let bytes: Vec<u8> = (0..length as u8).collect();
        let answer = Answer::from_bytes(&bytes, &request);
        assert_eq!(answer.words[3], 0x0C0D_0E0F);
        assert_eq!(answer.registers[0], 0x1011_1213);
        assert_eq!(answer.pool, None);
        assert_eq!(answer.buffer, [0x3C3D_3E3F_4041_4243]);
        assert_eq!(answer.tables, [0x4445_4647]);
    }

    #[test]
    fn a_pool_stands_between_the_registers_and_the_buffer() {
        let mut pool = Pool {
            first: 0x0102_0304,
            size: 0x0506_0708,
            bits: [0; BIT_NUMBERS],
        };
        pool.bits[0] = 0x1112_1314_1516_1718;
        pool.bits[63] = 0x2122_2324_2526_2728;
        let call = PoolCall::Give { pfn: 9 };
        let request = Request::on_pool(call, Registers::default(), pool, vec![0x31 << 56]);
        let bytes = request.to_bytes();
        assert_eq!(bytes.len(), 4 * (8 + 11) + 520 + 8);
        assert_eq!(bytes[..8], [0, 0, 0, 11, 0, 0, 0, 9]);
        assert_eq!(bytes[76..84], [1, 2, 3, 4, 5, 6, 7, 8]);
        assert_eq!(bytes[84..86], [0x11, 0x12]);
        assert_eq!(bytes[594..597], [0x27, 0x28, 0x31]);
        let answer = Answer::from_bytes(&bytes[16..], &request);
        assert_eq!(bytes.len() - 16, Answer::byte_length(&request, 0));
        assert_eq!(answer.pool, request.pool);
        assert_eq!(answer.buffer, request.buffer);
    }

    #[test]
    fn a_pass_and_its_answer_are_read_as_they_were_written() {
        let pool = Pool {
            first: 7,
            size: 9,
            bits: std::array::from_fn(|n| 1 << n),
        };
        let call = PoolCall::Collect { id: 62 };
        let request = Request {
            tables: vec![5, 6],
            ..Request::on_pool(call, Registers::default(), pool, vec![3, 4])
        };
        let bytes = request.to_bytes();
        assert_eq!(bytes[..8], [0, 0, 0, 14, 0, 0, 0, 62]);
        let (head, rest) = bytes.split_at(4 * HEAD_WORDS);
        assert_eq!(Request::rest_length(head), rest.len());
        let read = Request::from_bytes(head, rest).expect("there is such a call");
        assert_eq!(read.to_bytes(), bytes);
        let answer = Answer {
            words: [2, 1, 0, 3],
            registers: request.registers,
            pool: request.pool.clone(),
            state: None,
            buffer: request.buffer.clone(),
            tables: Vec::new(),
        };
        let bytes = answer.to_bytes();
        assert_eq!(bytes.len(), Answer::byte_length(&request, 0));
        assert_eq!(Answer::from_bytes(&bytes, &request), answer);
    }

    #[test]
    fn the_second_units_state_stands_between_the_registers_and_the_buffer() {
        let call = UnitCall::from_words([15, 6, 0x0102_0304, 0x0506_0708, 2]);
        let call = call.expect("there is such an operation");
        assert_eq!((call.user, call.write), (false, true));
        let state = State {
            table_index: 31,
            boot_mode: true,
            fault_address: 0xFEDC,
        };
        let request = Request {
            tables: vec![5, 6],
            ..Request::of_mups16(call, Registers::default(), state, vec![0x31 << 56])
        };
        let bytes = request.to_bytes();
        assert_eq!(bytes.len(), 4 * (8 + 11) + 12 + 8 + 8);
        assert_eq!(bytes[..8], [0, 0, 0, 15, 0, 0, 0, 6]);
        assert_eq!(bytes[8..20], [1, 2, 3, 4, 5, 6, 7, 8, 0, 0, 0, 2]);
        let beside = [0, 0, 0, 31, 0, 0, 0, 1, 0, 0, 0xFE, 0xDC, 0x31];
        assert_eq!(bytes[76..89], beside);
        let (head, rest) = bytes.split_at(4 * HEAD_WORDS);
        assert_eq!(Request::rest_length(head), rest.len());
        let read = Request::from_bytes(head, rest).expect("there is such a call");
        assert_eq!(read.to_bytes(), bytes);
        assert_eq!(bytes.len() - 16 - 8, Answer::byte_length(&request, 0));
        let answer = Answer::from_bytes(&bytes[16..104 - 8], &request);
        assert_eq!(answer.state, request.state);
        assert_eq!(answer.buffer, request.buffer);
        assert_eq!(answer.to_bytes(), bytes[16..96]);
        assert!(UnitCall::from_words([15, 1, 0, 0, 0]).is_none());
    }
}
