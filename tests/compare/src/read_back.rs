//! What a student expects who reads the buffer back, to be held against the answers.
//!
//! It is told from the numbers that went in, by arithmetic alone: the second program's read has no
//! part in it.

use crate::expected::DONE;
use crate::protocol::{Answer, Call, Request};
use reference::{SELECT, SLOTS, TLB_HI};
use std::cell::Cell;
use std::rc::Rc;

const SELECTED: &str = "dump: setting SELECT leaves the buffer and every other register";
const UNTOUCHED: &str = "dump: a read leaves the buffer and every register";
const LOCATION: &str = "dump: the low four bits of TLB_HI's vpn are SELECT mod 16";
const PAIR: &str = "dump: TLB_HI and TLB_LO packed are the slot modulo 2^44";
const PAIR_AT_EXCEPTION: &str =
    "dump: TLB_HI and TLB_LO packed are the slot modulo 2^44, SELECT as an exception left it";
const PAIR_AFTER_EXCEPTION: &str =
    "dump: TLB_HI and TLB_LO packed are the slot modulo 2^44, SELECT set after an exception";
const CAUSE_KEPT: &str = "dump: after an exception and reads the cause has the access's page";
const STORED: &str = "dump: a TLB_LO write after reads stores the shared vpn15 and page_id";
const WRITTEN_HIGH: &str = "dump: a written entry's TLB_HI is read with SELECT's location";
const WRITTEN_LOW: &str = "dump: a written entry's TLB_LO is read as written";
const HIGH_AFTER_EXCEPTION: &str =
    "dump: a written entry's TLB_HI is read with SELECT's location, exceptions in between";
const LOW_AFTER_EXCEPTION: &str =
    "dump: a written entry's TLB_LO is read as written, exceptions in between";
const SLOT_BACK: &str = "write back: the slot is the dumped one modulo 2^44";
const ALL_BACK: &str = "write back: the 64 slots are the dumped ones modulo 2^44";

pub fn all() -> Vec<String> {
    [
        SELECTED,
        UNTOUCHED,
        LOCATION,
        PAIR,
        PAIR_AT_EXCEPTION,
        PAIR_AFTER_EXCEPTION,
        CAUSE_KEPT,
        STORED,
        WRITTEN_HIGH,
        WRITTEN_LOW,
        HIGH_AFTER_EXCEPTION,
        LOW_AFTER_EXCEPTION,
        SLOT_BACK,
        ALL_BACK,
    ]
    .map(String::from)
    .to_vec()
}

/// The last exception since TLB_HI was written.
#[derive(Clone, Copy)]
pub struct Exception {
    pub page: u32,
    pub context: u32,
    /// Whether SELECT is as the exception left it.
    pub selects: bool,
}

/// An entry that was written at the present SELECT.
#[derive(Clone, Copy)]
pub struct Written {
    pub high: u32,
    pub low: u32,
    pub exceptions: bool,
}

/// What the program answered to the read of TLB_HI, kept for that of TLB_LO.
pub type HighRead = Rc<Cell<Option<u32>>>;

pub enum Step {
    Select,
    /// TLB_HI is read, and TLB_LO next.
    High {
        read: HighRead,
        written: Option<Written>,
    },
    Low {
        high: HighRead,
        written: Option<Written>,
        exception: Option<Exception>,
    },
    /// TLB_LO is written where both were read just before.
    StoreAfterReads,
    /// TLB_LO is written in another buffer, the 64 slots in their order.
    StoreBack {
        dumped: Rc<Vec<u64>>,
    },
}

impl Step {
    pub fn points(&self, request: &Request, got: &Answer) -> Vec<(&'static str, bool)> {
        let select = request.registers[SELECT as usize];
        match self {
            Step::Select => vec![(SELECTED, is_selected(request, got))],
            Step::High { read, written } => {
                let high = value_read(got);
                read.set(high);
                let has_location = |high: u32| high / 64 % 16 == select % 16;
                let mut points = vec![
                    (LOCATION, high.is_some_and(has_location)),
                    (UNTOUCHED, is_untouched(request, got)),
                ];
                points.extend(written.map(|written| written.point_of_high(select, high)));
                points
            }
            Step::Low {
                high,
                written,
                exception,
            } => {
                let low = value_read(got);
                let packed = high.get().zip(low).map(|(high, low)| packed(high, low));
                let is_slot = packed == Some(request.buffer[select as usize] % (1 << 44));
                let mut points = vec![(PAIR, is_slot), (UNTOUCHED, is_untouched(request, got))];
                points.extend(written.map(|written| written.point_of_low(low)));
                if let Some(exception) = exception {
                    points.push((CAUSE_KEPT, exception.is_kept(got)));
                    points.push((exception.pair_point(), is_slot));
                }
                points
            }
            Step::StoreAfterReads => {
                let mut buffer = request.buffer.clone();
                let shared = request.registers[TLB_HI as usize];
                buffer[select as usize] = packed(shared, value_written(request));
                vec![(STORED, got.buffer == buffer)]
            }
            Step::StoreBack { dumped } => {
                let is_back = |slot: usize| got.buffer[slot] == dumped[slot] % (1 << 44);
                let mut points = vec![(SLOT_BACK, is_back(select as usize))];
                if select as usize == SLOTS - 1 {
                    points.push((ALL_BACK, (0..SLOTS).all(is_back)));
                }
                points
            }
        }
    }
}

impl Exception {
    fn is_kept(self, got: &Answer) -> bool {
        got.registers[TLB_HI as usize] == self.page * 64 + self.context
    }

    fn pair_point(self) -> &'static str {
        match self.selects {
            true => PAIR_AT_EXCEPTION,
            false => PAIR_AFTER_EXCEPTION,
        }
    }
}

impl Written {
    /// The written TLB_HI, the low four bits of its vpn replaced by the slot's location.
    fn point_of_high(self, select: u32, high: Option<u32>) -> (&'static str, bool) {
        let with_location = self.high / 1024 * 1024 + select % 16 * 64 + self.high % 64;
        let point = match self.exceptions {
            true => HIGH_AFTER_EXCEPTION,
            false => WRITTEN_HIGH,
        };
        (point, high == Some(with_location))
    }

    fn point_of_low(self, low: Option<u32>) -> (&'static str, bool) {
        let point = match self.exceptions {
            true => LOW_AFTER_EXCEPTION,
            false => WRITTEN_LOW,
        };
        (point, low == Some(self.low))
    }
}

/// The entry of a vpn's upper 15 bits, a page_id and 23 low bits.
fn packed(high: u32, low: u32) -> u64 {
    let (vpn, page_id) = (high / 64, high % 64);
    (u64::from(vpn / 16) << 29) + (u64::from(page_id) << 23) + u64::from(low)
}

fn value_read(got: &Answer) -> Option<u32> {
    match got.words {
        [0, value, 0, 0] => Some(value),
        _ => None,
    }
}

fn value_written(request: &Request) -> u32 {
    match request.call {
        Call::Write { value, .. } => value,
        other => panic!("{other:?} writes no register"),
    }
}

fn is_untouched(request: &Request, got: &Answer) -> bool {
    got.registers == request.registers && got.buffer == request.buffer
}

fn is_selected(request: &Request, got: &Answer) -> bool {
    let mut registers = request.registers;
    registers[SELECT as usize] = value_written(request);
    got.words == [DONE, 0, 0, 0] && got.registers == registers && got.buffer == request.buffer
}

#[cfg(test)]
mod tests {
    use super::*;
    use reference::Registers;

    /// The points of a read at slot 18, vpn15 3, page_id 5, low bits 9, by what was answered.
    fn points(high: u32, low: u32) -> Vec<(&'static str, bool)> {
        let registers = Registers {
            select: 18,
            ..Registers::default()
        };
        let mut buffer = vec![0; SLOTS];
        buffer[18] = 0xABC << 44 | 3 << 29 | 5 << 23 | 9;
        let request = |number| {
            let call = Call::Read { number };
            Request::without_run(call, registers, buffer.clone())
        };
        let answer = |value| Answer {
            words: [0, value, 0, 0],
            registers: registers.to_words(),
            pool: None,
            state: None,
            buffer: buffer.clone(),
            tables: Vec::new(),
        };
        let read = HighRead::default();
        let first = Step::High {
            read: Rc::clone(&read),
            written: None,
        };
        let second = Step::Low {
            high: read,
            written: None,
            exception: None,
        };
        let mut points = first.points(&request(7), &answer(high));
        points.extend(second.points(&request(8), &answer(low)));
        points.retain(|(_, holds)| !holds);
        points
    }

    #[test]
    fn the_slots_own_pair_holds() {
        assert_eq!(points((3 * 16 + 2) * 64 + 5, 9), []);
    }

    #[test]
    fn each_part_of_a_wrong_pair_shows() {
        assert_eq!(points((3 * 16 + 3) * 64 + 5, 9), [(LOCATION, false)]);
        assert_eq!(points((2 * 16 + 2) * 64 + 5, 9), [(PAIR, false)]);
        assert_eq!(points((3 * 16 + 2) * 64 + 4, 9), [(PAIR, false)]);
        assert_eq!(points((3 * 16 + 2) * 64 + 5, 8), [(PAIR, false)]);
    }
}
