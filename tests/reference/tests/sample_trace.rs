//! Document 01's sample trace as calls, to the unit, to the reader and to the account.

use reference::*;

struct Run {
    registers: Registers,
    buffer: Vec<u64>,
    words: Vec<u32>,
    reader: Reader,
    account: Account,
}

impl Run {
    fn begin() -> Run {
        let mut buffer = vec![0; SLOTS];
        let (_, registers) = start(&mut buffer);
        Run {
            registers,
            buffer,
            words: vec![0; 16384],
            reader: Reader::begin(vec![0; 16384]),
            account: Account::begin(),
        }
    }

    /// The unit's answer, with what the reader and the account have to say checked against it.
    fn call(&mut self, call: GuardedCall) -> (Outcome, u32) {
        let handed = Handed {
            registers: self.registers,
            buffer: SLOTS,
            tables: self.words.len(),
        };
        let said = self.reader.hear(handed, call);
        let (registers, buffer) = (self.registers, &mut self.buffer);
        let reply = match call {
            GuardedCall::Access(access) => served_access(registers, buffer, &self.words, access),
            GuardedCall::Store { index, value } => {
                table_store(registers, buffer, &mut self.words, index, value)
            }
            GuardedCall::Setting { number, value } => guarded_setting(registers, number, value),
        };
        let (outcome, loads) = match (said, call) {
            (Said::At(address), GuardedCall::Access(access)) => {
                let loaded = self.account.access(&self.reader, access);
                (Outcome::At(address), u32::from(loaded.is_some()))
            }
            (Said::Fault(value), GuardedCall::Access(access)) => {
                let loaded = self.account.access(&self.reader, access);
                (Outcome::Fault(value), u32::from(loaded.is_some()))
            }
            (Said::Written, GuardedCall::Store { .. }) => {
                (Outcome::Done(self.account.store(&self.reader)), 0)
            }
            (Said::Written, _) => (Outcome::Done(0), 0),
            (said, _) => panic!("{said:?}"),
        };
        assert_eq!((reply.outcome, reply.loads), (outcome, loads));
        self.registers = reply.registers;
        assert_eq!(self.words, self.reader.words());
        assert_eq!(
            self.registers.to_words()[..SETTINGS],
            self.reader.settings()
        );
        for slot in 0..SLOTS {
            assert_eq!(Entry::unpack(self.buffer[slot]), self.account.slot(slot));
        }
        (outcome, loads)
    }
}

fn access(address: u32, user: bool, write: bool, draw: u32) -> GuardedCall {
    GuardedCall::Access(Access {
        address,
        user,
        write,
        draw,
    })
}

#[test]
fn the_sample_trace_up_to_its_malformed_record() {
    let store = |index, value| GuardedCall::Store { index, value };
    let setting = |number, value| GuardedCall::Setting { number, value };
    let records = [
        (store(5, 0x8000_0001), Outcome::Done(0), 0),
        (store(512, 0x8000_0001), Outcome::Done(0), 0),
        (store(1025, 0xD000_0123), Outcome::Done(0), 0),
        (setting(5, 5), Outcome::Done(0), 0),
        (setting(2, 1), Outcome::Done(0), 0),
        (access(0x2ABC, true, false, 2), Outcome::At(0x0024_6ABC), 1),
        (access(0x2ABC, true, true, 0), Outcome::At(0x0024_6ABC), 0),
        (access(0x4000, true, false, 1), Outcome::Fault(0x310), 0),
        (store(1025, 0), Outcome::Done(1), 0),
    ];
    let mut run = Run::begin();
    for (record, (call, outcome, loads)) in records.into_iter().enumerate() {
        assert_eq!(run.call(call), (outcome, loads), "record {record}");
    }
}
