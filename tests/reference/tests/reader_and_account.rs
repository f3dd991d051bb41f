//! The reader's refusals and answers, and the account's loads and sweeps.

mod common;

use common::*;
use reference::*;

fn handed() -> Handed {
    Handed {
        registers: Registers::default(),
        buffer: SLOTS,
        tables: 4096,
    }
}

fn set(reader: &mut Reader, number: u32, value: u32) {
    let said = reader.hear(handed(), GuardedCall::Setting { number, value });
    assert_eq!(said, Said::Written);
}

fn store(reader: &mut Reader, index: usize, value: u32) -> Said {
    let index = index as u32;
    reader.hear(handed(), GuardedCall::Store { index, value })
}

/// The reader of `Unit::new`'s tables, enabled under its identification.
fn reader() -> Reader {
    let mut reader = Reader::begin(Unit::new().words);
    set(&mut reader, 2, 1);
    set(&mut reader, 5, ID);
    reader
}

fn hear(reader: &mut Reader, access: Access) -> Said {
    reader.hear(handed(), GuardedCall::Access(access))
}

#[test]
fn the_answer_without_a_buffer() {
    let mut reader = reader();
    assert_eq!(hear(&mut reader, read(PAGE, 0)), Said::Fault(0x310));
    store(&mut reader, Unit::own(PAGE), PRESENT | 7);
    assert_eq!(hear(&mut reader, read(PAGE, 0)), Said::Fault(8));
    set(&mut reader, 1, 4);
    assert_eq!(hear(&mut reader, read(PAGE, 0)), Said::Fault(4));
    set(&mut reader, 1, 3);
    store(&mut reader, Unit::own(PAGE), PRESENT | VALID | KERNEL | 7);
    assert_eq!(hear(&mut reader, read(PAGE, 0)), Said::At(7 * 8192));
    let user_write = Access {
        user: true,
        write: true,
        ..read(PAGE, 0)
    };
    assert_eq!(hear(&mut reader, user_write), Said::Fault(3));
    store(&mut reader, GLOBAL_ROOT, PRESENT);
    assert_eq!(hear(&mut reader, user_write), Said::Fault(0x1120));
    set(&mut reader, 0, 1);
    set(&mut reader, 3, 0xC);
    assert_eq!(hear(&mut reader, user_write), Said::Fault(0x1120));
    let address = 0xC000_0000 + PAGE * 8192;
    assert_eq!(hear(&mut reader, read(PAGE, 0)), Said::At(address));
    set(&mut reader, 2, 0);
    assert_eq!(hear(&mut reader, read(PAGE, 0)), Said::At(PAGE * 8192));
}

#[test]
fn the_readers_refusals_change_nothing() {
    let mut reader = reader();
    let words = reader.words().to_vec();
    let settings = reader.settings();
    let test_mode = Registers {
        test: 1,
        ..Registers::default()
    };
    let too_large = Registers {
        ctrl: 8,
        ..Registers::default()
    };
    let access = GuardedCall::Access(read(PAGE, 4));
    let past = GuardedCall::Store {
        index: 4096,
        value: 1,
    };
    let switch = GuardedCall::Setting {
        number: 5,
        value: 64,
    };
    let unknown = GuardedCall::Setting {
        number: 6,
        value: 0,
    };
    let calls = [
        (too_large, 63, 4096, access, 1),
        (test_mode, 63, 4096, access, 2),
        (test_mode, 64, 4000, access, 3),
        (test_mode, 64, 4096, access, 4),
        (test_mode, 64, 4096, GuardedCall::Access(read(PAGE, 3)), 5),
        (too_large, 0, 0, past, 1),
        (test_mode, 0, 0, past, 2),
        (test_mode, 64, 0, past, 3),
        (test_mode, 64, 4096, past, 6),
        (too_large, 0, 0, switch, 1),
        (test_mode, 0, 0, switch, 5),
        (test_mode, 0, 0, unknown, 7),
    ];
    for (registers, buffer, tables, call, number) in calls {
        let handed = Handed {
            registers,
            buffer,
            tables,
        };
        assert_eq!(reader.hear(handed, call), Said::Refused(number));
    }
    assert_eq!((reader.words(), reader.settings()), (&words[..], settings));
}

#[test]
fn a_page_that_sits_not_valid_is_loaded_over_itself() {
    let mut reader = reader();
    let mut account = Account::begin();
    store(&mut reader, Unit::own(PAGE), PRESENT | 7);
    assert_eq!(account.access(&reader, read(PAGE, 2)), Some(slot(2, 1)));
    assert_eq!(account.access(&reader, read(PAGE, 0)), Some(slot(2, 1)));
    set(&mut reader, 1, 4);
    assert!(!account.first_try_misses(&reader, read(PAGE, 0)));
    assert_eq!(account.access(&reader, read(PAGE, 0)), None);
}

#[test]
fn a_sweep_counts_what_the_tables_no_longer_say() {
    let mut reader = reader();
    let mut account = Account::begin();
    for page in [PAGE, PAGE + 1] {
        store(&mut reader, Unit::own(page), PRESENT | VALID | page);
        assert_eq!(account.store(&reader), 0);
        account.access(&reader, read(page, 1));
    }
    store(&mut reader, Unit::own(PAGE), PRESENT | VALID | 3);
    assert_eq!(account.store(&reader), 1);
    assert_eq!(account.slot(slot(1, 1)), Entry::empty(1));
    store(&mut reader, GLOBAL_ROOT, PRESENT);
    assert_eq!(account.store(&reader), 1);
    assert_eq!(account, Account::begin());
}
