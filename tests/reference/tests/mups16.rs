//! The memory unit of the MUPS/16, sentence by sentence.

use reference::mups16::*;
use reference::Refusal;

const MAPPED: u32 = 1 << 18;
const SYSTEM: u32 = 1 << 17;
const WRITABLE: u32 = 1 << 16;

/// A run whose entries are all this one.
fn all(entry: u32) -> Vec<u32> {
    vec![entry; ENTRIES]
}

/// A run of entries 0 but for these.
fn with(entries: &[(usize, u32)]) -> Vec<u32> {
    let mut run = all(0);
    for &(place, entry) in entries {
        run[place] = entry;
    }
    run
}

fn under(table_index: u32) -> State {
    State {
        table_index,
        ..State::default()
    }
}

fn in_boot_mode() -> State {
    State {
        boot_mode: true,
        fault_address: 0x1234,
        ..State::default()
    }
}

fn access(address: u16, user: bool, write: bool) -> Mapping {
    Mapping {
        address,
        user,
        write,
    }
}

/// The address, the faults' number and the fault address after it.
fn mapped(state: State, entries: &[u32], mapping: Mapping) -> (u32, u32, u16) {
    let (mapped, after) = map(state, entries, mapping);
    let mapped = mapped.expect("the run is 8,192 long");
    let others = |state: State| (state.table_index, state.boot_mode);
    assert_eq!(others(after), others(state));
    (mapped.address, mapped.faults.number(), after.fault_address)
}

#[test]
fn the_papers_address_is_mapped_by_its_page() {
    let entries = with(&[(0x05, MAPPED | 0x0732)]);
    let read = access(0x053A, true, false);
    assert_eq!(mapped(under(0), &entries, read), (0x07_323A, 0, 0));
}

#[test]
fn the_papers_address_passes_through_in_boot_mode() {
    let read = access(0x053A, true, false);
    for entries in [all(0), all(MAPPED | 0x0732), all(u32::MAX)] {
        assert_eq!(
            mapped(in_boot_mode(), &entries, read),
            (0x80_053A, 0, 0x1234)
        );
    }
}

#[test]
fn the_table_index_chooses_among_32_tables() {
    let entries: Vec<u32> = (0..8192).map(|at| MAPPED | at).collect();
    let read = access(0x053A, false, false);
    assert_eq!(mapped(under(0), &entries, read).0, 0x00_053A);
    assert_eq!(mapped(under(1), &entries, read).0, 0x01_053A);
    assert_eq!(mapped(under(31), &entries, read).0, 0x1F_053A);
    assert_eq!(mapped(under(33), &entries, read).0, 0x01_053A);
    let last = access(0xFFFF, false, false);
    assert_eq!(mapped(under(31), &entries, last).0, 0x1F_FFFF);
}

#[test]
fn each_check_faults_by_itself() {
    let number = |entry: u32, user: bool, write: bool| {
        mapped(under(0), &all(entry), access(0xA1B2, user, write)).1
    };
    let open = MAPPED | WRITABLE;
    assert_eq!(number(open, true, true), 0);
    assert_eq!(number(WRITABLE, true, true), 1);
    assert_eq!(number(MAPPED, true, true), 2);
    assert_eq!(number(open | SYSTEM, true, true), 4);
    assert_eq!(number(0, true, true), 1 + 2);
    assert_eq!(number(SYSTEM | WRITABLE, true, true), 1 + 4);
    assert_eq!(number(MAPPED | SYSTEM, true, true), 2 + 4);
    assert_eq!(number(SYSTEM, true, true), 1 + 2 + 4);
    assert_eq!(number(MAPPED, true, false), 0);
    assert_eq!(number(MAPPED | SYSTEM, false, false), 0);
    assert_eq!(number(SYSTEM, false, false), 1);
    assert_eq!(number(SYSTEM, true, false), 1 + 4);
    assert_eq!(number(SYSTEM, false, true), 1 + 2);
}

#[test]
fn a_faulting_map_answers_its_address_and_leaves_it() {
    let entries = with(&[(0xA1, SYSTEM | 0xBEEF), (0xA2, MAPPED | 0xCAFE)]);
    let mut state = under(0);
    let faulting = access(0xA1B2, true, true);
    assert_eq!(mapped(state, &entries, faulting), (0xBE_EFB2, 7, 0xA1B2));
    state.fault_address = 0xA1B2;
    let fine = access(0xA2C3, true, false);
    assert_eq!(mapped(state, &entries, fine), (0xCA_FEC3, 0, 0xA1B2));
    assert_eq!(fault_address(state), 0xA1B2);
    let again = access(0xA2C3, true, true);
    assert_eq!(mapped(state, &entries, again), (0xCA_FEC3, 2, 0xA2C3));
}

#[test]
fn entries_are_read_at_the_low_13_bits_whatever_the_table_index() {
    let entries = with(&[
        (0x053A, MAPPED | WRITABLE | 0x0732),
        (8191, SYSTEM | 0xFFFF),
    ]);
    for high in [0, 8192, 0xE000, 0xFFFF_E000] {
        assert_eq!(low_word(&entries, high + 0x053A), Ok(0x0732));
        assert_eq!(high_word(under(7), &entries, high + 0x053A), Ok(0x0705));
        assert_eq!(high_word(under(31), &entries, high + 8191), Ok(0x1F02));
        assert_eq!(low_word(&entries, high + 8191), Ok(0xFFFF));
        assert_eq!(low_word(&entries, high + 0x053B), Ok(0));
    }
    assert_eq!(high_word(under(0xFFFF_FFE3), &entries, 0), Ok(0x0300));
}

#[test]
fn an_entry_is_set_at_the_low_13_bits_and_nowhere_else() {
    for (a, place) in [(0, 0), (8191, 8191), (8192, 0), (0xFFFF_FFFF, 8191)] {
        let mut entries = all(u32::MAX);
        let entry = Entry::unpack(0xFFFD_0732);
        assert_eq!(set_entry(&mut entries, a, entry), Ok(()));
        let mut expected = all(u32::MAX);
        expected[place] = 0x0005_0732;
        assert_eq!(entries, expected);
    }
}

#[test]
fn bits_above_18_read_as_0() {
    let entries = all(0xFFF8_0000);
    let read = access(0x053A, true, true);
    assert_eq!(mapped(under(0), &entries, read), (0x3A, 3, 0x053A));
    assert_eq!(low_word(&entries, 5), Ok(0));
    assert_eq!(high_word(under(0), &entries, 5), Ok(0));
}

#[test]
fn a_table_index_keeps_its_low_5_bits() {
    for (a, index) in [(0, 0), (31, 31), (32, 0), (33, 1), (u32::MAX, 31)] {
        let state = State {
            table_index: index,
            ..in_boot_mode()
        };
        assert_eq!(set_table_index(in_boot_mode(), a), state);
    }
}

#[test]
fn a_run_of_another_length_is_refused_with_2_in_boot_mode_too() {
    let refused = Refusal::EntryLength;
    assert_eq!(refused.number(), 2);
    for length in [0, 1, 8191, 8193, 16384] {
        let mut entries = vec![u32::MAX; length];
        for state in [under(0), in_boot_mode()] {
            let write = access(0x053A, true, true);
            assert_eq!(map(state, &entries, write), (Err(refused), state));
            assert_eq!(high_word(state, &entries, 0), Err(refused));
        }
        assert_eq!(low_word(&entries, 0), Err(refused));
        let entry = Entry::unpack(0);
        assert_eq!(set_entry(&mut entries, 0, entry), Err(refused));
        assert_eq!(entries, vec![u32::MAX; length]);
    }
}

#[test]
fn a_state_is_handed_over_as_three_words() {
    let state = State {
        table_index: 31,
        boot_mode: true,
        fault_address: 0xFFFF,
    };
    assert_eq!(state.to_words(), [31, 1, 0xFFFF]);
    assert_eq!(State::from_words([31, 1, 0xFFFF]), state);
}
