//! The proved calls, linked from libmmu_c.a where it was there at the build.

use super::Calls;

#[cfg(proved)]
mod library {
    unsafe extern "C" {
        pub fn mmu_start(
            registers: *mut u8,
            registers_len: usize,
            buffer: *mut u8,
            buffer_len: usize,
        ) -> u64;

        pub fn mmu_guarded_setting(
            registers: *mut u8,
            registers_len: usize,
            number: u32,
            value: u32,
        ) -> u64;

        pub fn mmu_raw_access(
            registers: *mut u8,
            registers_len: usize,
            buffer: *const u8,
            buffer_len: usize,
            address: u32,
            user: bool,
            write: bool,
            draw: u32,
        ) -> u64;

        pub fn mmu_served_access(
            registers: *mut u8,
            registers_len: usize,
            buffer: *mut u8,
            buffer_len: usize,
            tables: *const u8,
            tables_len: usize,
            address: u32,
            user: bool,
            write: bool,
            draw: u32,
        ) -> u64;

        pub fn mmu_table_store(
            registers: *const u8,
            registers_len: usize,
            buffer: *mut u8,
            buffer_len: usize,
            tables: *mut u8,
            tables_len: usize,
            index: u32,
            value: u32,
        ) -> u64;
    }
}

#[cfg(proved)]
pub fn calls() -> Option<Calls> {
    Some(Calls {
        start: library::mmu_start,
        guarded_setting: library::mmu_guarded_setting,
        raw_access: library::mmu_raw_access,
        served_access: library::mmu_served_access,
        table_store: library::mmu_table_store,
    })
}

#[cfg(not(proved))]
pub fn calls() -> Option<Calls> {
    None
}
