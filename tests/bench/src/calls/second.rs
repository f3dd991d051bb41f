//! The second program's calls, in the form of the C calls.

use super::Calls;
use reference::host;
use std::slice::{from_raw_parts, from_raw_parts_mut};

pub const CALLS: Calls = Calls {
    start,
    guarded_setting,
    raw_access,
    served_access,
    table_store,
};

unsafe extern "C" fn start(
    registers: *mut u8,
    registers_len: usize,
    buffer: *mut u8,
    buffer_len: usize,
) -> u64 {
    let registers = from_raw_parts_mut(registers, registers_len);
    let buffer = from_raw_parts_mut(buffer, buffer_len);
    host::start(registers, buffer)
}

unsafe extern "C" fn guarded_setting(
    registers: *mut u8,
    registers_len: usize,
    number: u32,
    value: u32,
) -> u64 {
    let registers = from_raw_parts_mut(registers, registers_len);
    host::guarded_setting(registers, number, value)
}

unsafe extern "C" fn raw_access(
    registers: *mut u8,
    registers_len: usize,
    buffer: *const u8,
    buffer_len: usize,
    address: u32,
    user: bool,
    write: bool,
    draw: u32,
) -> u64 {
    let registers = from_raw_parts_mut(registers, registers_len);
    let buffer = from_raw_parts(buffer, buffer_len);
    host::raw_access(registers, buffer, address, user, write, draw)
}

unsafe extern "C" fn served_access(
    registers: *mut u8,
    registers_len: usize,
    buffer: *mut u8,
    buffer_len: usize,
    tables: *const u8,
    tables_len: usize,
    address: u32,
    user: bool,
    write: bool,
    draw: u32,
) -> u64 {
    let registers = from_raw_parts_mut(registers, registers_len);
    let buffer = from_raw_parts_mut(buffer, buffer_len);
    let tables = from_raw_parts(tables, tables_len);
    host::served_access(registers, buffer, tables, address, user, write, draw)
}

unsafe extern "C" fn table_store(
    registers: *const u8,
    registers_len: usize,
    buffer: *mut u8,
    buffer_len: usize,
    tables: *mut u8,
    tables_len: usize,
    index: u32,
    value: u32,
) -> u64 {
    let registers = from_raw_parts(registers, registers_len);
    let buffer = from_raw_parts_mut(buffer, buffer_len);
    let tables = from_raw_parts_mut(tables, tables_len);
    host::table_store(registers, buffer, tables, index, value)
}
