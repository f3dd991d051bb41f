//! The C calls over bytes, made in this process.

mod cases;
mod proved;
mod second;
mod unit;
mod work;

use crate::clock;
use crate::programs;
use crate::rounds::{medians, Both};
use crate::table;
use cases::Case;
use std::hint::black_box;
use std::time::Duration;
use unit::Unit;

type Start = unsafe extern "C" fn(*mut u8, usize, *mut u8, usize) -> u64;
type GuardedSetting = unsafe extern "C" fn(*mut u8, usize, u32, u32) -> u64;
type RawAccess =
    unsafe extern "C" fn(*mut u8, usize, *const u8, usize, u32, bool, bool, u32) -> u64;
type ServedAccess = unsafe extern "C" fn(
    *mut u8,
    usize,
    *mut u8,
    usize,
    *const u8,
    usize,
    u32,
    bool,
    bool,
    u32,
) -> u64;
type TableStore =
    unsafe extern "C" fn(*const u8, usize, *mut u8, usize, *mut u8, usize, u32, u32) -> u64;

/// The five calls as include/mmu.h declares them.
#[derive(Clone, Copy)]
pub struct Calls {
    start: Start,
    guarded_setting: GuardedSetting,
    raw_access: RawAccess,
    served_access: ServedAccess,
    table_store: TableStore,
}

/// Many short rounds: another process that takes the processor away spoils few of them.
const ROUNDS: usize = 101;

/// The slower side's round lasts about this long.
const LONG_ENOUGH: Duration = Duration::from_millis(1);

pub fn measure() -> Result<(), String> {
    let Some(rattle) = proved::calls() else {
        let library = programs::proved().join("target/staticlib/libmmu_c.a");
        println!("skipped: {} was not there at the build", library.display());
        return Ok(());
    };
    let sides = Both {
        rattle,
        second: second::CALLS,
    };
    let columns = ["call", "tables, bytes", "Rattle", "second program", "ratio"];
    let title = format!("The C calls, ns a call, {ROUNDS} rounds");
    table::head(&title, &columns);
    for case in cases::all() {
        measure_case(sides, &case)?;
    }
    Ok(())
}

fn measure_case(sides: Both<Calls>, case: &Case) -> Result<(), String> {
    let (turns, expected) = turns_for(sides, case);
    let medians = medians(ROUNDS, sides, |calls| {
        let (time, end) = time(calls, case, turns);
        match end == expected {
            true => Ok(time.as_secs_f64()),
            false => Err(format!("{}: answers or bytes differ", case.name)),
        }
    })?;
    let calls = f64::from(turns) * case.work.len() as f64;
    let nanoseconds = medians.seconds.map(|seconds| seconds / calls * 1e9);
    table::row(&[case.name, &case.tables()], nanoseconds, medians.ratio);
    Ok(())
}

/// How often the work is to be done, and what it then comes to with the second program.
fn turns_for(sides: Both<Calls>, case: &Case) -> (u32, End) {
    let mut turns = 1;
    loop {
        let (second, end) = time(sides.second, case, turns);
        let (rattle, _) = time(sides.rattle, case, turns);
        if rattle.max(second) >= LONG_ENOUGH {
            return (turns, end);
        }
        turns *= 2;
    }
}

/// The sum of the answers, and the bytes that the calls leave.
type End = (u64, Unit);

fn time(calls: Calls, case: &Case, turns: u32) -> (Duration, End) {
    let mut unit = case.unit.clone();
    let calls = black_box(calls);
    let begun = clock::of_this_thread();
    let sum = case.work.sum(calls, &mut unit, turns);
    (clock::of_this_thread() - begun, (sum, unit))
}
