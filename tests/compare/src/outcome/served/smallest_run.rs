//! What accepted served accesses do on the smallest table run.

use super::{path, Served};
use crate::outcome::refused::{smallest_run, SMALLEST_RUN};
use reference::{Level, Translation};

const HIT: &str = "first try hits";

pub fn all(call: &str) -> Vec<String> {
    let mut all = vec![smallest_run(call), with(call, HIT)];
    let endings = path::endings_without_leaf(&[Level::Root, Level::Directory]);
    all.extend(endings.iter().map(|ending| with(call, ending)));
    all
}

/// A load is none of the outcomes that have to happen here.
pub fn of(call: &str, served: &Served) -> Vec<String> {
    if served.words.len() != SMALLEST_RUN {
        return Vec::new();
    }
    let mut outcomes = vec![smallest_run(call)];
    match served.first_try() {
        _ if served.registers.enable == 0 => {}
        Translation::OneHit { .. } => outcomes.push(with(call, HIT)),
        Translation::Miss => {
            let endings = path::of_miss(served);
            outcomes.extend(endings.iter().map(|ending| with(call, ending)));
        }
        _ => {}
    }
    outcomes
}

fn with(call: &str, path: &str) -> String {
    format!("{}, {path}", smallest_run(call))
}
