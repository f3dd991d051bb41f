//! Outcomes of a line's text.

use crate::fault;
use crate::outcome::store::{empties, EMPTIED};
use reference::trace::Line;
use reference::Outcome;

const MOST_DIGITS: u32 = 6;

pub fn all() -> Vec<String> {
    let mut all: Vec<String> = (1..=MOST_DIGITS).map(digits).collect();
    all.extend([0, 1].map(at));
    for value in 1..=7 {
        all.extend([0, 1].map(|loads| fault(value, loads)));
    }
    all.push(fault(8, 1));
    all.extend(fault::OF_WALKS.map(|value| fault(value, 0)));
    all.extend(EMPTIED.map(done));
    all.extend([5, 6, 7, 8].map(refused));
    all.extend([0, u32::MAX].map(hex));
    all.extend((0..6).map(|zeros| hex((u32::MAX - 1) >> (4 * zeros))));
    all.extend((0..8).flat_map(|place| "0123456789ABCDEF".chars().map(move |c| digit(place, c))));
    all
}

pub fn of(number: usize, line: Line) -> Vec<String> {
    let mut outcomes = vec![digits(number.checked_ilog10().unwrap_or(0) + 1)];
    match line.outcome {
        Outcome::At(address) => {
            outcomes.extend([at(line.loads), hex(address)]);
            let text = format!("{address:08X}");
            outcomes.extend(text.chars().enumerate().map(|(place, c)| digit(place, c)));
        }
        Outcome::Fault(value) => outcomes.push(fault(value, line.loads)),
        Outcome::Done(emptied) => outcomes.push(done(emptied)),
        Outcome::Refused(refusal) => outcomes.push(refused(refusal.number())),
    }
    outcomes
}

fn digits(digits: u32) -> String {
    format!("line with a record number of {digits} digits")
}

fn at(loads: u32) -> String {
    format!("line at, loads {loads}")
}

fn fault(value: u32, loads: u32) -> String {
    format!("line {}, loads {loads}", fault::name(value))
}

fn done(emptied: u32) -> String {
    empties("line done,", emptied)
}

fn refused(number: u32) -> String {
    format!("line refused {number}")
}

/// An address with few digits is filled up with zeros.
fn hex(address: u32) -> String {
    match (address, address.leading_zeros() / 4) {
        (0 | u32::MAX, _) => format!("line at {address:08X}"),
        (_, zeros @ 0..=4) => format!("line at, {zeros} leading zeros"),
        _ => "line at, 5 leading zeros or more".to_string(),
    }
}

fn digit(place: usize, digit: char) -> String {
    format!("line at, digit {digit} at place {place}")
}
