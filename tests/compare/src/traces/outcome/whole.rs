//! Outcomes of a whole trace.

use crate::traces::LENGTHS;
use reference::trace::RECORD_BYTES;

pub fn all() -> Vec<String> {
    let mut all = Vec::new();
    for cut in [0, 1] {
        all.extend(LENGTHS.map(|records| length(records, cut)));
        all.push(length(3, cut));
    }
    for bytes in 1..RECORD_BYTES {
        all.extend([piece(bytes, 0), piece(bytes, 1)]);
    }
    all
}

pub fn of(records: usize, cut: usize) -> Vec<String> {
    let mut outcomes = vec![length(records, cut)];
    if cut > 0 {
        outcomes.push(piece(cut, records));
    }
    outcomes
}

fn length(records: usize, cut: usize) -> String {
    let records = match LENGTHS.contains(&records) {
        true => format!("{records} records"),
        false => "another number of records".to_string(),
    };
    let cut = if cut > 0 { " and a last piece" } else { "" };
    format!("trace of {records}{cut}")
}

fn piece(bytes: usize, records: usize) -> String {
    match records {
        0 => format!("trace of a last piece of {bytes} bytes alone"),
        _ => format!("trace with a last piece of {bytes} bytes"),
    }
}
