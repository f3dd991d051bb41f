//! Outcomes of the lines of a file, a line for each identification.

use reference::report::{Totals, COLUMNS, FAULTS, IDENTIFICATIONS, LIMIT};

const MOST_DIGITS: usize = 10;
const SIGNS: [&str; 3] = ["below 0", "0 beside other totals", "above 0"];
const LIMITS: [i64; 2] = [LIMIT, -LIMIT];

pub fn all() -> Vec<String> {
    let mut all: Vec<String> = (0..COLUMNS - 1).map(above).collect();
    all.extend(SIGNS.map(net));
    all.extend(LIMITS.map(at));
    all.extend((1..=MOST_DIGITS).map(|digits| with_digits("above 0", digits)));
    all.extend((1..=MOST_DIGITS).map(|digits| with_digits("below 0", digits)));
    all.extend((0..IDENTIFICATIONS).map(of_identification));
    all
}

pub fn of(totals: &[Totals]) -> Vec<String> {
    let mut outcomes = Vec::new();
    for (identification, totals) in totals.iter().enumerate() {
        let columns = totals.columns();
        if columns == [0; COLUMNS] {
            continue;
        }
        outcomes.push(of_identification(identification));
        let (net_change, others) = columns.split_last().expect("there are fourteen");
        for (column, &total) in others.iter().enumerate() {
            if total > 0 {
                outcomes.push(above(column));
            }
        }
        outcomes.push(net(SIGNS[(1 + net_change.signum()) as usize]));
        if LIMITS.contains(net_change) {
            outcomes.push(at(*net_change));
        }
        for total in columns {
            let digits = total.unsigned_abs().to_string().len();
            match total {
                0 => {}
                1.. => outcomes.push(with_digits("above 0", digits)),
                _ => outcomes.push(with_digits("below 0", digits)),
            }
        }
    }
    outcomes
}

pub fn column_name(column: usize) -> String {
    match column {
        0 => "served accesses".to_string(),
        1 => "loads".to_string(),
        12 => "slots emptied".to_string(),
        13 => "a net change".to_string(),
        _ => format!("faults {}", FAULTS[column - 2]),
    }
}

fn above(column: usize) -> String {
    let name = column_name(column);
    format!("line with {name} above 0")
}

fn net(sign: &str) -> String {
    format!("line with a net change {sign}")
}

fn at(limit: i64) -> String {
    format!("line with {limit}")
}

fn with_digits(sign: &str, digits: usize) -> String {
    format!("line with a total {sign} of {digits} digits")
}

fn of_identification(identification: usize) -> String {
    format!("line of identification {identification} with a total that is not 0")
}
