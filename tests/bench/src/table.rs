//! A table as a page in docs/ shows it.

use crate::rounds::Both;

pub fn head(title: &str, columns: &[&str]) {
    println!("{title}");
    println!();
    println!("| {} |", columns.join(" | "));
    println!("|{}", "---|".repeat(columns.len()));
}

/// The first cells, then the number of each side, then their ratio.
pub fn row(cells: &[&str], numbers: Both<f64>, ratio: f64) {
    let Both { rattle, second } = numbers.map(written);
    println!(
        "| {} | {rattle} | {second} | {ratio:.2} |",
        cells.join(" | ")
    );
}

/// Whole from a thousand on, thousands apart; one place behind the point below.
fn written(number: f64) -> String {
    if number < 999.5 {
        return format!("{number:.1}");
    }
    let digits = format!("{number:.0}");
    let mut text = String::new();
    for (place, digit) in digits.chars().enumerate() {
        if place > 0 && (digits.len() - place) % 3 == 0 {
            text.push(',');
        }
        text.push(digit);
    }
    text
}
