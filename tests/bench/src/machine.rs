//! The machine that measures.

use std::fs::read_to_string;
use std::thread::available_parallelism;

/// The processor's model, how many this process may use, and how many processes wanted one in the
/// last minute.
pub fn line() -> String {
    let number = available_parallelism().map_or(1, |number| number.get());
    format!("{}, {number} to use, load {}", model(), load())
}

fn model() -> String {
    let text = read_to_string("/proc/cpuinfo").unwrap_or_default();
    let line = text.lines().find(|line| line.starts_with("model name"));
    let model = line.and_then(|line| line.split_once(':'));
    model.map_or("processor unknown".to_string(), |(_, model)| {
        model.trim().to_string()
    })
}

fn load() -> String {
    let text = read_to_string("/proc/loadavg").unwrap_or_default();
    text.split(' ').next().unwrap_or_default().to_string()
}
