//! Outcomes of asking for the table run that the program keeps.

const NONE: &str = "table run asked for, none given";

pub fn all() -> Vec<String> {
    let mut all: Vec<String> = [1024, 16384, 1025].map(run_of).to_vec();
    all.push(NONE.to_string());
    all
}

pub fn of(words: &[u32]) -> Vec<String> {
    match words.len() {
        0 => vec![NONE.to_string()],
        length => vec![run_of(length)],
    }
}

fn run_of(length: usize) -> String {
    match length {
        16384 => "table run asked for, 16384 words".to_string(),
        _ if length.is_multiple_of(1024) => {
            "table run asked for, a shorter multiple of 1024".to_string()
        }
        _ => "table run asked for, no multiple of 1024".to_string(),
    }
}
