//! Where the programs of both sides stand, seen from the root of the repository.

use crate::rounds::Both;
use std::path::{Path, PathBuf};

/// The checkout whose proved programs and library are measured; the environment's PROVED names another.
pub fn proved() -> PathBuf {
    std::env::var_os("PROVED").map_or_else(|| PathBuf::from("."), PathBuf::from)
}

/// The two programs, or none, having named the one that is not there.
pub fn pair(rattle: &str, second: &str) -> Option<Both<PathBuf>> {
    let pair = Both {
        rattle: proved().join("crates").join(rattle).join("out").join(rattle),
        second: Path::new("tests/bench/target/release").join(second),
    };
    let missing = [&pair.rattle, &pair.second]
        .into_iter()
        .find(|path| !path.is_file());
    if let Some(path) = missing {
        println!("skipped: {} is not there", path.display());
        return None;
    }
    Some(pair)
}
