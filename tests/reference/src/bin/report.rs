//! Writes the report over the files that the arguments name to standard output.

use std::io::{self, BufWriter};

fn main() -> io::Result<()> {
    let output = BufWriter::with_capacity(65536, io::stdout().lock());
    reference::report::run(std::env::args_os().skip(1), output)
}
