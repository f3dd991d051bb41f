//! Runs the trace on standard input and writes its lines to standard output.

use std::io::{self, BufWriter};

fn main() -> io::Result<()> {
    let output = BufWriter::with_capacity(65536, io::stdout().lock());
    reference::trace::run(io::stdin().lock(), output)
}
