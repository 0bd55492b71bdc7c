//! Reads lines by `read_line` and answers each with `ok`: what a script costs at the least.

use std::io::{self, BufRead, BufWriter, Write};

fn main() -> io::Result<()> {
    let mut input = io::stdin().lock();
    let mut output = BufWriter::new(io::stdout().lock());
    let mut line = String::new();
    while input.read_line(&mut line)? > 0 {
        output.write_all(b"ok\n")?;
        line.clear();
    }
    output.flush()
}
