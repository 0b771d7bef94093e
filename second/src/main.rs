//! The frame book on standard input and output.
#![forbid(unsafe_code)]

use std::io;

fn main() -> io::Result<()> {
    second::book::run(io::stdin().lock(), io::stdout().lock())
}
