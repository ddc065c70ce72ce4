//! Program `partycall`: a house call list on standard input, its answers on standard output.

use std::io::{self, Read, Write};

fn main() -> io::Result<()> {
    let mut input = Vec::new();
    io::stdin().read_to_end(&mut input)?;
    io::stdout().write_all(second::house::run(&input).as_bytes())
}
