//! The bench program: standard input in, one line out.

use reference::api;
use std::io::{self, Read, Write};

fn main() -> io::Result<()> {
    let mut input = Vec::new();
    io::stdin()
        .take(api::BENCH_BYTES as u64)
        .read_to_end(&mut input)?;
    io::stdout().write_all(api::bench(&input).as_bytes())
}
