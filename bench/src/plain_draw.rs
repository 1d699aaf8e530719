//! The program in plain Rust: reads a frame file from standard input and prints what the rules settle.

#[allow(dead_code)]
mod plain;

use std::io::{Read, Write};

fn main() -> std::io::Result<()> {
    let mut input = Vec::new();
    std::io::stdin().read_to_end(&mut input)?;
    std::io::stdout().write_all(plain::respond::respond(&input).as_bytes())
}
