//! Reads the program's file on standard input and prints the reading's answer.

use std::io::{Read, Write, stdin, stdout};

fn main() -> std::io::Result<()> {
    let mut input = Vec::new();
    stdin().read_to_end(&mut input)?;
    stdout().write_all(reading::file::answer(&input).as_bytes())
}
