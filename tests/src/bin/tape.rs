// tape: reads a tape from a file or from standard input and prints what the tape program prints.

use std::io::{Read, Write};

fn main() -> std::io::Result<()> {
    let mut tape = Vec::new();
    match std::env::args().nth(1) {
        Some(path) => tape = std::fs::read(path)?,
        None => {
            std::io::stdin().read_to_end(&mut tape)?;
        }
    }
    std::io::stdout().write_all(card_tests::program::print_tape(&tape).as_bytes())
}
