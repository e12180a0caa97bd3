//! Reads a day sheet from standard input and prints what it answers.

use std::io::{self, Read, Write};

fn main() -> io::Result<()> {
    let mut sheet = Vec::new();
    io::stdin().lock().read_to_end(&mut sheet)?;
    io::stdout()
        .lock()
        .write_all(plain::sheet::run(&sheet).as_bytes())
}
