//! The program `check_log` in plain Rust: reads a log from standard input and prints the text of its steps, or its refusal.

use std::io::{self, Read, Write};

fn main() -> io::Result<()> {
    // One byte more than a log may have is enough to know that it is too long.
    let most = plain_season::MAX_BYTES + 1;
    let mut text = Vec::with_capacity(most);
    io::stdin()
        .lock()
        .take(most as u64)
        .read_to_end(&mut text)?;
    io::stdout().write_all(&plain_season::log::output(&text))
}
