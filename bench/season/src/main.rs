//! Reads a season's text from standard input and prints its report, or its refusal.

use std::io::{self, Read, Write};

fn main() -> io::Result<()> {
    // One byte more than a text may have is enough to know that it is too long.
    let most = plain_season::MAX_BYTES + 1;
    let mut text = Vec::with_capacity(most);
    io::stdin()
        .lock()
        .take(most as u64)
        .read_to_end(&mut text)?;
    io::stdout().write_all(plain_season::output(&text).as_bytes())
}
