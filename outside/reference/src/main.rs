//! Reads a script from standard input and writes its listing.

use std::io::{self, Read, Write};

fn main() -> io::Result<()> {
    // One byte over the limit is enough to know that the script is too long.
    let most = reference::SCRIPT_LIMIT as u64 + 1;
    let mut script = Vec::new();
    io::stdin().lock().take(most).read_to_end(&mut script)?;
    io::stdout().lock().write_all(&reference::list(&script))
}
