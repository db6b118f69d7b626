//! Runs one task on a board; docs/RULES.md says what it prints.

use std::error::Error;
use std::io::{self, Write};

fn main() -> Result<(), Box<dyn Error>> {
    let listing = reference::shift()?;
    io::stdout().write_all(listing.as_bytes())?;
    Ok(())
}
