//! Shows how the kinds of signature fill; docs/RULES.md says what it reads and writes.

use std::io::{self, BufWriter};
use std::process::ExitCode;

fn main() -> io::Result<ExitCode> {
    let out = BufWriter::new(io::stdout().lock());
    let status = reference::punch(io::stdin().lock(), out, io::stderr().lock())?;
    Ok(ExitCode::from(status))
}
