//! What the programs share: their output is written to its last byte, or what failed is said.

use std::io::{self, Write};
use std::process::ExitCode;

/// Writes to standard output and leaves nothing behind in its buffer.
pub fn write(bytes: &[u8]) -> Result<(), String> {
    let mut output = io::stdout().lock();
    let written = output.write_all(bytes).and_then(|()| output.flush());
    written.map_err(|error| format!("standard output cannot be written: {error}"))
}

/// How a program ends that did what it should or could not; then it says why.
pub fn end(program: &str, done: Result<(), String>) -> ExitCode {
    let Err(error) = done else { return ExitCode::SUCCESS };
    // Where the message cannot be written either, the status alone is left to say it.
    let _ = writeln!(io::stderr(), "{program}: {error}");
    ExitCode::FAILURE
}
