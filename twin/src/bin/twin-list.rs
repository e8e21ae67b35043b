//! Reads standard input and writes its listing.

use std::io::{self, Read};
use std::process::ExitCode;

use twin::output;

fn list() -> Result<(), String> {
    let mut input = Vec::with_capacity(twin::LONGEST_LISTED + 1);
    let read = io::stdin().lock().take(twin::LONGEST_LISTED as u64 + 1).read_to_end(&mut input);
    read.map_err(|error| format!("standard input cannot be read: {error}"))?;
    output::write(&twin::listing(&input))
}

fn main() -> ExitCode {
    output::end("twin-list", list())
}
