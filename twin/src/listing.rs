//! The listing: what the program writes for an input of any length.

use std::io::Write;

use crate::descriptors::{name_in, Entry, SPARE};
use crate::judged::Judged;
use crate::refusal::Refusal;
use crate::sets::ranks;

/// The longest input that is listed.
pub const LONGEST_LISTED: usize = 65_536;

/// The listing of an input. Every line ends in byte 10.
pub fn listing(input: &[u8]) -> Vec<u8> {
    let mut lines = Vec::new();
    let written = if input.len() > LONGEST_LISTED {
        writeln!(lines, "longer than {LONGEST_LISTED}")
    } else {
        match Judged::of(input) {
            Ok(judged) => write_entries(&mut lines, &judged),
            Err(Refusal { number, place, entry }) => {
                writeln!(lines, "refused {number} {place} {entry}")
            }
        }
    };
    written.expect("writing to memory does not fail");
    lines
}

fn write_entries(lines: &mut Vec<u8>, judged: &Judged) -> std::io::Result<()> {
    writeln!(lines, "size {}", judged.product.len())?;
    let ranks = ranks(judged.entries());
    for (entry, values) in judged.entries().iter().enumerate() {
        if values.set_type == SPARE {
            writeln!(lines, "entry {entry} spare")?;
            continue;
        }
        write!(lines, "entry {entry} {} ", char::from(values.set_type))?;
        lines.extend_from_slice(without_trailing_blanks(name_in(judged.descriptor(entry))));
        let Entry { offset, size, count, record_size, .. } = values;
        writeln!(lines, " {offset} {size} {count} {record_size} {}", ranks[entry])?;
    }
    writeln!(lines, "accepted")
}

fn without_trailing_blanks(name: &[u8]) -> &[u8] {
    let blanks = name.iter().rev().take_while(|&&byte| byte == b' ').count();
    &name[..name.len() - blanks]
}
