//! The SPH lines, all bytes of the SPH before the DSDs: rule 7.

use crate::layout::MAIN_HEADER_SIZE;
use crate::refusal::Refusal;
use crate::text::{is_text, run_length};

/// Rule 7: every line is good and ended before the DSDs start.
pub(crate) fn check_sph_lines(product: &[u8], lines_end: usize) -> Result<(), Refusal> {
    let mut start = MAIN_HEADER_SIZE;
    while start < lines_end {
        match good_line(&product[start..lines_end]) {
            Some(length) => start += length,
            None => return Err(Refusal::without_entry(7, start as u64)),
        }
    }
    Ok(())
}

/// The length, with its byte 10, of a good line at the start of these bytes, or nothing.
fn good_line(bytes: &[u8]) -> Option<usize> {
    let content = match bytes[0] {
        b' ' => run_length(bytes, |byte| byte == b' '),
        b'A'..=b'Z' => named_content(bytes)?,
        _ => return None,
    };
    (bytes.get(content) == Some(&b'\n')).then_some(content + 1)
}

/// The length of a keyword, `=` and a value, or nothing.
fn named_content(bytes: &[u8]) -> Option<usize> {
    let keyword = run_length(bytes, is_keyword);
    if bytes.get(keyword) != Some(&b'=') {
        return None;
    }
    let value = keyword + 1;
    if bytes.get(value) != Some(&b'"') {
        let length = run_length(&bytes[value..], is_text);
        return (length > 0).then_some(value + length);
    }
    let close = value + 1 + run_length(&bytes[value + 1..], is_text);
    (bytes.get(close) == Some(&b'"')).then_some(close + 1)
}

fn is_keyword(byte: u8) -> bool {
    byte.is_ascii_uppercase() || byte.is_ascii_digit() || byte == b'_'
}
