//! What is said where library and twin differ: the product in a file, or the text, the call, and both
//! answers.

use std::fmt::{Debug, Write};
use std::fs;
use std::sync::atomic::{AtomicUsize, Ordering};

use twin::words::{Answer, Call};

use crate::rooms::Lengths;

/// The longest product that is written whole; of a longer one, its headers.
const LONGEST_WRITTEN: usize = 100_000_000;
const LONGEST_HEADERS: usize = 50_399;
/// The most elements of a room that are shown.
const MOST_SHOWN: usize = 40;

/// What was asked of the library and what it returned.
pub(crate) struct Asked<'a> {
    pub product: &'a [u8],
    pub origin: &'a str,
    pub call: Call,
    pub lengths: Lengths,
    pub returned: u32,
    /// Whether nothing behind the answer was written.
    pub untouched: bool,
}

/// The report; `expected` is the twin's answer, or none where a room was too short.
pub(crate) fn report(asked: &Asked, rooms: &Answer, expected: Option<&Answer>) -> String {
    let mut text = String::from("the library does not answer as the twin\n");
    text.push_str(&match asked.call {
        Call::TimeOfText => format!("  text:     {}\n", asked.product.escape_ascii()),
        Call::TextOfTime { .. } => String::new(),
        _ => report_of_product(asked.origin, asked.product),
    });
    let mut say = |line: String| text.push_str(&(line + "\n"));
    say(format!("  call:     {:?}", asked.call));
    say(format!("  lent:     {:?}", asked.lengths));
    say(format!("  returned: {}", asked.returned));
    let Some(expected) = expected else {
        say("  a room is too short: it returns 1 and writes nothing".into());
        say(format!("  library's rooms: {}", shown_answer(rooms)));
        return text;
    };
    if !asked.untouched {
        say("  elements outside the answer were written".into());
    }
    say(format!("  library:  {}", shown_answer(rooms)));
    say(format!("  twin:     {}", shown_answer(expected)));
    say(first_difference("words", &rooms.words, &expected.words));
    say(first_difference("bytes", &rooms.bytes, &expected.bytes));
    say(first_difference("doubles", &rooms.double_bits, &expected.double_bits));
    text
}

/// Where a product comes from and the file it is written to.
pub fn report_of_product(origin: &str, product: &[u8]) -> String {
    format!("  product:  {origin}, {} bytes\n  kept in:  {}\n", product.len(), keep(product))
}

/// Writes the product to a file of the system's temporary folder and tells its path.
fn keep(product: &[u8]) -> String {
    static KEPT: AtomicUsize = AtomicUsize::new(0);
    let number = KEPT.fetch_add(1, Ordering::Relaxed);
    let path = std::env::temp_dir().join(format!("ambrothel-{}-{number}", std::process::id()));
    let whole = product.len() <= LONGEST_WRITTEN;
    let part = if whole { product } else { &product[..LONGEST_HEADERS] };
    match fs::write(&path, part) {
        Ok(()) if whole => path.display().to_string(),
        Ok(()) => format!("{} (its first {} bytes)", path.display(), part.len()),
        Err(error) => format!("no file: {error}"),
    }
}

fn shown_answer(answer: &Answer) -> String {
    let words = shown(&answer.words);
    format!("words {words} bytes {} doubles {}", shown(&answer.bytes), shown(&answer.double_bits))
}

fn shown<T: Debug>(elements: &[T]) -> String {
    let mut text = String::from("[");
    for element in elements.iter().take(MOST_SHOWN) {
        write!(text, "{element:?} ").expect("writing to memory does not fail");
    }
    let rest = elements.len().saturating_sub(MOST_SHOWN);
    let end = if rest > 0 { format!("and {rest} more]") } else { "]".into() };
    text.trim_end().to_string() + &end
}

/// Where a room first differs from what belongs there.
fn first_difference<T: Debug + PartialEq>(room: &str, lent: &[T], expected: &[T]) -> String {
    match lent.iter().zip(expected).position(|(one, two)| one != two) {
        Some(index) => {
            let (library, twin) = (&lent[index], &expected[index]);
            format!("  first difference at {room}[{index}]: library {library:?}, twin {twin:?}")
        }
        None => format!("  no difference in the {} {room} of the answer", expected.len()),
    }
}
