//! What the tests share: products by name, where their length is written, bytes to put in the place of others, and the
//! question whether a product is refused.

use std::fmt::Arguments;

use compare::{number_fields, report_of_product, Comparer, NumberField};
use twin::builder::{named_product, Description, EntryDescription, Generator};
use twin::words::Call;

/// Choices of records, fields and points that are the same in every run.
pub fn choices() -> Generator {
    Generator::new(7)
}

pub fn product(name: &str) -> Vec<u8> {
    named_product(name).unwrap_or_else(|| panic!("no product is named {name}"))
}

/// A product of one set with one record.
pub fn one_record(record: Vec<u8>) -> Vec<u8> {
    Description::new(vec![EntryDescription::new(b'G', "DEMO", record)]).build()
}

/// The field of TOT_SIZE.
pub fn total_size(product: &[u8]) -> NumberField {
    number_fields(product, 1066..1104).remove(0)
}

/// Bytes on both sides of those that blanks, text, keywords and the ends of lines are told by, and D of DS_NAME.
pub const OTHERS: [u8; 12] = [0, b'\n', 31, b' ', b'!', b'"', b'=', b'D', b'a', b'~', 127, 255];

/// Bytes to put in the place of one: others, and itself with its top bit flipped.
pub fn others(byte: u8) -> impl Iterator<Item = u8> {
    OTHERS.into_iter().filter(move |&other| other != byte).chain([byte ^ 128])
}

/// Puts a byte at each of two places.
pub fn put(product: &mut [u8], places: [usize; 2], bytes: [u8; 2]) {
    for (place, byte) in places.into_iter().zip(bytes) {
        product[place] = byte;
    }
}

/// Asks both for the verdict and the directory: each is this refusal, or answered where it is all zero.
pub fn expect(comparer: &mut Comparer, product: &[u8], origin: Arguments, refusal: [u64; 3]) {
    comparer.set_origin(origin);
    for call in [Call::Judge, Call::OpenDirectory] {
        let words = comparer.compare(product, call).words;
        if words[..3] != refusal {
            let product = report_of_product(&origin.to_string(), product);
            panic!("{call:?} is {:?} and not {refusal:?}\n{product}", &words[..3]);
        }
    }
}
