//! The text that a program prints of a product, every public call asked in a fixed order and its words written as
//! unsigned decimal numbers: the twin's own, for a program over another reader to print the same.

use std::io::Write;

use crate::words::{entry_words, Answer, Call};
use crate::LONGEST_LISTED;

/// The products whose text is stored, in its order.
pub const VECTOR_PRODUCTS: [&str; 36] = [
    "case-b",
    "case-k",
    "case-l",
    "descriptors-128",
    "descriptors-129",
    "sph-49152",
    "sph-49153",
    "too-large-tot-size",
    "too-large-ds-offset",
    "too-large-ds-size",
    "refusal-1",
    "refusal-3",
    "refusal-5",
    "refusal-6",
    "refusal-7",
    "refusal-8",
    "refusal-10",
    "refusal-11",
    "refusal-12",
    "refusal-13",
    "refusal-14",
    "refusal-15",
    "refusal-16",
    "every-entry-form",
    "unequal-lengths",
    "minus-zeros",
    "empty-set-uncounted",
    "empty-set-counted",
    "all-sets-empty",
    "sets-out-of-order",
    "extinction",
    "extinction-twice",
    "extinction-empty",
    "extinction-other-size",
    "listed-last",
    "listed-no-more",
];

/// The most records of an entry that are asked for.
const MOST_RECORDS: u64 = 40;
/// The most bytes of a part that are written.
const MOST_BYTES: usize = 16;
/// Fields and points are asked of the first entries, and there of the first records.
const ENTRIES_WITH_FIELDS: usize = 4;
const RECORDS_WITH_FIELDS: usize = 3;
/// The records and pixels of residual extinction that are asked for.
const RECORDS_WITH_PIXELS: [usize; 2] = [0, 1];
const PIXELS_ASKED: [usize; 4] = [0, 1167, 2335, 2336];

/// Bytes of a DS_NAME and of a FILENAME.
const NAME_LENGTH: usize = 28;
const FILENAME_LENGTH: usize = 62;

/// The text of one product; of one that is longer than what is listed, that it is.
pub fn vectors(name: &str, product: &[u8]) -> Vec<u8> {
    let mut lines = Lines { product, text: format!("product {name}\n").into_bytes() };
    if product.len() > LONGEST_LISTED {
        lines.numbers("longer than", &[], &[LONGEST_LISTED as u64]);
        return lines.text;
    }
    lines.numbers("judge", &[], &Call::Judge.answer(product).words);
    let directory = Call::OpenDirectory.answer(product);
    lines.directory(&directory);
    lines.header();
    lines.numbers("sph_place", &[], &Call::SphPlace.answer(product).words);
    lines.part("sph_part", &[], &Call::SphPart);
    lines.pixels();
    let entries = directory.words[3] as usize;
    for entry in 0..=entries {
        let count = if entry < entries { entry_words(&directory, entry)[3] } else { 0 };
        for record in 0..=count.min(MOST_RECORDS) as usize {
            lines.record(entry, record);
        }
    }
    lines.text
}

/// A product and the lines written of it.
struct Lines<'a> {
    product: &'a [u8],
    text: Vec<u8>,
}

impl Lines<'_> {
    /// A line of a word and numbers.
    fn numbers(&mut self, word: &str, asked: &[usize], answered: &[u64]) {
        self.text.extend_from_slice(word.as_bytes());
        let asked = asked.iter().map(|&number| number as u64);
        for number in asked.chain(answered.iter().copied()) {
            write!(self.text, " {number}").expect("writing to memory does not fail");
        }
        self.text.push(b'\n');
    }

    /// A line of a word and bytes as they are.
    fn bytes(&mut self, word: &str, bytes: &[u8]) {
        self.text.extend_from_slice(word.as_bytes());
        self.text.push(b' ');
        self.text.extend_from_slice(bytes);
        self.text.push(b'\n');
    }

    fn directory(&mut self, directory: &Answer) {
        self.numbers("directory", &[], &directory.words[..4]);
        let (names, filenames) = directory.bytes.split_at(NAME_LENGTH * crate::ENTRIES);
        let names = names.chunks_exact(NAME_LENGTH).zip(filenames.chunks_exact(FILENAME_LENGTH));
        for (entry, (name, filename)) in names.enumerate().take(directory.words[3] as usize) {
            self.numbers("entry", &[entry], &entry_words(directory, entry));
            self.bytes(&format!("name {entry}"), name);
            self.bytes(&format!("filename {entry}"), filename);
        }
    }

    fn header(&mut self) {
        let header = Call::HeaderValues.answer(self.product);
        self.numbers("header", &[], &header.words);
        let texts = if header.words[0] == 0 { header.bytes.as_slice() } else { &[] };
        self.bytes("texts", texts);
    }

    /// A line of a part: its length and its first bytes.
    fn part(&mut self, word: &str, asked: &[usize], call: &Call) {
        let Answer { mut words, bytes, .. } = call.answer(self.product);
        words.extend(bytes.iter().take(MOST_BYTES).map(|&byte| u64::from(byte)));
        self.numbers(word, asked, &words);
    }

    /// Pixels of the first records: the first, one in the middle, the last, and one that is not there.
    fn pixels(&mut self) {
        for record in RECORDS_WITH_PIXELS {
            for pixel in PIXELS_ASKED {
                let answer = Call::ExtinctionAt { record, pixel }.answer(self.product);
                let answered = [answer.words, answer.double_bits].concat();
                self.numbers("extinction_at", &[record, pixel], &answered);
            }
        }
    }

    fn record(&mut self, entry: usize, record: usize) {
        let place = Call::RecordPlace { entry, record }.answer(self.product);
        self.numbers("record_place", &[entry, record], &place.words);
        self.part("record_part", &[entry, record], &Call::RecordPart { entry, record });
        if entry >= ENTRIES_WITH_FIELDS || record >= RECORDS_WITH_FIELDS {
            return;
        }
        for kind in 0..=10 {
            let field = Call::FieldAt { entry, record, offset: kind, kind }.answer(self.product);
            self.numbers("field_at", &[entry, record, kind, kind], &field.words);
        }
        for offsets in [[0, 4, 8], [4, 8, 0]] {
            let point = Call::PointAt { entry, record, offsets }.answer(self.product);
            let [latitude, longitude, altitude] = offsets;
            let answered = [point.words, point.double_bits].concat();
            self.numbers("point_at", &[entry, record, latitude, longitude, altitude], &answered);
        }
    }
}
