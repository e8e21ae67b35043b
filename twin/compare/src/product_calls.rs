//! Every public call on one product: the whole-product calls, records, fields and points of each entry, a pixel of
//! residual extinction, and what is not there.

use twin::builder::Generator;
use twin::words::{entry_words, Answer, Call};
use twin::PIXELS;

use crate::comparing::Comparer;
use crate::file_order::by_rank;
use crate::met::{ENTRIES_WORD, SPH_SIZE_WORD};

/// The first byte behind the main header.
const MAIN_HEADER_END: u64 = 1247;

/// The longest SPH that is short, of how many products with a longer one all records are compared (one in so many),
/// and of how many entries otherwise.
const SHORT_SPH: u64 = 5000;
const LONG_WHOLE: u64 = 8;
const FEW_ENTRIES: usize = 4;

/// Entries and records that are in no product.
const FAR: [usize; 3] = [128, 1 << 32, usize::MAX];

impl Comparer {
    /// Every public call, with every record of an accepted product; its records behind the headers, joined set by set
    /// in the order of their ranks, are the product.
    pub fn compare_all(&mut self, product: &[u8], choices: &mut Generator) {
        let directory = self.compare_whole(product, choices);
        if directory.words[0] == 0 {
            self.compare_joined(product, &directory, choices);
        }
    }

    /// The same, but of a product with long headers, on which a call takes long, most often only the records of a
    /// few entries.
    pub fn compare_most(&mut self, product: &[u8], choices: &mut Generator) {
        let directory = self.compare_whole(product, choices);
        let entries = directory.words[ENTRIES_WORD] as usize;
        if directory.words[0] != 0 {
            return;
        }
        if sph_size(product) <= SHORT_SPH || choices.once_in(LONG_WHOLE) {
            self.compare_joined(product, &directory, choices);
            return;
        }
        for _ in 0..entries.min(FEW_ENTRIES) {
            let entry = choices.index(entries);
            for record in 0..count_of(&directory, entry) {
                self.compare_record(product, entry, record, choices);
            }
        }
    }

    /// Every record of an accepted product, joined, and the one behind the last of each entry.
    fn compare_joined(&mut self, product: &[u8], directory: &Answer, choices: &mut Generator) {
        let mut joined = Vec::with_capacity(product.len());
        for entry in by_rank(directory) {
            for record in 0..count_of(directory, entry) {
                joined.extend(self.compare_record(product, entry, record, choices));
            }
        }
        for entry in 0..directory.words[ENTRIES_WORD] as usize {
            let record = count_of(directory, entry);
            self.compare(product, Call::RecordPlace { entry, record });
            self.compare(product, Call::RecordPart { entry, record });
        }
        if joined != product[(MAIN_HEADER_END + sph_size(product)) as usize..] {
            self.fail_joining(product);
        }
    }

    /// Every public call, with the first records of each entry and its last.
    pub fn compare_some(&mut self, product: &[u8], most_records: usize, choices: &mut Generator) {
        let directory = self.compare_whole(product, choices);
        for entry in 0..directory.words[ENTRIES_WORD] as usize {
            let count = count_of(&directory, entry);
            for record in 0..count.min(most_records) {
                self.compare_record(product, entry, record, choices);
            }
            if count > most_records {
                self.compare_record(product, entry, count - 1, choices);
            }
        }
    }

    /// The calls on the product as a whole, on records that are not there, and on a pixel, which few products have.
    fn compare_whole(&mut self, product: &[u8], choices: &mut Generator) -> Answer {
        for call in [Call::Judge, Call::HeaderValues, Call::SphPlace, Call::SphPart] {
            self.compare(product, call);
        }
        let directory = self.compare(product, Call::OpenDirectory);
        let entries = directory.words[ENTRIES_WORD] as usize;
        let entry = choices.index(entries + 1);
        let record = if entry < entries { count_of(&directory, entry) } else { 0 };
        self.compare_refused(product, entry, record, choices);
        let far = choices.choose(&FAR);
        let (entry, record) = choices.choose(&[(entries, 0), (far, 0), (entry, far)]);
        self.compare_refused(product, entry, record, choices);
        let (record, pixel) = (choices.index(3), choices.index(PIXELS + 1));
        self.compare(product, Call::ExtinctionAt { record, pixel });
        directory
    }

    /// A record that is not there: no place, no part, and no field or point.
    fn compare_refused(
        &mut self,
        product: &[u8],
        entry: usize,
        record: usize,
        choices: &mut Generator,
    ) {
        self.compare(product, Call::RecordPlace { entry, record });
        self.compare(product, Call::RecordPart { entry, record });
        let (offset, kind) = (choices.index(20), choices.index(12));
        self.compare(product, Call::FieldAt { entry, record, offset, kind });
        self.compare(product, Call::PointAt { entry, record, offsets: [0, 4, 8] });
    }

    /// A record: its place and part, and a field or a point; answers its bytes.
    fn compare_record(
        &mut self,
        product: &[u8],
        entry: usize,
        record: usize,
        choices: &mut Generator,
    ) -> Vec<u8> {
        self.compare(product, Call::RecordPlace { entry, record });
        let part = self.compare(product, Call::RecordPart { entry, record });
        let length = part.bytes.len();
        if choices.once_in(3) {
            let offsets = point_offsets(length, choices);
            self.compare(product, Call::PointAt { entry, record, offsets });
        } else {
            let (offset, kind) = (choices.index(length + 2), choices.index(11));
            self.compare(product, Call::FieldAt { entry, record, offset, kind });
        }
        part.bytes
    }
}

/// Three offsets in a record of this length or just past its end, most often where words of four bytes stand.
fn point_offsets(length: usize, choices: &mut Generator) -> [usize; 3] {
    let room = length.saturating_sub(3);
    let anywhere = [0; 3].map(|_| choices.index(room + 1));
    if choices.once_in(4) {
        anywhere
    } else {
        anywhere.map(|offset| offset / 4 * 4)
    }
}

/// SPH_SIZE of an accepted product.
fn sph_size(product: &[u8]) -> u64 {
    Call::HeaderValues.answer(product).words[SPH_SIZE_WORD]
}

/// The number of records of an entry.
fn count_of(directory: &Answer, entry: usize) -> usize {
    entry_words(directory, entry)[3] as usize
}
