//! The directory of an accepted product: up to 128 entries held together, unused places zero.

use crate::descriptors::{filename_in, name_in, ENTRIES, FILENAME_LENGTH, NAME_LENGTH};
use crate::judged::Judged;
use crate::sets::ranks;

/// The entries of a product, one place of each array for each entry. A spare has type 32, blank texts,
/// zeros and rank 128; a place past the last entry is all zero.
#[derive(Clone, Debug, PartialEq, Eq)]
pub struct Directory {
    pub entry_count: usize,
    pub types: [u8; ENTRIES],
    pub names: [[u8; NAME_LENGTH]; ENTRIES],
    pub filenames: [[u8; FILENAME_LENGTH]; ENTRIES],
    pub offsets: [u64; ENTRIES],
    pub sizes: [u64; ENTRIES],
    pub counts: [u64; ENTRIES],
    pub record_sizes: [i64; ENTRIES],
    /// How many non-empty sets have a smaller offset; [`crate::NO_RANK`] for an empty set, an R entry and a spare.
    pub ranks: [u8; ENTRIES],
}

impl Directory {
    pub(crate) fn read(judged: &Judged) -> Directory {
        let mut directory = Directory {
            entry_count: judged.entries().len(),
            types: [0; ENTRIES],
            names: [[0; NAME_LENGTH]; ENTRIES],
            filenames: [[0; FILENAME_LENGTH]; ENTRIES],
            offsets: [0; ENTRIES],
            sizes: [0; ENTRIES],
            counts: [0; ENTRIES],
            record_sizes: [0; ENTRIES],
            ranks: ranks(judged.entries()),
        };
        for (entry, values) in judged.entries().iter().enumerate() {
            let descriptor = judged.descriptor(entry);
            directory.types[entry] = values.set_type;
            directory.names[entry].copy_from_slice(name_in(descriptor));
            directory.filenames[entry].copy_from_slice(filename_in(descriptor));
            directory.offsets[entry] = values.offset as u64;
            directory.sizes[entry] = values.size as u64;
            directory.counts[entry] = values.count as u64;
            directory.record_sizes[entry] = values.record_size;
        }
        directory
    }
}
