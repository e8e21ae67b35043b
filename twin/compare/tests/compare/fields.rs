//! Fields of every kind with extreme bits, at and around the record's end.

use compare::Comparer;
use twin::builder::{Description, EntryDescription};
use twin::words::Call;

use crate::common::one_record;

/// Every kind there is, and kinds that are unknown.
const KINDS: [usize; 18] =
    [0, 1, 2, 3, 4, 5, 6, 7, 8, 9, 10, 11, 127, 128, 255, 256 + 5, (1 << 32) + 5, usize::MAX];

/// The first four bytes of floats and numbers that are special.
const HIGH_HALVES: [u32; 16] = [
    0x0000_0000, // zero
    0x8000_0000, // minus zero, the lowest sl
    0x0000_0001, // the smallest float
    0x8000_0001,
    0x7f80_0000, // single infinities
    0xff80_0000,
    0x7f80_0001, // signalling single NaNs
    0xffbf_ffff,
    0x7fc0_0000, // quiet single NaNs
    0xffff_ffff, // -1
    0x7fff_ffff, // the largest sl
    0x7ff0_0000, // double infinities and NaNs
    0xfff0_0000,
    0x7ff4_0000, // signalling double NaNs
    0xfff7_ffff,
    0x7ff8_0000, // quiet double NaNs
];

const LOW_HALVES: [u32; 4] = [0, 1, 0x8000_0000, 0xffff_ffff];

/// Offsets far past any record.
fn far_offsets() -> impl Iterator<Item = usize> {
    let ends = [1usize << 31, 1 << 32, 1 << 62, 1 << 63, usize::MAX - 16];
    ends.into_iter().flat_map(|end| (end - 2)..=(end + 1)).chain(usize::MAX - 14..=usize::MAX)
}

#[test]
fn extreme_bits_are_kept_in_every_kind() {
    for high in HIGH_HALVES {
        for low in LOW_HALVES {
            let record = [high, low, high ^ low, low].map(u32::to_be_bytes).concat();
            let product = one_record(record);
            let mut comparer = Comparer::of(format_args!("a record of {high:#x} {low:#x}"));
            for offset in 0..=17 {
                for kind in KINDS {
                    comparer.compare(&product, Call::FieldAt { entry: 0, record: 0, offset, kind });
                }
            }
        }
    }
}

/// A kind is the whole number asked: one whose lowest bits are a kind's is none.
#[test]
fn kinds_are_not_cut_to_fewer_bits() {
    let product = one_record(vec![0xa5; 20]);
    let mut comparer = Comparer::of("a record of twenty bytes");
    for known in 0..=10 {
        for bits in [4, 5, 7, 8, 15, 16, 31, 32, 33, 62, 63] {
            for kind in [(1 << bits) + known, (usize::MAX << bits) + known] {
                let call = Call::FieldAt { entry: 0, record: 0, offset: 0, kind };
                let answer = comparer.compare(&product, call);
                assert_eq!(answer.words, [19, 0, 0, 0, 0, 0, 0], "kind {kind}");
            }
        }
    }
}

/// Records of one to sixteen bytes, each in its entry, and three records in one entry.
#[test]
fn fields_end_where_their_record_ends() {
    let set = |length| EntryDescription::records(b'M', "DEMO", 3, length);
    let product = Description::new((1..=16).map(set).collect()).build();
    let mut comparer = Comparer::of("records of one to sixteen bytes");
    for entry in 0..=16 {
        for record in [0, 1, 2, 3, usize::MAX] {
            for kind in KINDS {
                for offset in 0..entry + 4 {
                    comparer.compare(&product, Call::FieldAt { entry, record, offset, kind });
                }
            }
        }
    }
}

#[test]
fn far_offsets_pass_the_record_end() {
    let product = one_record(vec![0xa5; 20]);
    let mut comparer = Comparer::of("a record of twenty bytes");
    for offset in far_offsets() {
        for kind in KINDS {
            comparer.compare(&product, Call::FieldAt { entry: 0, record: 0, offset, kind });
            comparer.compare(&product, Call::FieldAt { entry: 1, record: 0, offset, kind });
        }
        for offsets in [[offset, 0, 0], [0, offset, 0], [0, 0, offset], [offset; 3]] {
            comparer.compare(&product, Call::PointAt { entry: 0, record: 0, offsets });
        }
    }
}

#[test]
fn every_byte_and_pair_of_bytes_is_read_alike() {
    let record: Vec<u8> = (0..=255).chain([0x7f, 0xff, 0x80, 0x00, 0x01, 0xfe]).collect();
    let length = record.len();
    let product = one_record(record);
    let mut comparer = Comparer::of("a record of every byte");
    for offset in 0..length + 1 {
        for kind in 1..=9 {
            comparer.compare(&product, Call::FieldAt { entry: 0, record: 0, offset, kind });
        }
    }
}
