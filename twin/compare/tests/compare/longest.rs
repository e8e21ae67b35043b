//! Products of 2^31 - 1 bytes, the longest, and longer ones, past 2^32 too; all but their headers is memory never
//! written.

use compare::{Comparer, Lengths, Mapping};
use twin::builder::{Description, EntryDescription, Number, StateDescription};
use twin::words::{Answer, Call};

use crate::common::{choices, product};

const LONGEST: usize = 2_147_483_647;

/// Lengths past the longest: next to it, and those that are none, good or negative where a reader keeps only
/// 32 bits of them.
const TOO_LONG: [usize; 7] = [
    LONGEST + 1,
    LONGEST + 2,
    LONGEST + 1543,
    (1 << 32) - 1,
    1 << 32,
    (1 << 32) + 1247,
    (1 << 32) + 1542,
];

/// The first bytes of a product of a length: its last set reaches to its end, with these records.
fn beginning(mut description: Description, length: usize, count: usize, record_size: i128) -> Vec<u8> {
    description.set_number("TOT_SIZE", length as i128);
    let sets: usize = description.entries.iter().map(|entry| entry.data.len()).sum();
    let start = description.headers_end() + sets;
    let last = description.entries.last_mut().expect("an entry");
    last.offset = Some(Number::from(start as i128));
    last.size = Some(Number::from((length - start) as i128));
    last.count = Some(Number::from(count as i128));
    last.record_size = Some(Number::from(record_size));
    description.build()
}

/// Case B's entry with this many records that fill a longest product, whose headers end at byte 1527.
fn filled_evenly(count: usize) -> Mapping {
    let record_size = (LONGEST - 1527) / count;
    let entry = EntryDescription::new(b'G', "DEMO", Vec::new());
    let bytes = beginning(Description::new(vec![entry]), LONGEST, count, record_size as i128);
    Mapping::beginning_with(&bytes, LONGEST)
}

fn place_of(comparer: &mut Comparer, product: &[u8], entry: usize, record: usize) -> [u64; 2] {
    let place = comparer.compare(product, Call::RecordPlace { entry, record });
    [place.words[3], place.words[4]]
}

#[test]
fn the_longest_length_is_judged_and_one_more_refused() {
    for (length, verdict) in [(LONGEST, [3, 0, 128]), (LONGEST + 1, [2, 0, 128])] {
        let mapping = Mapping::beginning_with(&[], length);
        let mut comparer = Comparer::of(format!("{length} zeros"));
        assert_eq!(comparer.compare(mapping.bytes(), Call::Judge).words, verdict);
        comparer.compare_some(mapping.bytes(), 1, &mut choices());
    }
}

/// A header that is good but for the length: of a short product, of one without sets, and of one whose set
/// reaches to its end.
fn good_beginnings(length: usize) -> [(&'static str, Vec<u8>); 4] {
    let mut alone = Description::default();
    alone.set_number("TOT_SIZE", length as i128);
    let entry = EntryDescription::new(b'M', "NADIR", Vec::new());
    let filled = beginning(Description::new(vec![entry]), length, 1, -1);
    [
        ("case-a", product("case-a")),
        ("case-b", product("case-b")),
        ("a main header", alone.build()),
        ("a header and a set", filled),
    ]
}

#[test]
fn longer_products_are_refused_with_a_good_header_too() {
    for length in TOO_LONG {
        for (name, bytes) in good_beginnings(length) {
            let mapping = Mapping::beginning_with(&bytes, length);
            let mut comparer = Comparer::of(format_args!("{name}, then zeros to {length} bytes"));
            let verdict = comparer.compare(mapping.bytes(), Call::Judge);
            assert_eq!(verdict.words, [2, 0, 128], "{name}, {length} bytes");
            comparer.compare_some(mapping.bytes(), 1, &mut choices());
            let answers = &comparer.met().answers;
            assert_eq!(answers[2], answers.iter().sum(), "{name}, {length} bytes: {answers:?}");
        }
    }
}

#[test]
fn one_byte_records_reach_the_end() {
    let count = LONGEST - 1527;
    let mapping = filled_evenly(count);
    let mut comparer = Comparer::of("one-byte records to the longest length");
    comparer.compare_some(mapping.bytes(), 2, &mut choices());
    let last = place_of(&mut comparer, mapping.bytes(), 0, count - 1);
    assert_eq!(last, [LONGEST as u64 - 1, 1]);
    assert_eq!(place_of(&mut comparer, mapping.bytes(), 0, count), [0, 0]);
}

/// 2,147,482,120 is 8 x 268,435,265: records of eight bytes hold doubles and points.
#[test]
fn wider_records_reach_the_end() {
    let count = (LONGEST - 1527) / 8;
    let mapping = filled_evenly(count);
    let mut comparer = Comparer::of("eight-byte records to the longest length");
    comparer.compare_some(mapping.bytes(), 2, &mut choices());
    let (entry, record) = (0, count - 1);
    for kind in 0..=10 {
        for offset in [0, 4, 7, 8] {
            comparer.compare(mapping.bytes(), Call::FieldAt { entry, record, offset, kind });
        }
    }
    for offsets in [[0, 4, 2], [0, 4, 5], [usize::MAX, 0, 0]] {
        comparer.compare(mapping.bytes(), Call::PointAt { entry, record, offsets });
    }
}

/// The record is not handed out, which would take its memory, but for rooms that are too short.
#[test]
fn one_record_fills_the_longest_product() {
    let mapping = filled_evenly(1);
    let length = LONGEST - 1527;
    let mut comparer = Comparer::of("one record to the longest length");
    assert_eq!(place_of(&mut comparer, mapping.bytes(), 0, 0), [1527, length as u64]);
    for call in [Call::Judge, Call::OpenDirectory, Call::HeaderValues, Call::SphPlace] {
        comparer.compare(mapping.bytes(), call);
    }
    for bytes in [0, 1, 100_000] {
        let lengths = Lengths { words: 1, bytes, doubles: 0 };
        comparer.refuse_rooms(mapping.bytes(), Call::RecordPart { entry: 0, record: 0 }, lengths);
    }
    for kind in 0..=10 {
        for offset in [length - 12, length - 8, length - 4, length - 1, length, usize::MAX] {
            let call = Call::FieldAt { entry: 0, record: 0, offset, kind };
            comparer.compare(mapping.bytes(), call);
        }
    }
}

/// 65,535 records of 32,767 bytes and one of the rest, in a set of unequal records that reaches the end.
#[test]
fn unequal_records_reach_the_end() {
    let start = 1247 + 560 + 2 * 1387;
    let rest = (LONGEST - start - 65_535 * 32_767) as u32;
    let list = [StateDescription::new(0, 1, u16::MAX, 32_767), StateDescription::new(0, 1, 1, rest)];
    let nadir = EntryDescription::new(b'M', "NADIR", Vec::new());
    let description = Description::new(vec![EntryDescription::states(&list), nadir]);
    let mapping = Mapping::beginning_with(&beginning(description, LONGEST, 65_536, -1), LONGEST);
    let mut comparer = Comparer::of("unequal records to the longest length");
    assert_eq!(comparer.compare(mapping.bytes(), Call::Judge).words, [0, 0, 0]);
    comparer.compare_some(mapping.bytes(), 2, &mut choices());
    let last = place_of(&mut comparer, mapping.bytes(), 1, 65_535);
    assert_eq!(last, [(LONGEST - rest as usize) as u64, u64::from(rest)]);
    assert_eq!(place_of(&mut comparer, mapping.bytes(), 1, 65_534)[1], 32_767);
}

/// The set of entry 0 stands behind that of entry 1, and at lower numbers where a reader keeps only 8, 16 or 24 bits
/// of an offset.
#[test]
fn sets_of_the_longest_product_have_their_ranks() {
    let middle = 0x7f00_0000;
    let set = |start: usize, end: usize| {
        let mut entry = EntryDescription::new(b'G', "DEMO", Vec::new()).at(start as i128);
        entry.size = Some(Number::from((end - start) as i128));
        entry.count = Some(Number::from(1));
        entry.record_size = entry.size;
        entry
    };
    let mut description = Description::new(vec![set(middle, LONGEST), set(1807, middle)]);
    description.set_number("TOT_SIZE", LONGEST as i128);
    let mapping = Mapping::beginning_with(&description.build(), LONGEST);
    let mut comparer = Comparer::of("two sets to the longest length");
    let directory = comparer.compare(mapping.bytes(), Call::OpenDirectory);
    assert_eq!(directory.words[..4], [0, 0, 0, 2]);
    assert_eq!(directory.words[644..647], [1, 0, 0]);
}

/// A set that would end one byte past the product, and one that starts there.
#[test]
fn sets_past_the_longest_product_are_refused() {
    for (offset, size) in [(1528, LONGEST - 1527), (LONGEST, 1), (LONGEST - 1, 2)] {
        let mut entry = EntryDescription::new(b'G', "DEMO", Vec::new()).at(offset as i128);
        entry.size = Some(Number::from(size as i128));
        entry.count = Some(Number::from(1));
        entry.record_size = entry.size;
        let mut description = Description::new(vec![entry]);
        description.set_number("TOT_SIZE", LONGEST as i128);
        let mapping = Mapping::beginning_with(&description.build(), LONGEST);
        let mut comparer = Comparer::of("a set past the longest length");
        let refused = Answer { words: vec![12, offset as u64, 0], ..Answer::default() };
        assert_eq!(comparer.compare(mapping.bytes(), Call::Judge), refused);
        comparer.compare_some(mapping.bytes(), 1, &mut choices());
    }
}
