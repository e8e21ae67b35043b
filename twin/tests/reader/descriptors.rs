//! Rules 8 to 11 and the directory.

use crate::common::{demo, number, refusal, refused, verdict_on, verdict_on_demo, NONE};
use twin::builder::{named_product, Description, EntryDescription, Number};
use twin::{directory, judge, Verdict};

const TOO_LARGE: Option<Number> = Some(Number { minus: false, magnitude: 1 << 63 });
const MINUS_TOO_LARGE: Option<Number> = Some(Number { minus: true, magnitude: 1 << 63 });

/// The bytes allowed at a place of a named DSD.
pub fn is_allowed(place: usize, fixed: u8, byte: u8) -> bool {
    match place {
        9..=36 | 59..=120 => (32..=126).contains(&byte) && byte != 34,
        47 => b"MAGR".contains(&byte),
        133 | 170 | 207 | 228 => byte == 43 || byte == 45,
        134..=153 | 171..=190 | 208..=217 | 229..=238 => (48..=57).contains(&byte),
        _ => byte == fixed,
    }
}

#[test]
fn every_byte_of_a_dsd_has_its_own_allowed_set() {
    let mut product = named_product("case-b").unwrap();
    for place in 1..280 {
        let kept = product[1247 + place];
        for byte in 0..=255 {
            product[1247 + place] = byte;
            let verdict = judge(&product);
            if is_allowed(place, kept, byte) {
                assert!(!matches!(verdict, Verdict::Refused { number: 8, .. }), "{place} {byte}");
            } else {
                assert_eq!(verdict, refused(8, 1247 + place as u64, 0), "{place} {byte}");
            }
        }
        product[1247 + place] = kept;
    }
}

#[test]
fn a_blank_first_byte_asks_for_the_spare_layout() {
    let mut product = named_product("case-b").unwrap();
    product[1247] = b' ';
    assert_eq!(judge(&product), refused(8, 1248, 0));
    product[1247] = 0;
    assert_eq!(judge(&product), refused(8, 1247, 0));
    product[1247] = b'd';
    assert_eq!(judge(&product), refused(8, 1247, 0));
}

#[test]
fn every_byte_of_a_spare_counts() {
    let spare = Description::new(vec![EntryDescription::spare(), EntryDescription::spare()]).build();
    assert_eq!(judge(&spare), Verdict::Accepted);
    for place in 1..280 {
        for byte in [0, 10, 33, b' '] {
            let mut product = spare.clone();
            product[1527 + place] = byte;
            if product != spare {
                assert_eq!(judge(&product), refused(8, 1527 + place as u64, 1));
            }
        }
    }
}

#[test]
fn rule_9_gives_the_sign_and_the_offset_first() {
    let mut entry = demo();
    entry.size = MINUS_TOO_LARGE;
    let second = Description::new(vec![EntryDescription::spare(), entry.clone()]);
    assert_eq!(verdict_on(&second), refused(9, 1527 + 170, 1));
    entry.offset = TOO_LARGE;
    let second = Description::new(vec![EntryDescription::spare(), entry]);
    assert_eq!(verdict_on(&second), refused(9, 1527 + 133, 1));
}

#[test]
fn the_lowest_entry_of_a_rule_is_given() {
    let mut entries = vec![demo(); 4];
    entries[1].size = TOO_LARGE;
    entries[3].offset = TOO_LARGE;
    assert_eq!(verdict_on(&Description::new(entries.clone())), refused(9, 1527 + 170, 1));
    (entries[1].size, entries[3].offset) = (number(14), number(-1));
    assert_eq!(verdict_on(&Description::new(entries.clone())), refused(10, 1527, 1));
    (entries[1].size, entries[3].offset) = (None, number(3));
    entries[2].offset = number(7);
    assert_eq!(verdict_on(&Description::new(entries)), refused(12, 7, 2));
}

#[test]
fn rule_9_looks_at_r_and_empty_sets_too() {
    for set_type in *b"RMAG" {
        let mut entry = EntryDescription::new(set_type, "DEMO", Vec::new());
        entry.offset = TOO_LARGE;
        assert_eq!(verdict_on(&Description::new(vec![entry])), refused(9, 1380, 0));
    }
}

#[test]
fn a_rule_holds_for_all_entries_before_the_next_is_looked_at() {
    let mut entries = vec![demo(); 3];
    entries[0].offset = TOO_LARGE;
    entries[2].set_type = b'X';
    assert_eq!(verdict_on(&Description::new(entries.clone())), refused(8, 1247 + 560 + 47, 2));
    entries[2].set_type = b'G';
    entries[0].offset = None;
    entries[0].count = number(7);
    entries[1].size = TOO_LARGE;
    assert_eq!(verdict_on(&Description::new(entries.clone())), refused(9, 1247 + 280 + 170, 1));
    entries[1].size = None;
    let mut description = Description::new(entries);
    description.set_number("NUM_DATA_SETS", 9);
    assert_eq!(verdict_on(&description), refused(10, 1247, 0));
    description.entries[0].count = number(3);
    description.entries[2].offset = number(0);
    assert_eq!(verdict_on(&description), refused(11, 1194, NONE));
}

#[test]
fn rule_8_in_the_last_of_128_entries_comes_before_rule_9_in_the_first() {
    let mut description = Description::new(vec![EntryDescription::new(b'G', "DEMO", vec![1]); 128]);
    description.entries[0].offset = TOO_LARGE;
    let mut product = description.build();
    product[1247 + 127 * 280 + 279] = b' ';
    assert_eq!(judge(&product), refused(8, 1247 + 127 * 280 + 279, 127));
}

#[test]
fn r_entries_have_zeros() {
    let with = |change: fn(&mut EntryDescription)| {
        let mut entry = EntryDescription::new(b'R', "FILE", Vec::new());
        change(&mut entry);
        verdict_on(&Description::new(vec![entry]))
    };
    assert_eq!(with(|_| {}), Verdict::Accepted);
    assert_eq!(with(|entry| entry.offset = Some(Number::MINUS_ZERO)), Verdict::Accepted);
    assert_eq!(with(|entry| entry.record_size = Some(Number::MINUS_ZERO)), Verdict::Accepted);
    assert_eq!(with(|entry| entry.offset = number(1)), refused(10, 1247, 0));
    assert_eq!(with(|entry| entry.size = number(1)), refused(10, 1247, 0));
    assert_eq!(with(|entry| entry.count = number(1)), refused(10, 1247, 0));
    assert_eq!(with(|entry| entry.record_size = number(-1)), refused(10, 1247, 0));
}

#[test]
fn numbers_of_sets_are_not_negative() {
    assert_eq!(verdict_on_demo(|entry| entry.offset = number(-1)), refused(10, 1247, 0));
    assert_eq!(verdict_on_demo(|entry| entry.size = number(-15)), refused(10, 1247, 0));
    assert_eq!(verdict_on_demo(|entry| entry.count = number(-3)), refused(10, 1247, 0));
    assert_eq!(verdict_on_demo(|entry| entry.record_size = number(-2)), refused(10, 1247, 0));
    assert_eq!(verdict_on_demo(|entry| entry.record_size = number(-5)), refused(10, 1247, 0));
}

#[test]
fn empty_sets_have_no_records_and_any_record_size() {
    for set_type in *b"MAG" {
        let with = |offset, count, record_size| {
            let mut entry = EntryDescription::new(set_type, "DEMO", Vec::new());
            (entry.offset, entry.count, entry.record_size) = (offset, count, record_size);
            verdict_on(&Description::new(vec![entry]))
        };
        for record_size in [-1, 0, 1, 9_999_999_999] {
            let good = with(number(i128::from(i64::MAX)), number(0), number(record_size));
            assert_eq!(good, Verdict::Accepted);
        }
        assert_eq!(with(None, Some(Number::MINUS_ZERO), None), Verdict::Accepted);
        assert_eq!(with(None, number(1), number(0)), refused(10, 1247, 0));
        assert_eq!(with(None, number(0), number(-2)), refused(10, 1247, 0));
        assert_eq!(with(number(-1), number(0), number(0)), refused(10, 1247, 0));
    }
}

#[test]
fn records_fill_a_set() {
    for (count, record_size) in [(1, 15), (15, 1), (5, 3), (3, 5)] {
        let good = verdict_on_demo(|entry| {
            entry.count = number(count);
            entry.record_size = number(record_size);
        });
        assert_eq!(good, Verdict::Accepted);
    }
    for (count, record_size) in [(0, 15), (0, 0), (1, 0), (15, 0), (2, 7), (4, 4), (1, -1), (15, -1)] {
        let bad = verdict_on_demo(|entry| {
            entry.count = number(count);
            entry.record_size = number(record_size);
        });
        assert_eq!(bad, refused(10, 1247, 0), "{count} {record_size}");
    }
}

#[test]
fn only_four_names_of_type_m_are_variable_sets() {
    let with = |set_type, name: &str| {
        let mut entry = EntryDescription::variable(name, 1, 5);
        entry.set_type = set_type;
        verdict_on(&Description::new(vec![entry]))
    };
    for name in ["NADIR", "LIMB", "OCCULTATION", "MONITORING"] {
        assert_eq!(with(b'M', name), refused(15, 0, NONE), "{name}");
        assert_eq!(with(b'A', name), refused(10, 1247, 0), "{name}");
        assert_eq!(with(b'G', name), refused(10, 1247, 0), "{name}");
    }
    for name in [
        "",
        " NADIR",
        "NADIR_",
        "nadir",
        "NADI",
        "NADIR LIMB",
        "TRA_OCCULTATION_DATA",
        "POL_SENS_NADIR",
        "STATES",
        "NAD_GEOLOCATION",
    ] {
        assert_eq!(with(b'M', name), refused(10, 1247, 0), "{name}");
    }
    let ordinary = Description::new(vec![EntryDescription::records(b'M', "NADIR", 3, 5)]);
    assert_eq!(verdict_on(&ordinary), Verdict::Accepted);
}

/// The verdict on entries with each of these NUM_DATA_SETS is the same.
fn expect_with_counts(entries: &[EntryDescription], counts: &[Number], expected: Verdict) {
    for &count in counts {
        let mut description = Description::new(entries.to_vec());
        description.set_number("NUM_DATA_SETS", count);
        assert_eq!(verdict_on(&description), expected, "{count:?}");
    }
}

fn numbers<const N: usize>(values: [i128; N]) -> [Number; N] {
    values.map(Number::from)
}

/// An empty set with this DS_SIZE.
fn empty(set_type: u8, size: Number) -> EntryDescription {
    let mut entry = EntryDescription::new(set_type, "NOT USED", Vec::new());
    entry.size = Some(size);
    entry
}

const ZEROS: [Number; 2] = [Number { minus: false, magnitude: 0 }, Number::MINUS_ZERO];
const REFUSED_BY_11: Verdict = Verdict::Refused { number: 11, place: 1194, entry: NONE };

/// Order 4 of document 02.
#[test]
fn rule_11_does_not_count_an_empty_set() {
    for set_type in *b"MAG" {
        for size in ZEROS {
            for entries in [[demo(), empty(set_type, size)], [empty(set_type, size), demo()]] {
                expect_with_counts(&entries, &numbers([1]), Verdict::Accepted);
                expect_with_counts(&entries, &numbers([2, 0, 3, -1, -2]), REFUSED_BY_11);
            }
        }
    }
}

#[test]
fn rule_11_counts_none_where_all_sets_are_empty() {
    for size in ZEROS {
        let entries = b"MAG".map(|set_type| empty(set_type, size));
        expect_with_counts(&entries, &ZEROS, Verdict::Accepted);
        expect_with_counts(&entries, &numbers([1, 2, 3, -3]), REFUSED_BY_11);
    }
}

#[test]
fn rule_11_never_counts_r_and_spares() {
    for size in ZEROS {
        let mut entries = vec![EntryDescription::spare(), empty(b'R', size)];
        expect_with_counts(&entries, &ZEROS, Verdict::Accepted);
        expect_with_counts(&entries, &numbers([1, 2, -1]), REFUSED_BY_11);
        entries.extend([demo(), empty(b'M', size), demo()]);
        entries[4].set_type = b'A';
        expect_with_counts(&entries, &numbers([2]), Verdict::Accepted);
        expect_with_counts(&entries, &numbers([0, 1, 3, 4, 5, -2]), REFUSED_BY_11);
    }
}

#[test]
fn rule_11_counts_a_set_of_one_byte() {
    let entries = b"MAG".map(|set_type| EntryDescription::new(set_type, "DEMO", vec![7]));
    expect_with_counts(&entries, &numbers([3]), Verdict::Accepted);
    expect_with_counts(&entries, &numbers([0, 1, 2, 4]), REFUSED_BY_11);
}

/// A DS_SIZE below 0, and an empty set with records, are rule 10's, whatever NUM_DATA_SETS says.
#[test]
fn rule_10_comes_before_the_count() {
    for size in [-1, -15, -i128::from(i64::MAX)] {
        let entries = [demo(), empty(b'G', Number::from(size))];
        expect_with_counts(&entries, &numbers([0, 1, 2]), refused(10, 1527, 1));
    }
    for size in ZEROS {
        let mut entries = [demo(), empty(b'G', size)];
        entries[1].count = number(1);
        expect_with_counts(&entries, &numbers([0, 1, 2]), refused(10, 1527, 1));
    }
}

#[test]
fn the_directory_holds_every_entry_and_zeros_after_them() {
    let product = named_product("every-entry-form").unwrap();
    let listed = directory(&product).unwrap();
    assert_eq!(listed.entry_count, 6);
    assert_eq!(listed.types[..7], [32, b'R', b'A', b'G', b'M', 32, 0]);
    assert_eq!((listed.names[0], listed.filenames[0]), ([32; 28], [32; 62]));
    assert_eq!((listed.names[6], listed.filenames[6]), ([0; 28], [0; 62]));
    assert!(listed.names[4].starts_with(b" NADIR "));
    assert_eq!(listed.offsets[..7], [0, 0, i64::MAX as u64, 0, 2927, 0, 0]);
    assert_eq!(listed.sizes[..7], [0, 0, 0, 0, 3, 0, 0]);
    assert_eq!(listed.counts[..7], [0, 0, 0, 0, 1, 0, 0]);
    assert_eq!(listed.record_sizes[..7], [0, 0, 9_999_999_999, -1, 3, 0, 0]);
    assert!(listed.types[6..].iter().all(|&byte| byte == 0));
    assert_eq!(directory(&named_product("case-e").unwrap()), Err(refusal(14, 1542, NONE)));
}

#[test]
fn the_directory_answers_minus_zero_as_zero() {
    let listed = directory(&named_product("minus-zeros").unwrap()).unwrap();
    assert_eq!(
        (listed.offsets[0], listed.sizes[0], listed.counts[0], listed.record_sizes[0]),
        (0, 0, 0, 0)
    );
}

#[test]
fn the_directory_holds_128_entries() {
    let listed = directory(&named_product("descriptors-128").unwrap()).unwrap();
    assert_eq!(listed.entry_count, 128);
    assert_eq!((listed.offsets[127], listed.sizes[127], listed.types[127]), (37_214, 1, b'G'));
}
