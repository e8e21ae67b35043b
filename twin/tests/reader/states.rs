//! Rules 15 and 16, and the records of unequal lengths.

use crate::common::{number, refusal, refused, verdict_on, NONE};
use twin::builder::{named_product, state_record, Description, EntryDescription, StateDescription};
use twin::{record_part, record_place, Part, Verdict};

type StateValues = (u8, u8, u16, u32);

fn states(list: &[StateValues]) -> EntryDescription {
    let mut entry = EntryDescription::records(b'A', "STATES", list.len(), 1387);
    entry.data.clear();
    for &(flag, kind, count, length) in list {
        entry.data.extend(state_record(StateDescription { flag, kind, count, length }));
    }
    entry
}

/// STATES, then variable sets (name, records, bytes).
fn with_sets(list: &[StateValues], sets: &[(&str, usize, usize)]) -> Description {
    let mut entries = vec![states(list)];
    entries
        .extend(sets.iter().map(|&(name, count, size)| EntryDescription::variable(name, count, size)));
    Description::new(entries)
}

#[test]
fn flag_0_means_attached() {
    let one =
        |flag| verdict_on(&with_sets(&[(flag, 1, 2, 5), (1 - flag, 1, 3, 7)], &[("NADIR", 2, 10)]));
    assert_eq!(one(0), Verdict::Accepted);
    let place = 1247 + 560 + 2 * 1387;
    assert_eq!(one(1), refused(16, place, 1));
}

#[test]
fn flags_other_than_0_and_1_are_bad() {
    for flag in [2, 3, 128, 255] {
        let description = with_sets(&[(0, 1, 2, 5), (flag, 1, 0, 0)], &[("NADIR", 2, 10)]);
        assert_eq!(verdict_on(&description), refused(15, 1807 + 1387, 0));
    }
}

#[test]
fn nothing_else_is_looked_at_with_flag_1() {
    let list = [(0, 1, 2, 5), (1, 0, 3, 0), (1, 255, 65535, 0)];
    assert_eq!(verdict_on(&with_sets(&list, &[("NADIR", 2, 10)])), Verdict::Accepted);
}

#[test]
fn the_kind_is_1_to_4_with_flag_0_whatever_the_count() {
    for kind in [0, 5, 255] {
        for count in [0, 1] {
            let description = with_sets(&[(0, 1, 2, 5), (0, kind, count, 3)], &[("NADIR", 2, 10)]);
            assert_eq!(verdict_on(&description), refused(15, 1807 + 1387, 0), "{kind} {count}");
        }
    }
}

#[test]
fn the_length_counts_only_with_records() {
    let with = |count| verdict_on(&with_sets(&[(0, 1, 2, 5), (0, 2, count, 0)], &[("NADIR", 2, 10)]));
    assert_eq!(with(0), Verdict::Accepted);
    assert_eq!(with(1), refused(15, 1807 + 1387, 0));
}

#[test]
fn the_first_bad_state_is_given() {
    let list = [(0, 1, 2, 5), (9, 1, 0, 0), (0, 0, 1, 1)];
    assert_eq!(verdict_on(&with_sets(&list, &[("NADIR", 2, 10)])), refused(15, 1807 + 1387, 0));
}

#[test]
fn a_kind_without_a_set_is_no_fault() {
    let list = [(0, 1, 2, 5), (0, 2, 3, 6), (0, 4, 1, 1)];
    assert_eq!(verdict_on(&with_sets(&list, &[("NADIR", 2, 10)])), Verdict::Accepted);
}

#[test]
fn there_is_exactly_one_entry_of_states() {
    let good = with_sets(&[(0, 1, 2, 5)], &[("NADIR", 2, 10)]);
    assert_eq!(verdict_on(&good), Verdict::Accepted);
    let mut another = good.clone();
    another.entries.push(EntryDescription::new(b'A', "STATES", Vec::new()));
    assert_eq!(verdict_on(&another), refused(15, 0, NONE));
    for set_type in *b"MG" {
        let mut other = good.clone();
        other.entries[0].set_type = set_type;
        assert_eq!(verdict_on(&other), refused(15, 0, NONE));
        other = good.clone();
        other.entries.push(EntryDescription::new(set_type, "STATES", vec![1]));
        other.entries.push(EntryDescription::new(b'R', "STATES", Vec::new()));
        assert_eq!(verdict_on(&other), Verdict::Accepted);
    }
    for name in ["STATE", "STATES_", " STATES", "states", ""] {
        let mut other = good.clone();
        other.entries[0].name = name.into();
        assert_eq!(verdict_on(&other), refused(15, 0, NONE), "{name}");
    }
}

#[test]
fn states_have_1387_bytes_unless_there_are_none() {
    let mut description = with_sets(&[(0, 1, 1, 5), (0, 1, 1, 5)], &[("NADIR", 2, 10)]);
    description.entries[0].count = number(1);
    description.entries[0].record_size = number(2774);
    assert_eq!(verdict_on(&description), refused(15, 1807, 0));
    let mut empty = with_sets(&[], &[("NADIR", 2, 10)]);
    empty.entries[0].record_size = number(23);
    assert_eq!(verdict_on(&empty), refused(16, 1807, 1));
}

#[test]
fn without_a_variable_set_states_are_not_looked_at() {
    let mut description = with_sets(&[(7, 7, 7, 0)], &[]);
    assert_eq!(verdict_on(&description), Verdict::Accepted);
    description.entries.push(EntryDescription::records(b'A', "STATES", 2, 23));
    description.entries.push(EntryDescription::records(b'M', "NADIR", 2, 23));
    description.entries.push(EntryDescription::new(b'M', "LIMB", Vec::new()));
    description.entries[3].record_size = number(-1);
    assert_eq!(verdict_on(&description), Verdict::Accepted);
}

#[test]
fn number_and_total_both_fit() {
    let list = [(0, 1, 2, 5), (0, 1, 1, 3)];
    let with = |count, size| verdict_on(&with_sets(&list, &[("NADIR", count, size)]));
    assert_eq!(with(3, 13), Verdict::Accepted);
    let place = 1807 + 2 * 1387;
    for (count, size) in [(2, 13), (4, 13), (3, 12), (3, 14), (1, 1)] {
        assert_eq!(with(count, size), refused(16, place, 1), "{count} {size}");
    }
}

#[test]
fn the_lowest_variable_set_that_does_not_fit_is_given() {
    let list = [(0, 1, 2, 5), (0, 2, 1, 3)];
    let description = with_sets(&list, &[("NADIR", 2, 10), ("LIMB", 2, 3), ("MONITORING", 1, 1)]);
    assert_eq!(verdict_on(&description), refused(16, 1247 + 1120 + 2 * 1387 + 10, 2));
}

#[test]
fn a_bad_state_comes_before_a_set_that_does_not_fit() {
    let list = [(0, 1, 2, 5), (2, 2, 1, 3)];
    assert_eq!(verdict_on(&with_sets(&list, &[("NADIR", 3, 10)])), refused(15, 1807 + 1387, 0));
}

#[test]
fn two_sets_of_one_name_each_have_all_records() {
    let product = named_product("unequal-lengths").unwrap();
    let lengths =
        |entry| (0..6).map(|record| record_part(&product, entry, record).len()).collect::<Vec<_>>();
    assert_eq!(lengths(1), [7, 7, 4, 4, 9, 0]);
    assert_eq!(lengths(2), [7, 7, 4, 4, 9, 0]);
    assert_eq!(lengths(3), [6, 6, 2, 0, 0, 0]);
    assert_eq!(lengths(4), [0; 6]);
    let start = 1247 + 5 * 280;
    assert_eq!(record_place(&product, 3, 2), Ok(Part { place: start + 12, length: 2 }));
    assert_eq!(record_place(&product, 2, 4), Ok(Part { place: start + 14 + 22, length: 9 }));
    let place = start + 14 + 31 + 8 * 1387 + 18;
    assert_eq!(record_place(&product, 1, 3), Ok(Part { place, length: 4 }));
    assert_eq!(record_place(&product, 1, 5), Err(refusal(18, 0, 1)));
    assert_eq!(record_place(&product, 4, 0), Err(refusal(18, 0, 4)));
}

#[test]
fn large_counts_and_lengths_are_read_whole() {
    let description = with_sets(&[(0, 3, 300, 1), (0, 3, 1, 70_000)], &[("OCCULTATION", 301, 70_300)]);
    let product = description.build();
    let start = 1807 + 2 * 1387;
    assert_eq!(record_place(&product, 1, 299), Ok(Part { place: start + 299, length: 1 }));
    assert_eq!(record_place(&product, 1, 300), Ok(Part { place: start + 300, length: 70_000 }));
}
