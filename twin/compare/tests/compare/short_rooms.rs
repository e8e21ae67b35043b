//! Rooms that are too short: the call says so and writes nothing; at exactly the length of the answer it writes.

use compare::{Comparer, Lengths};
use twin::words::{Call, DIRECTORY_TEXTS, DIRECTORY_WORDS, HEADER_TEXTS, HEADER_WORDS};
use twin::words::{EXTINCTION_DOUBLES, EXTINCTION_WORDS, FIELD_WORDS, PART_WORDS, PLACE_WORDS};
use twin::words::{POINT_DOUBLES, POINT_WORDS, VERDICT_WORDS};

use crate::common::product;

/// The calls, with the lengths that their rooms have whatever the product.
fn calls(entry: usize, record: usize) -> [(Call, [usize; 2]); 10] {
    let field = Call::FieldAt { entry, record, offset: 0, kind: 2 };
    [
        (Call::Judge, [VERDICT_WORDS, 0]),
        (Call::OpenDirectory, [DIRECTORY_WORDS, 0]),
        (Call::HeaderValues, [HEADER_WORDS, 0]),
        (Call::SphPlace, [PLACE_WORDS, 0]),
        (Call::SphPart, [PART_WORDS, 0]),
        (Call::RecordPlace { entry, record }, [PLACE_WORDS, 0]),
        (Call::RecordPart { entry, record }, [PART_WORDS, 0]),
        (field, [FIELD_WORDS, 0]),
        (Call::PointAt { entry, record, offsets: [0; 3] }, [POINT_WORDS, POINT_DOUBLES]),
        (Call::ExtinctionAt { record, pixel: 1167 }, [EXTINCTION_WORDS, EXTINCTION_DOUBLES]),
    ]
}

/// Of rooms that take no more elements, every length that is too short is lent: for the words of a directory too,
/// among them the 644 that a directory without ranks took.
const EVERY_LENGTH: usize = 772;

/// Lengths below what is needed: all of them, or of many the ones around their edges.
fn too_short(needed: usize) -> Vec<usize> {
    let edges = [1000, 3583, 3584, 3585, 11_000, needed.wrapping_sub(2), needed.wrapping_sub(1)];
    let others = edges.into_iter().filter(|&length| length >= EVERY_LENGTH && length < needed);
    (0..needed.min(EVERY_LENGTH)).chain(others).collect()
}

/// Lends each room of a call at every length that is too short, beside rooms that are long enough or not.
pub fn lend_short(comparer: &mut Comparer, product: &[u8], call: Call, needed: Lengths) {
    for beside in [needed, needed.and(3)] {
        for words in too_short(needed.words) {
            comparer.refuse_rooms(product, call, Lengths { words, ..beside });
        }
        for bytes in too_short(needed.bytes) {
            comparer.refuse_rooms(product, call, Lengths { bytes, ..beside });
        }
        for doubles in too_short(needed.doubles) {
            comparer.refuse_rooms(product, call, Lengths { doubles, ..beside });
        }
    }
    let none = Lengths { words: 0, bytes: 0, doubles: 0 };
    comparer.refuse_rooms(product, call, none);
}

#[test]
fn short_rooms_are_refused_and_exact_ones_filled() {
    let places = [(0, 0), (0, 2), (2, 4), (3, 0), (500, 0)];
    for name in [
        "case-b",
        "case-e",
        "case-j",
        "unequal-lengths",
        "descriptors-128",
        "GOM_RR__2P",
        "extinction",
        "extinction-twice",
    ] {
        let product = product(name);
        let mut comparer = Comparer::of(name);
        for (entry, record) in places {
            for (call, [words, doubles]) in calls(entry, record) {
                let answer = call.answer(&product);
                let needed = Lengths::of(&answer);
                assert_eq!([needed.words, needed.doubles], [words, doubles], "{call:?}");
                comparer.compare_with(&product, call, &answer, needed);
                lend_short(&mut comparer, &product, call, needed);
            }
        }
    }
}

#[test]
fn texts_have_the_lengths_of_the_header() {
    for name in ["case-a", "case-e"] {
        let product = product(name);
        assert_eq!(Call::OpenDirectory.answer(&product).bytes.len(), DIRECTORY_TEXTS);
        assert_eq!(Call::HeaderValues.answer(&product).bytes.len(), HEADER_TEXTS);
    }
}

/// The longest SPH lines take a room of 49,152 bytes.
#[test]
fn the_longest_lines_fit_their_room_exactly() {
    let product = product("sph-49152");
    let mut comparer = Comparer::of("sph-49152");
    let answer = Call::SphPart.answer(&product);
    let needed = Lengths::of(&answer);
    assert_eq!(needed.bytes, 49_152);
    comparer.compare_with(&product, Call::SphPart, &answer, needed);
    lend_short(&mut comparer, &product, Call::SphPart, needed);
}
