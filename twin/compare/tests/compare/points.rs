//! Points at and around the limits, with the doubles compared by their bits.

use compare::Comparer;
use twin::builder::Generator;
use twin::words::Call;

use crate::common::one_record;

/// Latitudes, longitudes and altitudes as they stand in a record; an altitude's are read unsigned.
const NUMBERS: [i32; 26] = [
    0,
    1,
    -1,
    3,
    -7,
    33_333_333,
    89_999_999,
    90_000_000,
    90_000_001,
    -89_999_999,
    -90_000_000,
    -90_000_001,
    123_456_789,
    179_999_999,
    180_000_000,
    180_000_001,
    -179_999_999,
    -180_000_000,
    -180_000_001,
    i32::MAX,
    i32::MAX - 1,
    i32::MIN,
    i32::MIN + 1,
    100,
    -99,
    -4097,
];

#[test]
fn points_of_all_limits_together_are_alike() {
    let product = one_record(NUMBERS.iter().flat_map(|number| number.to_be_bytes()).collect());
    let mut comparer = Comparer::of("a record of limits");
    let places = || (0..NUMBERS.len()).map(|number| 4 * number);
    for latitude in places() {
        for longitude in places() {
            for altitude in places() {
                let offsets = [latitude, longitude, altitude];
                comparer.compare(&product, Call::PointAt { entry: 0, record: 0, offsets });
            }
        }
    }
}

/// The three offsets at and around the record's end, in every order.
#[test]
fn the_first_offset_past_the_end_is_named() {
    let numbers = [90_000_001, 180_000_001, -1];
    let product = one_record(numbers.iter().flat_map(|number: &i32| number.to_be_bytes()).collect());
    let mut comparer = Comparer::of("a record of twelve bytes");
    let offsets = [0, 1, 4, 7, 8, 9, 10, 11, 12, 13, usize::MAX - 3, usize::MAX];
    for latitude in offsets {
        for longitude in offsets {
            for altitude in offsets {
                let offsets = [latitude, longitude, altitude];
                comparer.compare(&product, Call::PointAt { entry: 0, record: 0, offsets });
            }
        }
    }
}

/// Angles and altitudes at random, so that the one rounding of the quotient is the same.
#[test]
fn quotients_are_rounded_alike() {
    let mut generator = Generator::new(11);
    for _ in 0..200 {
        let mut record = Vec::new();
        for limit in [90_000_000, 180_000_000].into_iter().cycle().take(200) {
            record.extend(generator.within(limit).to_be_bytes());
        }
        record.extend((0..100).flat_map(|_| (generator.next_number() as u32).to_be_bytes()));
        let product = one_record(record);
        let mut comparer = Comparer::of("a record of random points");
        for node in 0..100 {
            let offsets = [8 * node, 8 * node + 4, 800 + 4 * node];
            let answer = comparer.compare(&product, Call::PointAt { entry: 0, record: 0, offsets });
            assert_eq!(answer.words, [0, 0, 0]);
        }
    }
}
