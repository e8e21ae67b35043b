//! The cases of document 01, the named products and those of the catalogue.

use compare::{Comparer, Mapping};
use twin::builder::{CATALOGUE_NAMES, NAMED_PRODUCTS};
use twin::words::{Answer, Call};

use crate::common::{choices, product};

/// Cases A to G and J: the words of the verdict, as document 01 says them.
const VERDICTS: [(&str, [u64; 3]); 8] = [
    ("case-a", [0, 0, 0]),
    ("case-b", [0, 0, 0]),
    ("case-c", [12, 1526, 0]),
    ("case-d", [12, 1528, 0]),
    ("case-e", [14, 1542, 128]),
    ("case-f", [13, 1812, 1]),
    ("case-g", [0, 0, 0]),
    ("case-j", [1, 0, 128]),
];

/// Asks the library for words, which document 01 says.
fn expect_words(name: &str, call: Call, words: &[u64], double_bits: &[u64]) {
    let (words, double_bits) = (words.to_vec(), double_bits.to_vec());
    let answer = Answer { words, bytes: Vec::new(), double_bits };
    let lengths = compare::Lengths::of(&answer).and(1);
    Comparer::of(name).compare_with(&product(name), call, &answer, lengths);
}

#[test]
fn cases_a_to_l_are_answered_as_document_01_says() {
    for (name, words) in VERDICTS {
        expect_words(name, Call::Judge, &words, &[]);
    }
    let field = |kind| Call::FieldAt { entry: 0, record: 0, offset: 0, kind };
    expect_words("case-h", field(5), &[0, 0, 0, 1, u64::MAX, 0, 0], &[]);
    expect_words("case-h", field(6), &[0, 0, 0, 1, 4_294_967_295, 0, 0], &[]);
    expect_words("case-i", field(1), &[0, 0, 0, 1, u64::MAX, 0, 0], &[]);
    let point = Call::PointAt { entry: 0, record: 0, offsets: [0, 4, 8] };
    expect_words("case-k", point, &[0, 0, 0], &[90f64.to_bits(), 0, 0]);
    expect_words("case-l", point, &[21, 0, 0], &[0, 0, 0]);
}

/// Record 0 is of quality -2 on the day before 2000, record 1 of quality -1; EXT_MDS is entry 1.
#[test]
fn pixels_are_answered_as_order_1_says() {
    let pixel = |record, pixel| Call::ExtinctionAt { record, pixel };
    let (day_before, quality) = (u64::MAX, u64::MAX - 1);
    let first = [0, 0, 0, day_before, 86_399, 999_999, quality, 0x7fa1_2345, 0xffc0_0001, 0, 4];
    expect_words("extinction", pixel(0, 0), &first, &[0]);
    let middle = [0, 0, 0, day_before, 86_399, 999_999, quality, 0x3f80_0000, 1, 65_535, 1];
    expect_words("extinction", pixel(0, 1167), &middle, &[2f64.to_bits()]);
    for (name, call, refusal) in [
        ("case-e", pixel(0, 0), [14, 1542, 128]),
        ("case-b", pixel(0, 0), [22, 0, 128]),
        ("extinction-twice", pixel(0, 2336), [22, 0, 128]),
        ("extinction-other-size", pixel(0, 0), [22, 0, 128]),
        ("extinction-empty", pixel(0, 2336), [18, 0, 1]),
        ("extinction", pixel(2, 2336), [18, 0, 1]),
        ("extinction", pixel(0, 2336), [23, 2336, 1]),
        ("extinction", pixel(1, usize::MAX), [23, u64::MAX, 1]),
        ("extinction", pixel(1, 2335), [24, 12, 1]),
    ] {
        let words = [&refusal[..], &[0; 8]].concat();
        expect_words(name, call, &words, &[0]);
    }
}

#[test]
fn named_products_are_answered_as_the_twin_does() {
    for named in &NAMED_PRODUCTS {
        Comparer::of(named.name).compare_all(&(named.build)(), &mut choices());
    }
    Comparer::of("the empty input").compare_all(&[], &mut choices());
}

#[test]
fn ranks_are_answered_as_order_10_says() {
    for (name, ranks) in [
        ("case-b", &[0, 0][..]),
        ("case-g", &[1, 0, 0]),
        ("case-e", &[0]),
        ("every-entry-form", &[128, 128, 128, 128, 0, 128, 0]),
        ("sets-out-of-order", &[1, 128, 3, 128, 0, 128, 2, 0]),
    ] {
        let answer = Comparer::of(name).compare(&product(name), Call::OpenDirectory);
        assert!(answer.words[644..].starts_with(ranks), "{name}: {:?}", &answer.words[644..]);
    }
}

#[test]
fn catalogue_products_are_answered_as_the_twin_does() {
    for name in CATALOGUE_NAMES {
        Comparer::of(name).compare_all(&product(name), &mut choices());
    }
}

/// Products whose neighbours in memory cannot be read, and which cannot be written.
#[test]
fn no_byte_outside_a_product_is_read_and_none_is_written() {
    for named in &NAMED_PRODUCTS {
        let product = (named.build)();
        let mut comparer = Comparer::of(named.name);
        comparer.compare_some(Mapping::ending_at_its_end(&product).bytes(), 2, &mut choices());
        comparer.compare_some(Mapping::starting_at_its_start(&product).bytes(), 2, &mut choices());
    }
}

#[test]
fn state_totals_past_64_bits_do_not_wrap() {
    let product = product("wrapping-states");
    let mut comparer = Comparer::of("wrapping-states");
    let verdict = comparer.compare(&product, Call::Judge);
    assert_eq!(verdict.words, [16, 1807, 0]);
    comparer.compare_some(&product, 1, &mut choices());
}
