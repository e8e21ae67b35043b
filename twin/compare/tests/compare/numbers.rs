//! Every number of the main header and of the DSDs set to its edges.

use compare::{header_ends, number_fields, Comparer, NumberField};
use twin::builder::Number;
use twin::words::Call;

use crate::common::{choices, product};

/// The edges of a number with a field of so many digits, and what lies beside its value.
fn edges(field: &NumberField, value: i128) -> Vec<Number> {
    let nines = 10u128.pow(field.digits.len() as u32) - 1;
    let mut edges = vec![Number::MINUS_ZERO, Number::from(value - 1), Number::from(value + 1)];
    edges.push(Number::from(-value));
    let limits = [127, 128, 129, 279, 280, 281, 49_152, 49_153, 1386, 1387, (1 << 31) - 1, 1 << 31];
    let wide = [1 << 32, (1 << 63) - 1, 1 << 63, (1 << 63) + 1, (1 << 64) - 1, 1 << 64, nines];
    for magnitude in [0, 1, 2].into_iter().chain(limits).chain(wide) {
        edges.extend([false, true].map(|minus| Number { minus, magnitude }));
    }
    edges
}

/// Compares a product with each number of a part set to each of its edges.
fn set_each(name: &str, product: &[u8], part: std::ops::Range<usize>) -> usize {
    let mut comparer = Comparer::default();
    let mut choices = choices();
    let fields = number_fields(product, part);
    for field in &fields {
        for number in edges(field, field.read(product)) {
            let mut changed = product.to_vec();
            if field.write(&mut changed, number) {
                comparer.set_origin(format_args!("{name} with {number:?} at {}", field.sign));
                comparer.compare_some(&changed, 2, &mut choices);
            }
        }
    }
    fields.len()
}

#[test]
fn every_number_of_the_main_header_has_its_edges() {
    for name in ["case-a", "case-b", "GOM_RR__2P", "unequal-lengths"] {
        assert_eq!(set_each(name, &product(name), 1..1247), 18, "{name}");
    }
}

#[test]
fn every_number_of_the_descriptors_has_its_edges() {
    for (name, numbers) in [
        ("case-b", 4),
        ("case-g", 8),
        ("every-entry-form", 16),
        ("unequal-lengths", 20),
        ("sets-out-of-order", 24),
        ("minus-zeros", 4),
        ("extinction-empty", 4),
        ("GOM_RR__2P", 16),
    ] {
        let product = product(name);
        let (lines_end, headers_end) = header_ends(&product);
        assert_eq!(set_each(name, &product, lines_end..headers_end), numbers, "{name}");
    }
}

/// The four numbers of one DSD, each at every one of its own edges, in an entry of each type and name.
#[test]
fn the_numbers_of_a_descriptor_are_weighed_together_alike() {
    const LARGEST: i128 = i64::MAX as i128;
    let original = product("case-b");
    let fields = number_fields(&original, 1247..1527);
    let mut comparer = Comparer::of("case-b with other numbers");
    for (name, set_type) in [("DEMO ", b'G'), ("NADIR", b'M'), ("LIMB ", b'A'), ("STATE", b'R')] {
        let mut product = original.clone();
        product[1247 + 9..1247 + 14].copy_from_slice(name.as_bytes());
        product[1247 + 47] = set_type;
        for offset in [-1, 0, 1526, 1527, 1528, 1541, 1542, LARGEST - 15, LARGEST, LARGEST + 1] {
            for size in [-1, 0, 1, 14, 15, 16, 1 << 32, LARGEST - 1527, LARGEST, LARGEST + 1] {
                for count in [-1, 0, 1, 3, 15, 16, 1 << 32, 9_999_999_999] {
                    for record_size in [-2, -1, 0, 1, 5, 15, (1 << 32) + 1, 9_999_999_999] {
                        for (field, number) in fields.iter().zip([offset, size, count, record_size]) {
                            assert!(field.write(&mut product, Number::from(number)));
                        }
                        comparer.compare(&product, Call::Judge);
                    }
                }
            }
        }
    }
}
