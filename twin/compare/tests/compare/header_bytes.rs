//! Every byte of the headers, and every byte of a state that a rule looks at, replaced in turn.

use compare::{header_ends, Comparer};
use twin::builder::{Description, EntryDescription};

use crate::common::{choices, product};

/// Bytes of each class that a layout tells apart, and their neighbours.
const CLASSES: [u8; 24] = [
    b'0', b'1', b'9', b'A', b'Z', b'a', b'z', b' ', b'\n', b'"', b'!', b'#', b'+', b'-', b'=', b'_',
    b'.', b'<', b'~', 0, 13, 127, 128, 255,
];

/// Compares a product with each byte of a part replaced in turn.
fn replace_each(name: &str, mut product: Vec<u8>, part: std::ops::Range<usize>) {
    let mut comparer = Comparer::default();
    let mut choices = choices();
    for place in part {
        let before = product[place];
        for byte in CLASSES.into_iter().filter(|&byte| byte != before) {
            product[place] = byte;
            comparer.set_origin(format_args!("{name} with byte {byte} at {place}"));
            comparer.compare_some(&product, 1, &mut choices);
        }
        product[place] = before;
    }
}

#[test]
fn every_byte_of_the_main_header_is_looked_at_alike() {
    replace_each("case-b", product("case-b"), 0..1247);
}

#[test]
fn every_byte_of_a_descriptor_is_looked_at_alike() {
    replace_each("case-b", product("case-b"), 1247..1527);
    let two_forms = product("every-entry-form");
    replace_each("every-entry-form", two_forms, 1247..1247 + 560);
    replace_each("extinction-empty", product("extinction-empty"), 1247..1247 + 560);
}

#[test]
fn every_byte_of_unequal_sets_descriptors_is_looked_at_alike() {
    let product = product("unequal-lengths");
    let (lines_end, _) = header_ends(&product);
    replace_each("unequal-lengths", product, lines_end..lines_end + 560);
}

/// Lines of every form, short enough to look at each byte.
#[test]
fn every_byte_of_sph_lines_is_looked_at_alike() {
    let mut description = Description::new(vec![EntryDescription::records(b'G', "DEMO", 1, 3)]);
    description.sph_lines =
        b"A=1\n   \nAB_9=\"x y\"\nB=\"\"\nZ= = \n \nQ=\"A=1\"\nSTOP_LONG=+0179999999<10-6degE>\n"
            .to_vec();
    let lines_end = description.lines_end();
    replace_each("lines of every form", description.build(), 1247..lines_end);
}

#[test]
fn every_byte_of_gomos_lines_is_looked_at_alike() {
    let product = product("GOM_LIM_1P");
    let (lines_end, _) = header_ends(&product);
    replace_each("GOM_LIM_1P", product, 1247..lines_end);
}

/// Flag, kind, number of records and length of each state take every value of a byte.
#[test]
fn every_byte_of_states_that_counts_is_looked_at_alike() {
    let mut product = product("unequal-lengths");
    let mut comparer = Comparer::default();
    let mut choices = choices();
    for state in 0..8 {
        for place in [12, 1116, 1381, 1382, 1383, 1384, 1385, 1386] {
            let place = 2692 + 1387 * state + place;
            let before = product[place];
            for byte in 0..=255 {
                product[place] = byte;
                comparer.set_origin(format_args!("unequal-lengths with byte {byte} at {place}"));
                comparer.compare_some(&product, 1, &mut choices);
            }
            product[place] = before;
        }
    }
}
