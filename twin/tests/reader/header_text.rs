//! Rules 1 to 6 and the header values.

use crate::common::{demo, refused, verdict_on, NONE};
use twin::builder::{named_product, Description, Number};
use twin::{header_values, judge, Verdict};

/// A mark for each sort of free byte, none of them a byte of the header.
const TEXT: &str = "\u{1}";
const FLAG: &str = "\u{2}";
const SIGN: &str = "\u{3}";
const DIGIT: &str = "\u{4}";

fn spare(blanks: usize) -> String {
    " ".repeat(blanks) + "\n"
}

fn quoted(keyword: &str, width: usize) -> String {
    format!("{keyword}=\"{}\"\n", TEXT.repeat(width))
}

fn single(keyword: &str, mark: &str) -> String {
    format!("{keyword}={mark}\n")
}

fn whole(keyword: &str, digits: usize, unit: &str) -> String {
    format!("{keyword}={SIGN}{}{unit}\n", DIGIT.repeat(digits))
}

fn decimal(keyword: &str, before: usize, after: usize, unit: &str) -> String {
    format!("{keyword}={SIGN}{}.{}{unit}\n", DIGIT.repeat(before), DIGIT.repeat(after))
}

/// The main header with a mark for each free byte.
pub fn pattern() -> Vec<u8> {
    let mut text = quoted("PRODUCT", 62) + &single("PROC_STAGE", TEXT) + &quoted("REF_DOC", 23);
    text += &(spare(40) + &quoted("ACQUISITION_STATION", 20) + &quoted("PROC_CENTER", 6));
    text += &(quoted("PROC_TIME", 27) + &quoted("SOFTWARE_VER", 14) + &spare(40));
    text += &(quoted("SENSING_START", 27) + &quoted("SENSING_STOP", 27) + &spare(40));
    text += &(single("PHASE", TEXT) + &whole("CYCLE", 3, ""));
    text += &(whole("REL_ORBIT", 5, "") + &whole("ABS_ORBIT", 5, ""));
    text += &(quoted("STATE_VECTOR_TIME", 27) + &decimal("DELTA_UT1", 0, 6, "<s>"));
    for axis in ["X", "Y", "Z"] {
        text += &decimal(&format!("{axis}_POSITION"), 7, 3, "<m>");
    }
    for axis in ["X", "Y", "Z"] {
        text += &decimal(&format!("{axis}_VELOCITY"), 4, 6, "<m/s>");
    }
    text += &(quoted("VECTOR_SOURCE", 2) + &spare(40) + &quoted("UTC_SBT_TIME", 27));
    text += &(whole("SAT_BINARY_TIME", 10, "") + &whole("CLOCK_STEP", 10, "<ps>") + &spare(32));
    text += &(quoted("LEAP_UTC", 27) + &whole("LEAP_SIGN", 3, "") + &single("LEAP_ERR", FLAG));
    text += &(spare(40) + &single("PRODUCT_ERR", FLAG) + &whole("TOT_SIZE", 20, "<bytes>"));
    text += &(whole("SPH_SIZE", 10, "<bytes>") + &whole("NUM_DSD", 10, ""));
    text += &(whole("DSD_SIZE", 10, "<bytes>") + &whole("NUM_DATA_SETS", 10, "") + &spare(40));
    text.into_bytes()
}

pub fn is_allowed(mark: u8, byte: u8) -> bool {
    match mark {
        1 => (32..=126).contains(&byte) && byte != 34,
        2 => byte == 48 || byte == 49,
        3 => byte == 43 || byte == 45,
        4 => (48..=57).contains(&byte),
        fixed => byte == fixed,
    }
}

#[test]
fn every_byte_of_the_main_header_has_its_own_allowed_set() {
    let pattern = pattern();
    assert_eq!(pattern.len(), 1247);
    let mut product = named_product("case-b").unwrap();
    for place in 0..1247 {
        let kept = product[place];
        for byte in 0..=255 {
            product[place] = byte;
            let verdict = judge(&product);
            if is_allowed(pattern[place], byte) {
                assert!(!matches!(verdict, Verdict::Refused { number: 3, .. }), "{place} {byte}");
            } else {
                assert_eq!(verdict, refused(3, place as u64, NONE), "{place} {byte}");
            }
        }
        product[place] = kept;
    }
}

#[test]
fn the_lowest_bad_byte_is_the_place() {
    let mut product = named_product("case-a").unwrap();
    for place in [1246, 1180, 1009, 576, 575, 73, 9, 0] {
        product[place] = 0;
        assert_eq!(judge(&product), refused(3, place as u64, NONE));
    }
}

#[test]
fn lengths_come_before_bytes() {
    let product = vec![0; 1247];
    assert_eq!(judge(&product), refused(3, 0, NONE));
    for length in [0, 1, 600, 1246] {
        assert_eq!(judge(&product[..length]), refused(1, length as u64, NONE));
    }
}

fn verdict_with(keyword: &'static str, number: Number) -> Verdict {
    let mut description = Description::new(vec![demo()]);
    description.set_number(keyword, number);
    verdict_on(&description)
}

#[test]
fn tot_size_is_read_past_64_bits() {
    let at = |minus, magnitude| verdict_with("TOT_SIZE", Number { minus, magnitude });
    for magnitude in [1 << 63, (1 << 64) + 1542, 99_999_999_999_999_999_999, (1 << 63) + 1] {
        assert_eq!(at(false, magnitude), refused(4, 1075, NONE));
        assert_eq!(at(true, magnitude), refused(4, 1075, NONE));
    }
    for magnitude in [(1 << 63) - 1, 1541, 1543, 0] {
        assert_eq!(at(false, magnitude), refused(5, 1075, NONE));
    }
    assert_eq!(at(true, 1542), refused(5, 1075, NONE));
    assert_eq!(at(false, 1542), Verdict::Accepted);
}

#[test]
fn sizes_of_the_headers_are_looked_at_in_order() {
    let with = |keyword, value: i128| verdict_with(keyword, Number::from(value));
    for value in [-1, -9_999_999_999, 49_153, 9_999_999_999, 296] {
        assert_eq!(with("SPH_SIZE", value), refused(6, 1113, NONE), "{value}");
    }
    for value in [-1, 2, 129, 9_999_999_999] {
        assert_eq!(with("NUM_DSD", value), refused(6, 1140, NONE), "{value}");
    }
    for value in [-280, 0, 279, 281] {
        assert_eq!(with("DSD_SIZE", value), refused(6, 1161, NONE), "{value}");
    }
    assert_eq!(with("SPH_SIZE", 279), refused(6, 1140, NONE));
    assert_eq!(with("SPH_SIZE", 295), refused(7, 1247, NONE));
}

#[test]
fn the_first_of_several_bad_sizes_is_given() {
    let mut description = Description::new(vec![demo()]);
    description.set_number("DSD_SIZE", 281);
    description.set_number("NUM_DSD", -1);
    assert_eq!(verdict_on(&description), refused(6, 1140, NONE));
    description.set_number("SPH_SIZE", -280);
    assert_eq!(verdict_on(&description), refused(6, 1113, NONE));
}

#[test]
fn dsd_size_counts_without_descriptors_too() {
    let mut description = Description::default();
    description.set_number("DSD_SIZE", 0);
    assert_eq!(verdict_on(&description), refused(6, 1161, NONE));
}

#[test]
fn minus_zero_is_zero() {
    let mut description = Description::default();
    for keyword in ["SPH_SIZE", "NUM_DSD", "NUM_DATA_SETS"] {
        description.set_number(keyword, Number::MINUS_ZERO);
    }
    let values = header_values(&description.build()).unwrap();
    assert_eq!((values.sph_size, values.num_dsd, values.num_data_sets), (0, 0, 0));
}

#[test]
fn blank_texts_are_good() {
    let values = header_values(&named_product("case-a").unwrap()).unwrap();
    assert!(values.texts().iter().all(|text| text.iter().all(|&byte| byte == b' ')));
    assert_eq!(values.single_bytes(), [32, 32, 48, 48]);
    let sizes = [1247, 0, 0, 280, 0];
    assert_eq!(values.numbers()[13..], sizes);
    assert!(values.numbers()[..13].iter().all(|&number| number == 0));
}

/// The first twelve numbers, with values at the ends of their ranges.
const GIVEN: [(&str, i64); 12] = [
    ("CYCLE", -999),
    ("REL_ORBIT", 99_999),
    ("ABS_ORBIT", -99_999),
    ("DELTA_UT1", -999_999),
    ("X_POSITION", 9_999_999_999),
    ("Y_POSITION", -9_999_999_999),
    ("Z_POSITION", 7),
    ("X_VELOCITY", 9_999_999_999),
    ("Y_VELOCITY", -1),
    ("Z_VELOCITY", 1_000_000),
    ("SAT_BINARY_TIME", 9_999_999_999),
    ("CLOCK_STEP", -5),
];

#[test]
fn values_are_answered_in_document_order() {
    let mut description = Description::new(vec![demo()]);
    for (keyword, value) in GIVEN {
        description.set_number(keyword, i128::from(value));
    }
    description.set_number("LEAP_SIGN", -1);
    let lengths = [62, 23, 20, 6, 27, 14, 27, 27, 27, 2, 27, 27];
    for (place, keyword) in [(0, "PRODUCT"), (1, "REF_DOC"), (9, "VECTOR_SOURCE"), (11, "LEAP_UTC")] {
        let text: String =
            (0..lengths[place]).map(|index| char::from(b'a' + index as u8 % 26)).collect();
        description.set_text(keyword, &text);
    }
    description.set_single("PROC_STAGE", b'P');
    description.set_single("PHASE", b'~');
    description.set_single("LEAP_ERR", b'1');
    let values = header_values(&description.build()).unwrap();
    assert_eq!(values.numbers()[..12], GIVEN.map(|(_, value)| value));
    assert_eq!(values.numbers()[12..], [-1, 1542, 280, 1, 280, 1]);
    assert_eq!(values.single_bytes(), [b'P', b'~', 49, 48]);
    assert_eq!(values.texts().map(<[u8]>::len), lengths);
    assert!(values.texts()[0].starts_with(b"abcdef") && values.texts()[9] == b"ab");
    assert!(values.texts()[11].ends_with(b"za") && values.texts()[10] == [b' '; 27]);
}
