//! Records, fields and points: rules 17 to 21.

use crate::common::{refusal, NONE};
use twin::builder::{named_product, Description, EntryDescription};
use twin::{field, header_values, point, record_part, record_place, FieldAnswer, Part, Refusal, Time};

fn one_record(bytes: &[u8]) -> Vec<u8> {
    Description::new(vec![EntryDescription::new(b'M', "DEMO", bytes.to_vec())]).build()
}

fn answered(bytes: &[u8], offset: u64, kind: u64) -> FieldAnswer {
    field(&one_record(bytes), 0, 0, offset, kind).unwrap()
}

fn is_whole(bytes: &[u8], kind: u64, value: i64) -> bool {
    answered(bytes, 0, kind).is_same(&FieldAnswer::Whole(value))
}

#[test]
fn a_refused_product_gives_its_own_number_and_no_part() {
    let product = named_product("case-e").unwrap();
    let own = refusal(14, 1542, NONE);
    assert_eq!(header_values(&product), Err(own));
    assert_eq!(record_place(&product, 0, 0), Err(own));
    assert_eq!(record_place(&product, 999, 0), Err(own));
    assert_eq!(field(&product, 0, 7, u64::MAX, 99).unwrap_err(), own);
    assert_eq!(point(&product, 999, 0, 0, 0, 0), Err(own));
    assert_eq!(record_part(&product, 0, 0), b"");
}

#[test]
fn records_are_handed_out_by_index() {
    let product = named_product("case-b").unwrap();
    for record in 0..3 {
        let place = 1527 + 5 * record;
        assert_eq!(record_place(&product, 0, record), Ok(Part { place, length: 5 }));
        assert_eq!(record_part(&product, 0, record), &product[place as usize..place as usize + 5]);
    }
    for record in [3, 4, 1 << 40, u64::MAX] {
        assert_eq!(record_place(&product, 0, record), Err(refusal(18, 0, 0)));
        assert_eq!(record_part(&product, 0, record), b"");
    }
    for entry in [1, 127, 128, usize::MAX] {
        assert_eq!(record_place(&product, entry, 0), Err(refusal(17, 0, NONE)));
        assert_eq!(record_part(&product, entry, 0), b"");
    }
}

#[test]
fn r_spare_and_empty_entries_have_no_record() {
    let product = named_product("every-entry-form").unwrap();
    for entry in [0, 1, 2, 3, 5] {
        assert_eq!(record_place(&product, entry, 0), Err(refusal(18, 0, entry)));
    }
    assert_eq!(record_part(&product, 4, 0), [1, 2, 3]);
    assert_eq!(record_place(&product, 6, 0), Err(refusal(17, 0, NONE)));
}

#[test]
fn whole_numbers_are_big_endian() {
    assert!(is_whole(&[0x80], 1, -128) && is_whole(&[0x7f], 1, 127));
    assert!(is_whole(&[0x80], 2, 128) && is_whole(&[0xff], 2, 255));
    assert!(is_whole(&[0x80, 1], 3, -32_767) && is_whole(&[1, 2], 3, 258));
    assert!(is_whole(&[0x80, 1], 4, 32_769) && is_whole(&[1, 2], 4, 258));
    assert!(is_whole(&[1, 2, 3, 4], 5, 16_909_060));
    assert!(is_whole(&[0x80, 0, 0, 0], 5, -2_147_483_648));
    assert!(is_whole(&[0x80, 0, 0, 0], 6, 2_147_483_648));
}

#[test]
fn floats_keep_their_bits() {
    for bits in [0x7fa0_0001u32, 0xff80_0001, 0x8000_0000, 1, 0x3f80_0000, 0x7f80_0000] {
        match answered(&bits.to_be_bytes(), 0, 7) {
            FieldAnswer::Single(value) => assert_eq!(value.to_bits(), bits),
            other => panic!("{other:?}"),
        }
    }
    for bits in [0x7ff0_0000_0000_0001u64, 0xfff4_0000_0000_0000, 1, 0x3ff0_0000_0000_0000] {
        match answered(&bits.to_be_bytes(), 0, 8) {
            FieldAnswer::Double(value) => assert_eq!(value.to_bits(), bits),
            other => panic!("{other:?}"),
        }
    }
}

#[test]
fn times_are_not_range_checked() {
    let time = Time { days: -1, seconds: u32::MAX, microseconds: 0x0102_0304 };
    let mut bytes = vec![9; 3];
    bytes.extend([0xff; 8]);
    bytes.extend([1, 2, 3, 4]);
    assert!(answered(&bytes, 3, 9).is_same(&FieldAnswer::Time(time)));
}

#[test]
fn fields_are_refused_in_order() {
    let product = named_product("case-b").unwrap();
    let asked = |entry, record, offset, kind| field(&product, entry, record, offset, kind).unwrap_err();
    assert_eq!(asked(1, 9, 9, 99), refusal(17, 0, NONE));
    assert_eq!(asked(0, 9, 9, 99), refusal(18, 0, 0));
    for kind in [0, 10, 11, 255, 256 + 1, u64::MAX] {
        assert_eq!(asked(0, 0, 9, kind), refusal(19, 0, 0));
    }
    assert_eq!(asked(0, 0, 9, 1), refusal(20, 9, 0));
}

#[test]
fn a_kind_is_the_whole_number_asked() {
    let product = one_record(&[0xa5; 20]);
    for known in 1..=9 {
        assert!(field(&product, 0, 0, 0, known).is_ok(), "{known}");
        for bits in [4, 8, 16, 32, 63] {
            for kind in [(1 << bits) + known, (u64::MAX << bits) + known] {
                let refused = field(&product, 0, 0, 0, kind).unwrap_err();
                assert_eq!(refused, refusal(19, 0, 0), "{kind}");
            }
        }
    }
}

#[test]
fn fields_end_with_their_record() {
    let product = named_product("case-b").unwrap();
    let widths = [1, 1, 2, 2, 4, 4, 4, 8, 12];
    for (kind, width) in (1..).zip(widths) {
        for offset in (0..16).chain([u64::MAX, u64::MAX - 3, 1 << 63]) {
            let answer = field(&product, 0, 1, offset, kind);
            match u128::from(offset) + width <= 5 {
                true => assert!(answer.is_ok(), "{kind} {offset}"),
                false => assert_eq!(answer.unwrap_err(), refusal(20, offset, 0), "{kind} {offset}"),
            }
        }
    }
}

#[test]
fn the_length_of_a_variable_record_counts() {
    let product = named_product("unequal-lengths").unwrap();
    assert!(field(&product, 1, 0, 3, 6).is_ok());
    assert_eq!(field(&product, 1, 2, 1, 6).unwrap_err(), refusal(20, 1, 1));
    assert!(field(&product, 1, 4, 1, 8).is_ok());
    assert_eq!(field(&product, 1, 5, 0, 1).unwrap_err(), refusal(18, 0, 1));
}

fn point_of(latitude: i32, longitude: i32, altitude: u32) -> Result<[f64; 3], Refusal> {
    let bytes = [altitude.to_be_bytes(), latitude.to_be_bytes(), longitude.to_be_bytes()].concat();
    let answered = point(&one_record(&bytes), 0, 0, 4, 8, 0)?;
    Ok([answered.latitude, answered.longitude, answered.altitude])
}

#[test]
fn limits_of_points_are_inclusive() {
    assert_eq!(point_of(90_000_000, -180_000_000, u32::MAX), Ok([90.0, -180.0, 42_949_672.95]));
    assert_eq!(point_of(-90_000_000, 180_000_000, 0), Ok([-90.0, 180.0, 0.0]));
    for latitude in [90_000_001, -90_000_001, i32::MIN, i32::MAX] {
        assert_eq!(point_of(latitude, 180_000_001, 0), Err(refusal(21, 4, 0)));
    }
    for longitude in [180_000_001, -180_000_001, i32::MIN, i32::MAX] {
        assert_eq!(point_of(90_000_000, longitude, 0), Err(refusal(21, 8, 0)));
    }
}

#[test]
fn points_are_refused_in_the_order_of_their_offsets_as_asked() {
    let product = one_record(&[0x7f; 12]);
    let asked = |latitude, longitude, altitude| point(&product, 0, 0, latitude, longitude, altitude);
    assert_eq!(asked(50, 9, 10), Err(refusal(20, 50, 0)));
    assert_eq!(asked(0, 40, 9), Err(refusal(20, 40, 0)));
    assert_eq!(asked(0, 4, u64::MAX), Err(refusal(20, u64::MAX, 0)));
    assert_eq!(asked(8, 4, 0), Err(refusal(21, 8, 0)));
    assert_eq!(point(&product, 1, 0, 99, 99, 99), Err(refusal(17, 0, NONE)));
    assert_eq!(point(&product, 0, 1, 99, 99, 99), Err(refusal(18, 0, 0)));
}

/// The bound over whole numbers, with the result times 2^72 (angle) or 2^59 (altitude). A magnitude of
/// 180 and 72 more bits do not fit 128 bits with a factor of a million, so the remainder is compared.
fn is_within(result: f64, value: i64, scale: i128, exponent: i32) -> bool {
    let bits = result.abs().to_bits();
    if bits == 0 {
        return value == 0;
    }
    let power = (bits >> 52) as i32 - 1075 + exponent;
    let mantissa = i128::from((bits & ((1 << 52) - 1)) | (1 << 52));
    let allowed = 1i128 << (exponent - 46 + if scale == 100 { 18 } else { 0 });
    assert!(power >= 0, "the result times the power is a whole number");
    let exact = i128::from(value.abs());
    // scale * mantissa * 2^power - exact * 2^exponent, over 2^power where that is smaller
    let shared = power.min(exponent);
    let difference = scale * mantissa * (1 << (power - shared)) - exact * (1 << (exponent - shared));
    let limit = scale * allowed;
    difference.abs() <= limit >> shared && result.is_sign_negative() == (value < 0)
}

#[test]
fn points_stay_within_the_bounds() {
    let mut generator = twin::builder::Generator::new(twin::settings::seed());
    for round in 0..20_000 {
        let latitude = generator.below(180_000_001) as i32 - 90_000_000;
        let longitude = generator.below(360_000_001) as i32 - 180_000_000;
        let altitude = generator.next_number() as u32;
        let (latitude, longitude) =
            if round < 2001 { (round - 1000, 1000 - round) } else { (latitude, longitude) };
        let [north, east, up] = point_of(latitude, longitude, altitude).unwrap();
        assert!(is_within(north, latitude.into(), 1_000_000, 72), "{latitude}");
        assert!(is_within(east, longitude.into(), 1_000_000, 72), "{longitude}");
        assert!(is_within(up, altitude.into(), 100, 59), "{altitude}");
        assert_eq!(north.to_bits(), (f64::from(latitude) / 1e6).to_bits());
    }
}
