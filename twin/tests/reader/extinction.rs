//! Residual extinction: refusals 22, 18, 23 and 24 and what a pixel answers, as document 02, order 1 has it.

use crate::common::{number, refusal, NONE};
use twin::builder::{extinction_entry, named_product, Description, EntryDescription};
use twin::{extinction, record_part, Pixel, Refusal, Time, PIXELS};

/// Bytes of a record of EXT_MDS.
const RECORD: usize = 25_709;

/// A record of these bytes again and again, of quality 0.
fn record_of(byte: u8) -> Vec<u8> {
    let mut record = vec![byte; RECORD];
    record[12] = 0;
    record
}

fn build(entries: &[EntryDescription]) -> Vec<u8> {
    Description::new(entries.to_vec()).build()
}

/// A product of one record alone, written from byte 1527 on.
fn of_record(record: Vec<u8>) -> Vec<u8> {
    build(&[extinction_entry(&[record])])
}

fn refused(product: &[u8], record: u64, pixel: u64) -> Refusal {
    extinction(product, record, pixel).unwrap_err()
}

/// EXT_MDS of one good record, as changed.
fn changed(change: impl FnOnce(&mut EntryDescription)) -> Vec<u8> {
    let mut entry = extinction_entry(&[record_of(7)]);
    change(&mut entry);
    build(&[entry])
}

/// EXT_MDS without a record, its DSR_SIZE as given.
fn empty_of_size(record_size: i128) -> EntryDescription {
    let mut entry = extinction_entry(&[]);
    entry.record_size = number(record_size);
    entry
}

#[test]
fn a_refused_product_gives_its_own_number() {
    let product = named_product("case-e").unwrap();
    assert_eq!(refused(&product, 9, 9999), refusal(14, 1542, NONE));
    assert_eq!(refused(&[], 0, 0), refusal(1, 0, NONE));
    let mut product = of_record(record_of(7));
    product.pop();
    assert_eq!(refused(&product, 0, 0), refusal(5, 1075, NONE));
}

/// Refusal 22 says neither place nor entry, and comes before 18 and 23.
fn is_not_the_one(product: &[u8]) {
    for (record, pixel) in [(0, 0), (0, 2336), (5, 0), (u64::MAX, u64::MAX)] {
        assert_eq!(refused(product, record, pixel), refusal(22, 0, NONE));
    }
}

#[test]
fn the_type_and_the_name_are_exactly_those() {
    is_not_the_one(&named_product("case-a").unwrap());
    is_not_the_one(&named_product("case-b").unwrap());
    for set_type in *b"AG" {
        is_not_the_one(&changed(|entry| entry.set_type = set_type));
    }
    is_not_the_one(&build(&[EntryDescription::new(b'R', "EXT_MDS", Vec::new())]));
    for name in ["EXT_MDS_", " EXT_MDS", "EXT_MD", "ext_mds", "EXT_MDS EXT_MDS", "EXT_ADS", ""] {
        is_not_the_one(&changed(|entry| entry.name = name.into()));
    }
    let last_byte = format!("{:<27}X", "EXT_MDS");
    is_not_the_one(&changed(|entry| entry.name = last_byte.into()));
}

#[test]
fn the_record_size_is_exactly_that() {
    for size in [RECORD - 1, RECORD + 1] {
        is_not_the_one(&build(&[EntryDescription::records(b'M', "EXT_MDS", 2, size)]));
    }
    // 25,709 is 47 times 547: the set is as long as one record, or as two
    is_not_the_one(&build(&[EntryDescription::records(b'M', "EXT_MDS", 47, 547)]));
    is_not_the_one(&build(&[EntryDescription::records(b'M', "EXT_MDS", 1, 2 * RECORD)]));
    for size in [-1, 0, 25_708, 25_710, 9_999_999_999] {
        is_not_the_one(&build(&[empty_of_size(size)]));
    }
}

#[test]
fn there_is_one_entry_and_no_second() {
    let good = || extinction_entry(&[record_of(7)]);
    is_not_the_one(&build(&[good(), good()]));
    is_not_the_one(&build(&[good(), empty_of_size(25_709)]));
    is_not_the_one(&build(&[empty_of_size(0), good()]));
    is_not_the_one(&build(&[EntryDescription::records(b'M', "EXT_MDS", 1, 5), good()]));
    is_not_the_one(&build(&[good(), EntryDescription::spare(), good(), good()]));
}

/// Entries of another type or name are not counted, wherever they stand and the sets lie.
#[test]
fn the_one_entry_is_found_among_others() {
    let mut description = Description::new(vec![
        EntryDescription::spare(),
        EntryDescription::new(b'R', "EXT_MDS", Vec::new()),
        EntryDescription::records(b'G', "EXT_MDS", 1, 5),
        extinction_entry(&[record_of(1), record_of(2)]),
        EntryDescription::records(b'M', "EXT_MDS_", 1, RECORD),
        EntryDescription::records(b'A', "EXT_MDS", 1, RECORD),
    ]);
    for order in [[2, 3, 4, 5], [5, 4, 3, 2], [4, 2, 5, 3]] {
        description.place_in_order(&order);
        let product = description.build();
        for record in 0..2 {
            let flag = extinction(&product, record, 2335).unwrap().flag;
            assert_eq!(u64::from(flag), record + 1);
        }
        assert_eq!(refused(&product, 2, 0), refusal(18, 0, 3));
        assert_eq!(refused(&product, 0, 2336), refusal(23, 2336, 3));
    }
}

#[test]
fn an_empty_entry_of_the_right_size_has_no_record() {
    let product = build(&[EntryDescription::spare(), empty_of_size(25_709)]);
    for (record, pixel) in [(0, 0), (0, 2336), (1, 0), (u64::MAX, u64::MAX)] {
        assert_eq!(refused(&product, record, pixel), refusal(18, 0, 1));
    }
}

/// Each after the one before: a record that is not there, a pixel that is not there, a quality of -1.
#[test]
fn refusals_after_22_are_in_the_order_18_23_24() {
    let mut empty = record_of(7);
    empty[12] = 0xff;
    let product = of_record(empty);
    for record in [1, 2, 1 << 32, u64::MAX] {
        assert_eq!(refused(&product, record, u64::MAX), refusal(18, 0, 0));
        assert_eq!(refused(&product, record, 0), refusal(18, 0, 0));
    }
    for pixel in [2336, 2337, 9999, 1 << 32, (1 << 32) + 5, 1 << 63, u64::MAX] {
        assert_eq!(refused(&product, 0, pixel), refusal(23, pixel, 0));
    }
    for pixel in [0, 1, 1167, 2335] {
        assert_eq!(refused(&product, 0, pixel), refusal(24, 12, 0));
    }
}

#[test]
fn minus_one_alone_is_refused_of_all_qualities() {
    let mut product = of_record(record_of(7));
    for byte in 0..=255u8 {
        product[1527 + 12] = byte;
        match extinction(&product, 0, 5) {
            Ok(pixel) => assert_eq!((pixel.quality, byte == 255), (byte as i8, false)),
            Err(refused) => assert_eq!((refused, byte), (refusal(24, 12, 0), 255)),
        }
    }
}

/// The quality of one record says nothing of another.
#[test]
fn each_record_has_its_own_quality() {
    let mut empty = record_of(8);
    empty[12] = 0xff;
    let product = build(&[extinction_entry(&[record_of(7), empty, record_of(9)])]);
    assert_eq!(extinction(&product, 0, 0).unwrap().flag, 7);
    assert_eq!(refused(&product, 1, 0), refusal(24, 12, 0));
    assert_eq!(extinction(&product, 2, 2335).unwrap().flag, 9);
}

/// Every value of a pixel set alone in a record of zeros, at the place that document 02 says.
#[test]
fn values_stand_at_the_offsets_of_document_02() {
    for pixel in [0, 1, 1167, 2334, 2335] {
        let mut record = record_of(0);
        let mut put = |place: usize, bytes: &[u8]| {
            record[place..place + bytes.len()].copy_from_slice(bytes);
        };
        put(0, &[0xff, 0xff, 0xff, 0xfe, 0x80, 0, 0, 1, 0xff, 0, 0, 2]);
        put(12, &[5]);
        put(13 + 4 * pixel, &[0x3f, 0x01, 0x02, 0x03]);
        put(9357 + 4 * pixel, &[0x40, 0x05, 0x06, 0x07]);
        put(18_701 + 2 * pixel, &[0x80, 0x09]);
        put(23_373 + pixel, &[0xfe]);
        let time = Time { days: -2, seconds: 0x8000_0001, microseconds: 0xff00_0002 };
        let expected = Pixel {
            time,
            quality: 5,
            transmission_bits: 0x3f01_0203,
            covariance_bits: 0x4005_0607,
            model_code: 0x8009,
            model: 65_554.0 / 65_535.0,
            flag: 0xfe,
        };
        let product = of_record(record);
        assert_eq!(extinction(&product, 0, pixel as u64), Ok(expected), "{pixel}");
        for other in (0..PIXELS).filter(|&other| other != pixel) {
            let zeros = Pixel {
                transmission_bits: 0,
                covariance_bits: 0,
                model_code: 0,
                model: 0.0,
                flag: 0,
                ..expected
            };
            assert_eq!(extinction(&product, 0, other as u64), Ok(zeros), "{pixel} {other}");
        }
    }
}

#[test]
fn single_floats_keep_their_bits() {
    for bits in [0x7f80_0001u32, 0xffbf_ffff, 0x7fc0_0000, 0x7f80_0000, 0x8000_0000, 1, u32::MAX] {
        let mut record = record_of(0);
        record[13 + 4 * 9..][..4].copy_from_slice(&bits.to_be_bytes());
        record[9357 + 4 * 8..][..4].copy_from_slice(&bits.to_be_bytes());
        let product = of_record(record);
        let [eighth, ninth] = [8, 9].map(|pixel| extinction(&product, 0, pixel).unwrap());
        assert_eq!((ninth.transmission_bits, ninth.covariance_bits), (bits, 0));
        assert_eq!((eighth.transmission_bits, eighth.covariance_bits), (0, bits));
        assert_eq!(ninth.transmission().to_bits(), bits);
        assert_eq!(eighth.covariance().to_bits(), bits);
    }
}

/// The model of a code.
fn model_of(code: u16) -> f64 {
    let mut record = record_of(0);
    record[18_701 + 2 * 77..][..2].copy_from_slice(&code.to_be_bytes());
    extinction(&of_record(record), 0, 77).unwrap().model
}

/// By hand: 2/65535 is 2^-15 (1 + 2^-16 + 2^-32 + 2^-48 + ..), of which 52 bits behind the first are kept.
#[test]
fn a_code_is_twice_itself_over_65535() {
    assert_eq!(model_of(0).to_bits(), 0);
    assert_eq!(model_of(1).to_bits(), 0x3f00_0010_0010_0010);
    assert_eq!(model_of(13_107).to_bits(), 0.4f64.to_bits());
    assert_eq!(model_of(21_845).to_bits(), (2.0f64 / 3.0).to_bits());
    assert_eq!(model_of(32_768).to_bits(), 0x3ff0_0010_0010_0010);
    assert_eq!(model_of(65_535).to_bits(), 2f64.to_bits());
    let printed_step = 3.0518e-5;
    assert_ne!(model_of(65_535), 65_535.0 * printed_step);
}

#[test]
fn the_stored_products_of_order_1_hold_what_they_are_for() {
    let product = named_product("extinction").unwrap();
    let first = extinction(&product, 0, 0).unwrap();
    assert_eq!((first.time.days, first.quality, first.model), (-1, -2, 0.0));
    assert!(first.transmission().is_nan() && first.transmission_bits == 0x7fa1_2345);
    assert_eq!(extinction(&product, 0, 1167).unwrap().model, 2.0);
    assert_eq!(extinction(&product, 0, 2335).unwrap().flag, 255);
    assert_eq!(record_part(&product, 1, 1)[12], 0xff);
    for name in ["extinction-twice", "extinction-other-size"] {
        is_not_the_one(&named_product(name).unwrap());
    }
}

/// The wavelength in nanometres, and what the record says, of every pixel of the sample.
fn spectrum() -> Vec<(f64, Pixel)> {
    let product = named_product("GOM_EXT_2P").unwrap();
    let wavelengths = record_part(&product, 1, 0)[..4 * PIXELS].chunks_exact(4);
    let nanometres = wavelengths
        .map(|bytes| f64::from(u32::from_be_bytes([bytes[0], bytes[1], bytes[2], bytes[3]])) / 1e6);
    let pixels = (0..).map(|pixel| extinction(&product, 0, pixel).unwrap());
    nanometres.zip(pixels).collect()
}

/// The mean model from a wavelength to another.
fn mean_model(spectrum: &[(f64, Pixel)], from: f64, to: f64) -> f64 {
    let within = spectrum.iter().filter(|(nanometres, _)| *nanometres >= from && *nanometres < to);
    let (sum, count) = within.fold((0.0, 0.0), |(sum, count), at| (sum + at.1.model, count + 1.0));
    sum / count
}

#[test]
fn the_sample_looks_like_an_atmosphere() {
    let spectrum = spectrum();
    assert!(spectrum.is_sorted_by(|one, next| one.0 < next.0));
    assert!(spectrum[0].0 > 248.0 && spectrum[2335].0 < 956.0);
    for (from, to, least, most) in [
        (248.0, 310.0, 0.0, 0.001), // Hartley band
        (325.0, 335.0, 0.05, 0.2),  // Huggins bands
        (470.0, 490.0, 0.65, 0.75), // before the Chappuis bands
        (595.0, 610.0, 0.35, 0.45), // in them
        (680.0, 693.0, 0.75, 0.85), // behind them
        (750.0, 758.0, 0.88, 0.93), // before the oxygen A band
        (760.0, 761.5, 0.45, 0.7),  // in it
        (770.0, 776.0, 0.88, 0.93), // behind it
        (930.0, 942.0, 0.85, 0.93), // water vapour
        (950.0, 956.0, 0.93, 0.97), // behind it
    ] {
        let mean = mean_model(&spectrum, from, to);
        assert!(mean >= least && mean <= most, "{from} to {to} nm: {mean}");
    }
}

#[test]
fn the_noise_of_the_sample_has_the_variance_it_says() {
    let spectrum = spectrum();
    let squares = spectrum.iter().filter(|at| at.1.flag != 1).map(|(nanometres, pixel)| {
        let away = f64::from(pixel.transmission()) - pixel.model;
        let square = away * away / f64::from(pixel.covariance());
        assert!(square < 30.0, "{nanometres} nm: {pixel:?}");
        square
    });
    let squares: Vec<f64> = squares.collect();
    let mean = squares.iter().sum::<f64>() / squares.len() as f64;
    assert!(mean > 0.9 && mean < 1.1, "{mean}");
    let flagged = |flag: u8| spectrum.iter().filter(|at| at.1.flag == flag).count();
    assert_eq!([flagged(0), flagged(1), flagged(2)], [2299, 12, 25]);
}
