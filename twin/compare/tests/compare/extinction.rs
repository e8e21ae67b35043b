//! Residual extinction (document 02, order 1): pixels of random products, every model code, every quality, and a
//! record whose neighbours in memory cannot be read.

use std::collections::BTreeSet;

use compare::{shared_out, Comparer, Mapping, Met};
use twin::builder::{extinction_entry, extinction_record, time_bytes};
use twin::builder::{Description, Generator, PixelDescription};
use twin::settings::seed;
use twin::words::{Answer, Call};
use twin::PIXELS;

/// Random products, and the pixels asked of each.
const PRODUCTS: u64 = 4000;
const ASKED_OF_EACH: u64 = 60;

/// Where an answer's words have the quality and the bits of the two single floats.
const QUALITY_WORD: usize = 6;
const TRANSMISSION_WORD: usize = 7;
const COVARIANCE_WORD: usize = 8;

/// Records and pixels that are in no product; some are where a reader keeps only 32 bits of them.
const FAR_RECORDS: [usize; 6] = [3, 4, 1 << 32, (1 << 32) + 1, 1 << 63, usize::MAX];
const FAR_PIXELS: [usize; 7] =
    [PIXELS, PIXELS + 1, 1 << 16, 1 << 32, (1 << 32) + 5, 1 << 63, usize::MAX];
/// Pixels at the edges of a record's arrays.
const EDGE_PIXELS: [usize; 5] = [0, 1, 1167, PIXELS - 2, PIXELS - 1];

/// What was met in the pixels that were answered.
#[derive(Clone, Debug, Default)]
struct Answered {
    qualities: BTreeSet<i64>,
    nan_transmissions: u64,
    nan_covariances: u64,
}

impl Answered {
    fn count(&mut self, answer: &Answer) {
        if answer.words[0] == 0 {
            let is_nan = |word: usize| u64::from(f32::from_bits(answer.words[word] as u32).is_nan());
            self.qualities.insert(answer.words[QUALITY_WORD] as i64);
            self.nan_transmissions += is_nan(TRANSMISSION_WORD);
            self.nan_covariances += is_nan(COVARIANCE_WORD);
        }
    }

    fn and(mut self, other: &Answered) -> Answered {
        self.qualities.extend(&other.qualities);
        self.nan_transmissions += other.nan_transmissions;
        self.nan_covariances += other.nan_covariances;
        self
    }
}

/// A pixel of a record: most often one that a product of up to three records has.
fn draw_pixel(choices: &mut Generator) -> Call {
    let record = if choices.once_in(6) { choices.choose(&FAR_RECORDS) } else { choices.index(3) };
    let pixel = match choices.below(6) {
        0 => choices.choose(&FAR_PIXELS),
        1 | 2 => choices.choose(&EDGE_PIXELS),
        _ => choices.index(PIXELS),
    };
    Call::ExtinctionAt { record, pixel }
}

/// Compares one share of the products.
fn compare_share(seed: u64, indices: &mut dyn Iterator<Item = u64>) -> (Met, Answered) {
    let (mut comparer, mut answered) = (Comparer::default(), Answered::default());
    for index in indices {
        let mut generator = Generator::at(seed, index);
        let product = generator.extinction();
        comparer.set_origin(format_args!("twin-make extinction:{seed}:{index}"));
        for _ in 0..ASKED_OF_EACH {
            answered.count(&comparer.compare(&product, draw_pixel(&mut generator)));
        }
    }
    (comparer.met().clone(), answered)
}

/// The floors lie far above none, and well below what is seen in products of any seed.
fn assert_met(met: &Met, answered: &Answered) {
    let asked: u64 = met.answers.iter().sum();
    let seen = format!("of {asked} pixels {met:?}, {answered:?}");
    assert_eq!(asked, PRODUCTS * ASKED_OF_EACH);
    assert!(met.pixels_answered >= asked / 10, "answers: {seen}");
    for (number, share) in [(18, 20), (22, 10), (23, 50), (24, 50)] {
        assert!(met.answers[number] >= asked / share, "refusal {number}: {seen}");
    }
    let own: u64 = met.answers[1..=16].iter().sum();
    assert!(own >= asked / 20, "the product's own refusals: {seen}");
    assert_eq!(answered.qualities, [-128, -2, 0, 5, 127].into(), "qualities: {seen}");
    assert!(answered.nan_transmissions >= asked / 100, "transmissions that are NaN: {seen}");
    assert!(answered.nan_covariances >= asked / 100, "covariances that are NaN: {seen}");
}

#[test]
fn pixels_of_random_products_are_answered_alike() {
    let seed = seed();
    let shares = shared_out(PRODUCTS, |indices| compare_share(seed, indices));
    let (met, answered) = shares.iter().fold(<(Met, Answered)>::default(), |(met, answered), share| {
        (met.and(&share.0), answered.and(&share.1))
    });
    println!("{met:?}, {answered:?}");
    assert_met(&met, &answered);
}

/// A product of these records of EXT_MDS alone.
fn of_records(records: &[Vec<u8>]) -> Vec<u8> {
    Description::new(vec![extinction_entry(records)]).build()
}

/// Document 02: with n the model times 2^67, a whole number, |65535 n - c 2^68| is at most 65535 x 2^14.
fn is_within_bound(code: u16, model_bits: u64) -> bool {
    if model_bits == 0 {
        return code == 0;
    }
    let exponent = (model_bits >> 52) as i32 - 1075 + 67;
    assert!(
        (0..=16).contains(&exponent),
        "the model of {code} times 2^67 is no whole number up to 2^68"
    );
    let n = u128::from((model_bits & ((1 << 52) - 1)) | (1 << 52)) << exponent;
    (65_535 * n).abs_diff(u128::from(code) << 68) <= 65_535 << 14
}

/// 29 records hold all 65,536 codes, the last again and again to their end.
#[test]
fn every_model_code_is_divided_alike() {
    let code_at = |record: usize, pixel: usize| (record * PIXELS + pixel).min(65_535) as u16;
    let record_of = |record: usize| {
        let pixel = |pixel| PixelDescription {
            model_code: code_at(record, pixel),
            ..PixelDescription::default()
        };
        extinction_record(time_bytes(0, 0, 0), 0, pixel)
    };
    let product = of_records(&(0..29).map(record_of).collect::<Vec<_>>());
    let mut comparer = Comparer::of("every model code");
    let mut codes = BTreeSet::new();
    for record in 0..29 {
        for pixel in 0..PIXELS {
            let answer = comparer.compare(&product, Call::ExtinctionAt { record, pixel });
            let code = code_at(record, pixel);
            assert_eq!(answer.words[9], u64::from(code), "record {record} pixel {pixel}");
            assert!(is_within_bound(code, answer.double_bits[0]), "{code}: {:?}", answer.double_bits);
            codes.insert(code);
        }
    }
    assert_eq!(codes.len(), 65_536);
}

#[test]
fn every_quality_but_minus_one_is_answered() {
    let mut product =
        of_records(&[extinction_record(time_bytes(1, 2, 3), 0, |_| PixelDescription::default())]);
    let mut comparer = Comparer::of("a record of any quality");
    for quality in 0..=255 {
        product[1527 + 12] = quality;
        for pixel in [0, PIXELS - 1, PIXELS] {
            let answer = comparer.compare(&product, Call::ExtinctionAt { record: 0, pixel });
            let number = if pixel == PIXELS { 23 } else { 24 * u64::from(quality == 255) };
            assert_eq!(answer.words[0], number, "quality {quality} pixel {pixel}");
        }
    }
}

/// Every pixel of a record that ends with its product, and each of its bytes another one than its neighbours.
#[test]
fn no_byte_outside_a_product_is_read_for_a_pixel() {
    let mut record: Vec<u8> = (0..25_709u32).map(|place| (place * 89 % 251) as u8).collect();
    record[12] = 0;
    let product = of_records(&[record]);
    let mut comparer = Comparer::of("a record that ends with its product");
    for mapping in [Mapping::ending_at_its_end(&product), Mapping::starting_at_its_start(&product)] {
        for pixel in 0..=PIXELS {
            comparer.compare(mapping.bytes(), Call::ExtinctionAt { record: 0, pixel });
        }
    }
    assert_eq!(comparer.met().pixels_answered, 2 * PIXELS as u64);
}
