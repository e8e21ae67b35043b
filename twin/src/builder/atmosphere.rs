//! What a GOMOS residual extinction product tells of a star seen through the atmosphere, 27 km above the ground: the
//! transmission of Rayleigh scattering, aerosol, ozone, nitrogen dioxide and trioxide, oxygen and water vapour, with
//! noise. Only sums, products and quotients are used, so that every machine makes the same bytes.

use std::f64::consts::LN_2;

use super::description::Description;
use super::extinction::{extinction_record, time_bytes, PixelDescription, EXTINCTION_PIXELS};
use super::generator::Generator;

/// From and to which nanometre the four detectors reach, two of spectrometer A and two of B, and their pixels.
const DETECTORS: [(u64, u64, usize); 4] =
    [(248, 387, 450), (387, 693, 966), (750, 776, 420), (915, 956, 500)];
/// The first pixel of spectrometer B.
const FIRST_OF_B: usize = 450 + 966;

/// SENSING_START of the catalogue's products, 27 June 2007 at ten: days, seconds, microseconds.
const START: (i32, u32, u32) = (2734, 36_000, 0);

/// The wavelengths, in nanometres, that the level 2 processing uses of spectrometer A: not its outermost pixels, nor
/// those where its two detectors meet.
const PROCESSED: [(f64, f64); 2] = [(250.0, 385.5), (388.5, 690.0)];
/// The lowest transmission that spectrometer B takes.
const LOWEST_OF_B: f64 = 0.1;

/// The logarithm of the optical depth of ozone in its ultraviolet bands (Hartley's up to 310 nm, Huggins' behind), by
/// nanometres; straight between them.
const OZONE: [(f64, f64); 13] = [
    (240.0, 7.13),
    (255.0, 7.45),
    (270.0, 7.09),
    (280.0, 6.40),
    (290.0, 5.35),
    (300.0, 4.07),
    (310.0, 2.71),
    (320.0, 1.47),
    (330.0, -0.03),
    (340.0, -1.56),
    (350.0, -3.10),
    (360.0, -4.71),
    (400.0, -11.0),
];

/// Broad bands: optical depth in their middle, the middle, and the width (standard deviation), both in nanometres.
/// Ozone's Chappuis bands; nitrogen dioxide; nitrogen trioxide at 623 and 662 nm.
const BANDS: [(f64, f64, f64); 7] = [
    (0.62, 590.0, 48.0),
    (0.08, 620.0, 90.0),
    (0.09, 575.0, 9.0),
    (0.13, 603.0, 10.0),
    (0.05, 405.0, 45.0),
    (0.02, 623.0, 3.5),
    (0.04, 662.0, 2.2),
];

/// A line of a gas: its wavelength in nanometres, its optical depth there, and its half width.
struct Line {
    nanometres: f64,
    depth: f64,
    half_width: f64,
}

/// The natural exponential: 2 to a whole number, times the first terms of the series of what is left. No more than
/// 1000 doublings: of an optical depth beyond, nothing comes through either way.
fn exponential(exponent: f64) -> f64 {
    if exponent < 0.0 {
        return 1.0 / exponential(-exponent);
    }
    let doublings = (exponent / LN_2) as u32;
    let left = exponent - f64::from(doublings) * LN_2;
    let series = (1..=20).rev().fold(1.0, |sum, term| 1.0 + sum * left / f64::from(term));
    (0..doublings.min(1000)).fold(series, |product, _| 2.0 * product)
}

/// A bell of height 1.
fn bell(nanometres: f64, middle: f64, width: f64) -> f64 {
    let distance = (nanometres - middle) / width;
    exponential(-distance * distance / 2.0)
}

/// A smooth wave from 0 to 1 and back in so many nanometres.
fn wave(nanometres: f64, period: f64) -> f64 {
    let turns = nanometres / period;
    let part = turns - f64::from(turns as u32);
    let arch = 4.0 * part * (1.0 - part);
    arch * arch * (3.0 - 2.0 * arch)
}

/// The optical depth of ozone in the ultraviolet, the Huggins bands as waves.
fn ozone(nanometres: f64) -> f64 {
    let piece = OZONE.windows(2).find(|piece| nanometres < piece[1].0);
    let Some(&[(from, lower), (to, upper)]) = piece else { return 0.0 };
    let logarithm = lower + (upper - lower) * (nanometres - from) / (to - from);
    exponential(logarithm) * (0.75 + 0.5 * wave(nanometres, 3.7))
}

/// The oxygen A band: the lines of odd J, below and above the band's origin at 13,120.9 per centimetre.
fn oxygen_lines() -> Vec<Line> {
    let mut lines = Vec::new();
    for j in (1..=35).step_by(2).map(f64::from) {
        let occupied = exponential(-0.00928 * j * (j + 1.0));
        for (step, strength) in [(-j, j), (j + 1.0, j + 1.0)] {
            let wavenumber = 13_120.9 + 2.829 * step - 0.0483 * step * step;
            let nanometres = 1e7 / wavenumber / 1.00027;
            lines.push(Line { nanometres, depth: 0.13 * strength * occupied, half_width: 0.07 });
        }
    }
    lines
}

/// Lines of water vapour around 936 nm, where they happen to fall.
fn water_lines(generator: &mut Generator) -> Vec<Line> {
    let line = |_| {
        let nanometres = 936.0 + even(generator, 12.0) + even(generator, 9.0);
        let depth = 0.02 + 0.05 * generator.below(1000) as f64 / 1000.0;
        Line { nanometres, depth, half_width: 0.12 }
    };
    (0..70).map(line).collect()
}

/// A number from minus the limit to the limit.
fn even(generator: &mut Generator, limit: f64) -> f64 {
    limit * f64::from(generator.within(1_000_000)) / 1_000_000.0
}

/// Noise of variance 1: twelve even numbers together, each of variance 1/12.
fn noise(generator: &mut Generator) -> f64 {
    (0..12).map(|_| even(generator, 0.5)).fold(0.0, |sum, number| sum + number)
}

/// The transmission of the atmosphere.
fn transmission(nanometres: f64, lines: &[Line]) -> f64 {
    let ratio = 550.0 / nanometres;
    let rayleigh = 0.14 * ratio * ratio * ratio * ratio;
    let aerosol = 0.04 * ratio;
    let bands = BANDS.iter().map(|&(depth, middle, width)| depth * bell(nanometres, middle, width));
    let of_line = |line: &Line| {
        let distance = (nanometres - line.nanometres) / line.half_width;
        line.depth / (1.0 + distance * distance)
    };
    let depths = bands.chain(lines.iter().map(of_line));
    exponential(-depths.fold(rayleigh + aerosol + ozone(nanometres), |sum, depth| sum + depth))
}

/// The standard deviation of the noise: more to the ultraviolet, where the star gives less light, and in
/// spectrometer B, which spreads it more; less where little light comes through.
fn deviation(nanometres: f64, transmission: f64) -> f64 {
    let faint = (387.0 - nanometres).max(0.0) / 139.0;
    let dispersed = if nanometres > 700.0 { 0.006 } else { 0.0 };
    (0.004 + dispersed + 0.02 * faint * faint) * (0.4 + 0.6 * transmission)
}

/// The flag, by table 10.5-13, of a pixel that level 1b has not flagged: 2 where spectrometer A is not processed, or
/// where B's transmission is too low; otherwise 0.
fn flag(pixel: usize, nanometres: f64, transmission: f64) -> u8 {
    let is_processed = |&(from, to): &(f64, f64)| nanometres >= from && nanometres <= to;
    let is_valid = if pixel < FIRST_OF_B {
        PROCESSED.iter().any(is_processed)
    } else {
        transmission >= LOWEST_OF_B
    };
    if is_valid {
        0
    } else {
        2
    }
}

/// What is measured at a pixel; one in 150 is hit by a particle, which level 1b flags.
fn measured(pixel: usize, nanometres: f64, lines: &[Line], chance: &mut Generator) -> PixelDescription {
    let model = transmission(nanometres, lines);
    let deviation = deviation(nanometres, model);
    let (noise, spike) = (deviation * noise(chance), chance.once_in(150));
    let height = if spike { 0.3 + even(chance, 0.15) } else { 0.0 };
    let measured = model + noise + height;
    PixelDescription {
        transmission_bits: (measured as f32).to_bits(),
        covariance_bits: ((deviation * deviation) as f32).to_bits(),
        model_code: (model * 65_535.0 / 2.0 + 0.5) as u16,
        flag: if spike { 1 } else { flag(pixel, nanometres, measured) },
    }
}

/// The wavelengths of the pixels, ascending, in 10^-6 nm.
fn wavelengths() -> Vec<u32> {
    let of_detector = |&(from, to, pixels): &(u64, u64, usize)| {
        let middle = move |pixel| 500_000 * (to - from) * (2 * pixel + 1) / pixels as u64;
        (0..pixels as u64).map(move |pixel| (1_000_000 * from + middle(pixel)) as u32)
    };
    DETECTORS.iter().flat_map(of_detector).collect()
}

/// The record of EXT_MDS.
fn measurement(wavelengths: &[u32]) -> Vec<u8> {
    let mut chance = Generator::new(27);
    let mut lines = oxygen_lines();
    lines.extend(water_lines(&mut chance));
    let (days, seconds, microseconds) = START;
    extinction_record(time_bytes(days, seconds, microseconds), 0, |pixel| {
        let nanometres = f64::from(wavelengths[pixel]) / 1e6;
        measured(pixel, nanometres, &lines, &mut chance)
    })
}

/// The record of EXT_ADS (table 10.5-14). The tangent point lies where the SPH lines have it halfway, the spacecraft
/// where its line of sight touches 27 km there; pressure, temperature and density are a standard atmosphere's.
fn geolocation() -> Vec<u8> {
    let (days, seconds, microseconds) = START;
    let mut record = time_bytes(days, seconds, microseconds).to_vec();
    record.push(0); // the record of EXT_MDS is attached
    let spacecraft = [19_100_000, -17_000_000, 79_000_000];
    let tangent_point = [45_500_000, -12_250_000, 2_700_000];
    let errors = [4500, 6400, 30_000];
    let numbers = [spacecraft, tangent_point, errors].concat();
    record.extend(numbers.iter().flat_map(|number: &i32| number.to_be_bytes()));
    for float in [1880.0f32, 223.5, 6.09e17] {
        record.extend(float.to_be_bytes());
    }
    let correction = |pixel: usize| if pixel < FIRST_OF_B { 8u16 } else { 3 };
    record.extend((0..EXTINCTION_PIXELS).flat_map(|pixel| correction(pixel).to_be_bytes()));
    record
}

/// Puts the wavelengths, the measurement and its geolocation into a GOM_EXT_2P.
pub(super) fn observe_star(description: &mut Description) {
    let wavelengths = wavelengths();
    for entry in &mut description.entries {
        entry.data = match entry.name.as_slice() {
            b"EXT_NOM_WAV_ASSIGNMENT" => {
                let numbers = wavelengths.iter().flat_map(|wavelength| wavelength.to_be_bytes());
                numbers.chain([0; 64]).collect()
            }
            b"EXT_MDS" => measurement(&wavelengths),
            b"EXT_ADS" => geolocation(),
            _ => continue,
        };
    }
}
