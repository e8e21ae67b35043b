//! The GOMOS residual extinction product: one pixel of one record of EXT_MDS (source 001, table 10.5-13), refusals
//! 22 to 24 of document 02, order 1.

use crate::descriptors::{padded, NAME_LENGTH};
use crate::fields::{time_in, Time};
use crate::judged::Judged;
use crate::refusal::Refusal;

/// The pixels of a spectrum: both spectrometers' together.
pub const PIXELS: usize = 2336;
/// Bytes of a record of EXT_MDS.
pub(crate) const RECORD_SIZE: usize = 25_709;

const EXT_MDS: [u8; NAME_LENGTH] = padded("EXT_MDS");
const QUALITY: usize = 12;
const TRANSMISSIONS: usize = 13;
const COVARIANCES: usize = 9357;
const MODEL_CODES: usize = 18_701;
const FLAGS: usize = 23_373;
/// The quality of a record that is empty.
const EMPTY: i8 = -1;
/// The code that means a model transmission of 2.
const LARGEST_CODE: f64 = 65_535.0;

/// What a record says of one pixel. The single floats are kept as their bits, NaNs with what they carry.
#[derive(Clone, Copy, Debug, PartialEq)]
pub struct Pixel {
    pub time: Time,
    pub quality: i8,
    pub transmission_bits: u32,
    pub covariance_bits: u32,
    pub model_code: u16,
    /// The transmission that the model code means.
    pub model: f64,
    pub flag: u8,
}

impl Pixel {
    pub fn transmission(&self) -> f32 {
        f32::from_bits(self.transmission_bits)
    }

    pub fn covariance(&self) -> f32 {
        f32::from_bits(self.covariance_bits)
    }
}

/// The pixel of a record: refusal 22, then 18, 23 and 24.
pub(crate) fn pixel_of(judged: &Judged, record: u64, pixel: u64) -> Result<Pixel, Refusal> {
    let entry = residual_extinction(judged).ok_or(Refusal::without_entry(22, 0))?;
    let (place, _) = judged.record(entry, record)?;
    let index = usize::try_from(pixel).ok().filter(|&index| index < PIXELS);
    let index = index.ok_or(Refusal::of_entry(23, pixel, entry))?;
    let record = &judged.product[place as usize..place as usize + RECORD_SIZE];
    if record[QUALITY] as i8 == EMPTY {
        return Err(Refusal::of_entry(24, QUALITY as u64, entry));
    }
    Ok(read_pixel(record, index))
}

/// The one entry of type M named EXT_MDS, whose record size is right even where it is empty.
fn residual_extinction(judged: &Judged) -> Option<usize> {
    let entry = judged.only_entry(b'M', &EXT_MDS)?;
    (judged.entries()[entry].record_size == RECORD_SIZE as i64).then_some(entry)
}

fn read_pixel(record: &[u8], pixel: usize) -> Pixel {
    let model_code = u16::from_be_bytes(bytes_at(record, MODEL_CODES + 2 * pixel));
    Pixel {
        time: time_in(bytes_at(record, 0)),
        quality: record[QUALITY] as i8,
        transmission_bits: u32::from_be_bytes(bytes_at(record, TRANSMISSIONS + 4 * pixel)),
        covariance_bits: u32::from_be_bytes(bytes_at(record, COVARIANCES + 4 * pixel)),
        model_code,
        model: model_transmission(model_code),
        flag: record[FLAGS + pixel],
    }
}

/// The bytes of a record from a place on, which lie within it.
fn bytes_at<const WIDTH: usize>(record: &[u8], place: usize) -> [u8; WIDTH] {
    let mut bytes = [0; WIDTH];
    bytes.copy_from_slice(&record[place..place + WIDTH]);
    bytes
}

/// Twice the code over 65535, rounded once. The step that the source prints, 3.0518e-5, would miss 2.
fn model_transmission(code: u16) -> f64 {
    f64::from(2 * u32::from(code)) / LARGEST_CODE
}
