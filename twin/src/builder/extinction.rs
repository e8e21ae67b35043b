//! Residual extinction products: records of EXT_MDS by what they say of each pixel (source 001, table 10.5-13), and
//! the named products of document 02, order 1.

use super::description::{Description, EntryDescription, Number};

/// Bytes of a record of EXT_MDS.
pub const EXTINCTION_RECORD: usize = 25_709;
/// The pixels of a record.
pub const EXTINCTION_PIXELS: usize = 2336;

/// What a record says of a pixel, the single floats by their bits.
#[derive(Clone, Copy, Debug, Default, PartialEq, Eq)]
pub struct PixelDescription {
    pub transmission_bits: u32,
    pub covariance_bits: u32,
    pub model_code: u16,
    pub flag: u8,
}

impl PixelDescription {
    /// Writes what is said of a pixel into a record of EXT_MDS.
    pub fn write(&self, record: &mut [u8], pixel: usize) {
        let mut put = |place: usize, bytes: &[u8]| {
            record[place..place + bytes.len()].copy_from_slice(bytes);
        };
        put(13 + 4 * pixel, &self.transmission_bits.to_be_bytes());
        put(9357 + 4 * pixel, &self.covariance_bits.to_be_bytes());
        put(18_701 + 2 * pixel, &self.model_code.to_be_bytes());
        put(23_373 + pixel, &[self.flag]);
    }
}

/// A time as it stands in a record: days, seconds and microseconds.
pub fn time_bytes(days: i32, seconds: u32, microseconds: u32) -> [u8; 12] {
    let mut bytes = [0; 12];
    bytes[..4].copy_from_slice(&days.to_be_bytes());
    bytes[4..8].copy_from_slice(&seconds.to_be_bytes());
    bytes[8..].copy_from_slice(&microseconds.to_be_bytes());
    bytes
}

/// A record of EXT_MDS, with what is said of each pixel.
pub fn extinction_record(
    time: [u8; 12],
    quality: i8,
    mut pixel: impl FnMut(usize) -> PixelDescription,
) -> Vec<u8> {
    let mut record = vec![0; EXTINCTION_RECORD];
    record[..12].copy_from_slice(&time);
    record[12] = quality as u8;
    for index in 0..EXTINCTION_PIXELS {
        pixel(index).write(&mut record, index);
    }
    record
}

/// The entry EXT_MDS with these records; its DSR_SIZE is right without a record too.
pub fn extinction_entry(records: &[Vec<u8>]) -> EntryDescription {
    let mut entry = EntryDescription::records(b'M', "EXT_MDS", 0, EXTINCTION_RECORD);
    entry.count = Some(Number::from(records.len() as i128));
    entry.data = records.concat();
    entry
}

/// What the first record of the product `extinction` says: bits that change where a float is rounded or a NaN
/// quieted, the edges of the codes, and a pattern elsewhere.
fn told_pixel(pixel: usize) -> PixelDescription {
    let number = pixel as u32;
    let (transmission_bits, covariance_bits, model_code, flag) = match pixel {
        0 => (0x7fa1_2345, 0xffc0_0001, 0, 4),
        1167 => (0x3f80_0000, 0x0000_0001, 65_535, 1),
        2335 => (0x8000_0000, 0x7f80_0000, 32_768, 255),
        _ => (0x3f00_0000 + 977 * number, 0x3a00_0000 + 31 * number, pixel as u16 * 28, 0),
    };
    PixelDescription { transmission_bits, covariance_bits, model_code, flag }
}

/// Two records behind an entry of another type and before one of another name: the first of quality -2, which is
/// answered, on the day before 2000; the second of quality -1.
pub(super) fn told() -> Vec<u8> {
    let time = time_bytes(-1, 86_399, 999_999);
    let records = [(-2, told_pixel as fn(usize) -> _), (-1, |_| PixelDescription::default())];
    let records = records.map(|(quality, pixel)| extinction_record(time, quality, pixel));
    Description::new(vec![
        EntryDescription::records(b'A', "EXT_MDS", 1, 5),
        extinction_entry(&records),
        EntryDescription::records(b'M', "EXT_MDS_", 0, EXTINCTION_RECORD),
    ])
    .build()
}

/// Two entries of the type and name, both empty.
pub(super) fn twice() -> Vec<u8> {
    Description::new(vec![extinction_entry(&[]), extinction_entry(&[])]).build()
}

/// One entry, empty, of the right record size, behind a spare.
pub(super) fn empty() -> Vec<u8> {
    Description::new(vec![EntryDescription::spare(), extinction_entry(&[])]).build()
}

/// One entry whose record is a byte too short.
pub(super) fn other_size() -> Vec<u8> {
    let entry = EntryDescription::records(b'M', "EXT_MDS", 1, EXTINCTION_RECORD - 1);
    Description::new(vec![entry]).build()
}
