//! Fields and points of a record: rules 19 to 21.

use crate::refusal::Refusal;

/// A time: days from 1 January 2000, seconds and microseconds, not range-checked.
#[derive(Clone, Copy, Debug, PartialEq, Eq, Hash)]
pub struct Time {
    pub days: i32,
    pub seconds: u32,
    pub microseconds: u32,
}

/// A field answer: a whole number, a single float, a double float or a time.
#[derive(Clone, Copy, Debug)]
pub enum FieldAnswer {
    Whole(i64),
    Single(f32),
    Double(f64),
    Time(Time),
}

impl FieldAnswer {
    /// Whether two answers are the same, floats by their bits.
    pub fn is_same(&self, other: &FieldAnswer) -> bool {
        match (self, other) {
            (FieldAnswer::Whole(one), FieldAnswer::Whole(two)) => one == two,
            (FieldAnswer::Single(one), FieldAnswer::Single(two)) => one.to_bits() == two.to_bits(),
            (FieldAnswer::Double(one), FieldAnswer::Double(two)) => one.to_bits() == two.to_bits(),
            (FieldAnswer::Time(one), FieldAnswer::Time(two)) => one == two,
            _ => false,
        }
    }
}

/// A point: latitude and longitude in degrees, altitude in metres.
#[derive(Clone, Copy, Debug, PartialEq)]
pub struct Point {
    pub latitude: f64,
    pub longitude: f64,
    pub altitude: f64,
}

const LATITUDE_LIMIT: u32 = 90_000_000;
const LONGITUDE_LIMIT: u32 = 180_000_000;

/// The bytes of a record from an offset on, or rule 20.
fn bytes_at<const WIDTH: usize>(
    record: &[u8],
    entry: usize,
    offset: u64,
) -> Result<[u8; WIDTH], Refusal> {
    let past = Refusal::of_entry(20, offset, entry);
    let start = usize::try_from(offset).map_err(|_| past)?;
    let from = record.get(start..).ok_or(past)?;
    from.first_chunk::<WIDTH>().copied().ok_or(past)
}

/// The field of a kind at an offset of a record: rules 19 and 20.
pub(crate) fn field_in(
    record: &[u8],
    entry: usize,
    offset: u64,
    kind: u64,
) -> Result<FieldAnswer, Refusal> {
    use FieldAnswer::{Double, Single, Whole};
    Ok(match kind {
        1 => Whole(i8::from_be_bytes(bytes_at(record, entry, offset)?).into()),
        2 => Whole(u8::from_be_bytes(bytes_at(record, entry, offset)?).into()),
        3 => Whole(i16::from_be_bytes(bytes_at(record, entry, offset)?).into()),
        4 => Whole(u16::from_be_bytes(bytes_at(record, entry, offset)?).into()),
        5 => Whole(i32::from_be_bytes(bytes_at(record, entry, offset)?).into()),
        6 => Whole(u32::from_be_bytes(bytes_at(record, entry, offset)?).into()),
        7 => Single(f32::from_be_bytes(bytes_at(record, entry, offset)?)),
        8 => Double(f64::from_be_bytes(bytes_at(record, entry, offset)?)),
        9 => FieldAnswer::Time(time_in(bytes_at(record, entry, offset)?)),
        _ => return Err(Refusal::of_entry(19, 0, entry)),
    })
}

pub(crate) fn time_in(bytes: [u8; 12]) -> Time {
    let [a, b, c, d, e, f, g, h, i, j, k, l] = bytes;
    Time {
        days: i32::from_be_bytes([a, b, c, d]),
        seconds: u32::from_be_bytes([e, f, g, h]),
        microseconds: u32::from_be_bytes([i, j, k, l]),
    }
}

/// The point at three offsets of a record: rule 20 for each in order, then rule 21.
pub(crate) fn point_in(
    record: &[u8],
    entry: usize,
    latitude_offset: u64,
    longitude_offset: u64,
    altitude_offset: u64,
) -> Result<Point, Refusal> {
    let latitude = i32::from_be_bytes(bytes_at(record, entry, latitude_offset)?);
    let longitude = i32::from_be_bytes(bytes_at(record, entry, longitude_offset)?);
    let altitude = u32::from_be_bytes(bytes_at(record, entry, altitude_offset)?);
    if latitude.unsigned_abs() > LATITUDE_LIMIT {
        return Err(Refusal::of_entry(21, latitude_offset, entry));
    }
    if longitude.unsigned_abs() > LONGITUDE_LIMIT {
        return Err(Refusal::of_entry(21, longitude_offset, entry));
    }
    Ok(Point {
        latitude: f64::from(latitude) / 1_000_000.0,
        longitude: f64::from(longitude) / 1_000_000.0,
        altitude: f64::from(altitude) / 100.0,
    })
}
