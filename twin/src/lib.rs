//! A reader of Envisat products by document 01 and the orders of document 02: it checks a product,
//! lists it, answers its header values, hands out SPH lines, records, fields and points, and the pixels
//! of a residual extinction product. Every call on a product judges it first. Times and their texts
//! stand by themselves.

pub mod builder;
mod descriptors;
mod directory;
mod extinction;
mod fields;
mod judged;
mod layout;
mod listing;
mod main_header;
pub mod output;
mod refusal;
mod sets;
pub mod settings;
mod sph_lines;
mod states;
mod text;
mod times;
pub mod vectors;
pub mod words;

pub use descriptors::ENTRIES;
pub use directory::Directory;
pub use extinction::{Pixel, PIXELS};
pub use fields::{FieldAnswer, Point, Time};
pub use listing::{listing, LONGEST_LISTED};
pub use main_header::HeaderValues;
pub use refusal::{Refusal, Verdict, NO_ENTRY};
pub use sets::NO_RANK;
pub use times::{text_of_time, time_of_text, TIME_TEXT};

use judged::Judged;
use layout::MAIN_HEADER_SIZE;

/// The place and length of a part of the product.
#[derive(Clone, Copy, Debug, PartialEq, Eq, Hash)]
pub struct Part {
    pub place: u64,
    pub length: u64,
}

impl Part {
    /// The bytes of the product that the part stands for.
    fn of(self, product: &[u8]) -> &[u8] {
        &product[self.place as usize..(self.place + self.length) as usize]
    }
}

/// Rules 1 to 16.
pub fn judge(product: &[u8]) -> Verdict {
    Judged::of(product).map_or_else(Verdict::from, |_| Verdict::Accepted)
}

/// The directory of an accepted product.
pub fn directory(product: &[u8]) -> Result<Directory, Refusal> {
    let judged = Judged::of(product)?;
    Ok(Directory::read(&judged))
}

/// The thirty-four values of the main header of an accepted product.
pub fn header_values(product: &[u8]) -> Result<HeaderValues, Refusal> {
    Judged::of(product).map(|judged| HeaderValues::read(judged.product))
}

/// Where the SPH lines stand: all bytes of the SPH before the DSDs.
pub fn sph_place(product: &[u8]) -> Result<Part, Refusal> {
    let judged = Judged::of(product)?;
    let length = (judged.lines_end - MAIN_HEADER_SIZE) as u64;
    Ok(Part { place: MAIN_HEADER_SIZE as u64, length })
}

/// The SPH lines, or the empty part.
pub fn sph_part(product: &[u8]) -> &[u8] {
    sph_place(product).map_or(&[], |part| part.of(product))
}

/// Where a record stands: rules 17 and 18 after the product's own.
pub fn record_place(product: &[u8], entry: usize, record: u64) -> Result<Part, Refusal> {
    let (place, length) = Judged::of(product)?.record(entry, record)?;
    Ok(Part { place, length })
}

/// A record, or the empty part.
pub fn record_part(product: &[u8], entry: usize, record: u64) -> &[u8] {
    record_place(product, entry, record).map_or(&[], |part| part.of(product))
}

/// A field of a record: rules 19 and 20 after those of its record.
pub fn field(
    product: &[u8],
    entry: usize,
    record: u64,
    offset: u64,
    kind: u64,
) -> Result<FieldAnswer, Refusal> {
    let part = record_place(product, entry, record)?;
    fields::field_in(part.of(product), entry, offset, kind)
}

/// A point of a record: rules 20 and 21 after those of its record.
pub fn point(
    product: &[u8],
    entry: usize,
    record: u64,
    latitude_offset: u64,
    longitude_offset: u64,
    altitude_offset: u64,
) -> Result<Point, Refusal> {
    let part = record_place(product, entry, record)?;
    let offsets = (latitude_offset, longitude_offset, altitude_offset);
    fields::point_in(part.of(product), entry, offsets.0, offsets.1, offsets.2)
}

/// A pixel of a record of the residual extinction product: refusals 22, 18, 23 and 24 after the product's own.
pub fn extinction(product: &[u8], record: u64, pixel: u64) -> Result<Pixel, Refusal> {
    let judged = Judged::of(product)?;
    extinction::pixel_of(&judged, record, pixel)
}
