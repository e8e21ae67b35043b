//! Residual extinction products at random: good ones, ones in which EXT_MDS is not the one entry that order 1 of
//! document 02 wants, and damaged ones.

use super::description::{Description, EntryDescription, Number};
use super::extinction::{extinction_entry, time_bytes, PixelDescription, EXTINCTION_RECORD};
use super::generator::Generator;

/// Names that are not EXT_MDS, but for a byte or for where they stand.
const OTHER_NAMES: [&str; 8] =
    ["EXT_MDS_", " EXT_MDS", "EXT_MD", "EXT_MDS M", "EXT MDS", "ext_mds", "XEXT_MDS", "EXT_ADS"];

/// Qualities on each side of -1, which alone is refused.
const QUALITIES: [i8; 8] = [-1, -1, -2, 0, 0, 5, 127, -128];

/// The bits of single floats that a conversion or an addition would change: signalling and quiet NaNs with what they
/// carry, infinities, zeros and numbers below the smallest normal one.
const SPECIAL_FLOATS: [u32; 12] = [
    0x7f80_0001,
    0xff80_0001,
    0x7fa1_2345,
    0xffbf_ffff,
    0x7fc0_0000,
    0xffc0_0001,
    0x7fff_ffff,
    0xffff_ffff,
    0x7f80_0000,
    0xff80_0000,
    0x8000_0000,
    0x0000_0001,
];

/// Pixels at the edges of a record's four arrays, and one in the middle.
const EDGE_PIXELS: [usize; 5] = [0, 1, 1167, 2334, 2335];

/// The most records of EXT_MDS.
const MOST_RECORDS: usize = 3;

impl Generator {
    /// A product with EXT_MDS among its entries, or with what comes close to it.
    pub fn extinction(&mut self) -> Vec<u8> {
        let damaged = self.once_in(6);
        let missed = !damaged && self.once_in(3);
        let mut description = Description::new(self.extinction_entries(missed));
        description.sph_lines = self.few_lines();
        self.place_sets(&mut description);
        if damaged {
            self.damage_headers(&description)
        } else {
            description.build()
        }
    }

    /// EXT_MDS with up to three records among other entries; where it is missed, not the one entry wanted.
    fn extinction_entries(&mut self, missed: bool) -> Vec<EntryDescription> {
        let count = if self.once_in(6) { 0 } else { 1 + self.index(MOST_RECORDS) };
        let records: Vec<Vec<u8>> = (0..count).map(|_| self.extinction_record()).collect();
        let mut wanted = extinction_entry(&records);
        let second = if missed { self.miss(&mut wanted, count) } else { None };
        let mut entries = if self.once_in(4) { self.variable_entries() } else { Vec::new() };
        entries.extend(second.into_iter().chain([wanted]));
        for _ in 0..self.index(4) {
            entries.push(if self.once_in(3) { self.entry_beside() } else { self.plain_entry() });
        }
        self.shuffle(&mut entries);
        entries
    }

    /// A record of any bytes; special floats at the edges of its arrays and here and there between.
    fn extinction_record(&mut self) -> Vec<u8> {
        let mut record = Vec::with_capacity(EXTINCTION_RECORD + 8);
        while record.len() < EXTINCTION_RECORD {
            record.extend(self.next_number().to_be_bytes());
        }
        record.truncate(EXTINCTION_RECORD);
        let days = self.choose(&[-1, 0, 2734, i32::MIN, i32::MAX]);
        let seconds = self.choose(&[0, 86_399, u32::MAX]);
        record[..12].copy_from_slice(&time_bytes(days, seconds, self.next_number() as u32));
        record[12] = self.choose(&QUALITIES) as u8;
        for pixel in EDGE_PIXELS.into_iter().chain([0; 20].map(|_| self.index(2336))) {
            self.special_pixel().write(&mut record, pixel);
        }
        record
    }

    fn special_pixel(&mut self) -> PixelDescription {
        PixelDescription {
            transmission_bits: self.choose(&SPECIAL_FLOATS),
            covariance_bits: self.choose(&SPECIAL_FLOATS),
            model_code: self.choose(&[0, 1, 32_767, 32_768, 65_534, 65_535]),
            flag: self.choose(&[0, 1, 7, 255]),
        }
    }

    /// An entry that must not be taken for EXT_MDS: of another type, or of another name.
    fn entry_beside(&mut self) -> EntryDescription {
        match self.below(4) {
            0 => self.empty_entry(b'R', "EXT_MDS"),
            1 => EntryDescription::records(self.choose(b"AG"), "EXT_MDS", 1, 13),
            2 => EntryDescription::records(self.choose(b"AG"), "EXT_MDS", 0, EXTINCTION_RECORD),
            _ => EntryDescription::records(b'M', self.choose(&OTHER_NAMES), 0, EXTINCTION_RECORD),
        }
    }

    /// Changes EXT_MDS, which has so many records, or answers a second one, so that it is not the one wanted.
    fn miss(&mut self, entry: &mut EntryDescription, records: usize) -> Option<EntryDescription> {
        match self.below(5) {
            0 => entry.set_type = self.choose(b"AG"),
            1 => entry.name = self.choose(&OTHER_NAMES).into(),
            2 => self.divide_otherwise(entry, records),
            3 => self.resize_records(entry, records),
            _ => {
                let (count, size) = self.choose(&[(0, EXTINCTION_RECORD), (0, 0), (1, 5)]);
                return Some(EntryDescription::records(b'M', "EXT_MDS", count, size));
            }
        }
        None
    }

    /// The same bytes in records of another size; without a byte, another size alone.
    fn divide_otherwise(&mut self, entry: &mut EntryDescription, records: usize) {
        let size = match records {
            0 => self.choose(&[-1, 0, 1, 25_708, 25_710]),
            1 => self.choose(&[1, 47, 547]),
            _ => self.choose(&[1, 47, 547, entry.data.len() as i128]),
        };
        entry.record_size = Some(Number::from(size));
        if records > 0 {
            entry.count = Some(Number::from(entry.data.len() as i128 / size));
        }
    }

    /// As many records that are each a byte too short or too long.
    fn resize_records(&mut self, entry: &mut EntryDescription, records: usize) {
        let size = self.choose(&[EXTINCTION_RECORD - 1, EXTINCTION_RECORD + 1]);
        entry.record_size = Some(Number::from(size as i128));
        entry.data.resize(records * size, 0);
    }

    /// The product with a byte of its headers changed, or cut.
    fn damage_headers(&mut self, description: &Description) -> Vec<u8> {
        let (headers_end, mut product) = (description.headers_end(), description.build());
        match self.below(4) {
            0 => product.truncate(self.index(headers_end)),
            1 => product.truncate(product.len() - 1),
            _ => {
                let place = self.index(headers_end);
                product[place] = product[place].wrapping_add(self.choose(&[1, 128, 255]));
            }
        }
        product
    }
}
