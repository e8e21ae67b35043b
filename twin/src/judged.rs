//! A judged product: rules 1 to 16 in order, and what the other calls need of a product they hold for.

use crate::descriptors::{check_descriptors, Entry, NAME_LENGTH};
use crate::layout::MAIN_HEADER_SIZE;
use crate::main_header::check_main_header;
use crate::refusal::Refusal;
use crate::sets::check_sets;
use crate::sph_lines::check_sph_lines;
use crate::states::{check_states, variable_record, Listed};

/// The longest product.
const LONGEST_PRODUCT: usize = 2_147_483_647;

/// A product that rules 1 to 16 hold for.
pub(crate) struct Judged<'a> {
    pub product: &'a [u8],
    pub lines_end: usize,
    headers_end: usize,
    entries: Vec<Entry>,
    states: usize,
}

impl<'a> Judged<'a> {
    /// Looks at rules 1 to 16; the bytes read are the headers and the states, none of the rest.
    #[inline]
    pub fn of(product: &'a [u8]) -> Result<Judged<'a>, Refusal> {
        let header = main_header_of(product)?;
        let sizes = check_main_header(header, product.len())?;
        check_sph_lines(product, sizes.lines_end)?;
        let entries = check_descriptors(product, &sizes)?;
        check_sets(&entries, sizes.headers_end, product.len())?;
        let (lines_end, headers_end) = (sizes.lines_end, sizes.headers_end);
        let descriptors = &product[lines_end..headers_end];
        let states = check_states(Listed { product, descriptors, entries: &entries })?;
        Ok(Judged { product, lines_end, headers_end, entries, states })
    }

    pub fn entries(&self) -> &[Entry] {
        &self.entries
    }

    /// The DSD of an entry.
    pub fn descriptor(&self, entry: usize) -> &[u8] {
        self.listed().descriptor(entry)
    }

    /// The entry of a type and name, where there is exactly one.
    pub fn only_entry(&self, set_type: u8, name: &[u8; NAME_LENGTH]) -> Option<usize> {
        self.listed().only_entry(set_type, name)
    }

    fn listed(&self) -> Listed<'_> {
        let descriptors = &self.product[self.lines_end..self.headers_end];
        Listed { product: self.product, descriptors, entries: &self.entries }
    }

    /// The place and length of a record: rules 17 and 18.
    pub fn record(&self, entry: usize, record: u64) -> Result<(u64, u64), Refusal> {
        let values = self.entries().get(entry).ok_or(Refusal::without_entry(17, 0))?;
        if record >= values.count as u64 {
            return Err(Refusal::of_entry(18, 0, entry));
        }
        if !values.is_variable() {
            let length = values.record_size as u64;
            return Ok((values.offset as u64 + record * length, length));
        }
        let found = variable_record(self.listed(), self.states, entry, record);
        found.ok_or(Refusal::of_entry(18, 0, entry))
    }
}

/// The main header of a product neither too short nor too long: rules 1 and 2.
fn main_header_of(product: &[u8]) -> Result<&[u8; MAIN_HEADER_SIZE], Refusal> {
    let short = Refusal::without_entry(1, product.len() as u64);
    let header = product.first_chunk().ok_or(short)?;
    if product.len() > LONGEST_PRODUCT {
        return Err(Refusal::without_entry(2, 0));
    }
    Ok(header)
}
