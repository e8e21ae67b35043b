//! The directory of data set descriptors: rules 8 to 11.

use crate::layout::{descriptor_value, DESCRIPTOR_BOUNDS, DESCRIPTOR_SIZE, SPARE_DESCRIPTOR};
use crate::main_header::{HeaderSizes, NUM_DATA_SETS_PLACE};
use crate::refusal::Refusal;
use crate::text::{first_different, first_outside, long, whole};

/// The most entries, held together.
pub const ENTRIES: usize = 128;
/// The type of a spare entry: what stands at the place of its type is a blank.
pub(crate) const SPARE: u8 = b' ';
/// Bytes of a DS_NAME.
pub(crate) const NAME_LENGTH: usize = 28;
/// Bytes of a FILENAME.
pub(crate) const FILENAME_LENGTH: usize = 62;

const DS_NAME: usize = descriptor_value("DS_NAME");
const DS_TYPE: usize = descriptor_value("DS_TYPE");
const FILENAME: usize = descriptor_value("FILENAME");
const DS_OFFSET: usize = descriptor_value("DS_OFFSET");
const DS_SIZE: usize = descriptor_value("DS_SIZE");
const NUM_DSR: usize = descriptor_value("NUM_DSR");
const DSR_SIZE: usize = descriptor_value("DSR_SIZE");

/// A DS_NAME padded with blanks.
pub(crate) const fn padded(name: &str) -> [u8; NAME_LENGTH] {
    let mut bytes = [b' '; NAME_LENGTH];
    let mut index = 0;
    while index < name.len() {
        bytes[index] = name.as_bytes()[index];
        index += 1;
    }
    bytes
}

/// The names of variable sets; the MDS kind of a set is one more than its place here.
const VARIABLE_NAMES: [[u8; NAME_LENGTH]; 4] =
    [padded("NADIR"), padded("LIMB"), padded("OCCULTATION"), padded("MONITORING")];

/// The MDS kind, 1 to 4, that a name stands for.
pub(crate) fn variable_kind(name: &[u8]) -> Option<u8> {
    (1..).zip(&VARIABLE_NAMES).find(|(_, known)| name == *known).map(|(kind, _)| kind)
}

/// The DS_NAME in a DSD.
pub(crate) fn name_in(descriptor: &[u8]) -> &[u8] {
    &descriptor[DS_NAME..DS_NAME + NAME_LENGTH]
}

/// The FILENAME in a DSD.
pub(crate) fn filename_in(descriptor: &[u8]) -> &[u8] {
    &descriptor[FILENAME..FILENAME + FILENAME_LENGTH]
}

/// One entry's type and numbers.
#[derive(Clone, Copy)]
pub(crate) struct Entry {
    pub set_type: u8,
    pub offset: i64,
    pub size: i64,
    pub count: i64,
    pub record_size: i64,
}

impl Entry {
    const NONE: Entry = Entry { set_type: 0, offset: 0, size: 0, count: 0, record_size: 0 };

    /// Whether bytes of the product belong to this entry (rule 10 leaves R and spares none).
    pub fn is_filled(&self) -> bool {
        self.size > 0
    }

    /// Whether the records have unequal lengths, told by the states.
    pub fn is_variable(&self) -> bool {
        self.size > 0 && self.record_size == -1
    }
}

/// Rules 8 to 11; answers the entries of the directory, in order. Rule 11 is as order 4 of document 02 has it:
/// empty sets are not counted.
pub(crate) fn check_descriptors(product: &[u8], sizes: &HeaderSizes) -> Result<Vec<Entry>, Refusal> {
    let (descriptors, _) = product[sizes.lines_end..sizes.headers_end].as_chunks();
    let entries = read_descriptors(descriptors, sizes.lines_end)?;
    let mut sets = 0;
    for (entry, (values, descriptor)) in entries.iter().zip(descriptors).enumerate() {
        if !numbers_hold(values, descriptor) {
            let place = sizes.lines_end + entry * DESCRIPTOR_SIZE;
            return Err(Refusal::of_entry(10, place as u64, entry));
        }
        sets += i64::from(values.is_filled());
    }
    if sizes.data_sets != sets {
        return Err(Refusal::without_entry(11, NUM_DATA_SETS_PLACE));
    }
    Ok(entries)
}

/// Rules 8 and 9 in one pass: a rule 9 refusal waits until rule 8 holds for every entry.
fn read_descriptors(
    descriptors: &[[u8; DESCRIPTOR_SIZE]],
    start: usize,
) -> Result<Vec<Entry>, Refusal> {
    let mut entries = vec![Entry::NONE; descriptors.len()];
    let mut too_large = None;
    for (entry, (values, descriptor)) in entries.iter_mut().zip(descriptors).enumerate() {
        let place = start + entry * DESCRIPTOR_SIZE;
        if let Some(fault) = first_fault_in_descriptor(descriptor) {
            return Err(Refusal::of_entry(8, (place + fault) as u64, entry));
        }
        match read_entry(descriptor) {
            Ok(read) => *values = read,
            Err(sign) if too_large.is_none() => {
                too_large = Some(Refusal::of_entry(9, (place + sign) as u64, entry));
            }
            Err(_) => {}
        }
    }
    too_large.map_or(Ok(entries), Err)
}

/// The first byte of a DSD that is not as laid out; a blank first byte asks for the spare layout.
fn first_fault_in_descriptor(descriptor: &[u8; DESCRIPTOR_SIZE]) -> Option<usize> {
    if descriptor[0] == b' ' {
        return first_different(descriptor, &SPARE_DESCRIPTOR);
    }
    let fault = first_outside(descriptor, &DESCRIPTOR_BOUNDS);
    if matches!(descriptor[DS_TYPE], b'M' | b'A' | b'G' | b'R') {
        fault
    } else {
        Some(fault.map_or(DS_TYPE, |fault| fault.min(DS_TYPE)))
    }
}

/// The values of a DSD that is as laid out, or the place in it of the sign of a number too large.
fn read_entry(descriptor: &[u8]) -> Result<Entry, usize> {
    if descriptor[0] == b' ' {
        return Ok(Entry { set_type: SPARE, ..Entry::NONE });
    }
    Ok(Entry {
        set_type: descriptor[DS_TYPE],
        offset: long(descriptor, DS_OFFSET).ok_or(DS_OFFSET)?,
        size: long(descriptor, DS_SIZE).ok_or(DS_SIZE)?,
        count: whole(descriptor, NUM_DSR, 10),
        record_size: whole(descriptor, DSR_SIZE, 10),
    })
}

/// Rule 10 for one entry.
fn numbers_hold(entry: &Entry, descriptor: &[u8]) -> bool {
    let Entry { set_type, offset, size, count, record_size } = *entry;
    match set_type {
        SPARE => true,
        b'R' => (offset, size, count, record_size) == (0, 0, 0, 0),
        _ if offset < 0 || size < 0 || count < 0 || record_size < -1 => false,
        _ if size == 0 => count == 0,
        _ if record_size == -1 => {
            count >= 1 && set_type == b'M' && variable_kind(name_in(descriptor)).is_some()
        }
        _ => {
            count >= 1
                && record_size >= 1
                && i128::from(count) * i128::from(record_size) == i128::from(size)
        }
    }
}
