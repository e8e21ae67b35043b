//! The state records and the sets of unequal lengths they describe: rules 15 and 16.

use crate::descriptors::{name_in, padded, variable_kind, Entry, NAME_LENGTH};
use crate::layout::DESCRIPTOR_SIZE;
use crate::refusal::{Refusal, NO_ENTRY};

/// Bytes of a SCIAMACHY state record.
pub(crate) const STATE_SIZE: usize = 1387;

const STATES: [u8; NAME_LENGTH] = padded("STATES");
const ATTACHMENT_FLAG: usize = 12;
const MDS_KIND: usize = 1116;
const NUMBER_OF_RECORDS: usize = 1381;
const RECORD_LENGTH: usize = 1383;

/// What one state record says of the records of a variable set.
#[derive(Clone, Copy)]
struct State {
    flag: u8,
    kind: u8,
    count: u64,
    length: u64,
}

impl State {
    fn read(record: &[u8]) -> State {
        let count = [record[NUMBER_OF_RECORDS], record[NUMBER_OF_RECORDS + 1]];
        let mut length = [0; 4];
        length.copy_from_slice(&record[RECORD_LENGTH..RECORD_LENGTH + 4]);
        State {
            flag: record[ATTACHMENT_FLAG],
            kind: record[MDS_KIND],
            count: u64::from(u16::from_be_bytes(count)),
            length: u64::from(u32::from_be_bytes(length)),
        }
    }

    /// Flag 0 means that the records are attached.
    fn is_attached(&self) -> bool {
        self.flag == 0
    }

    fn is_good(&self) -> bool {
        match self.flag {
            0 => (1..=4).contains(&self.kind) && (self.count == 0 || self.length >= 1),
            flag => flag == 1,
        }
    }
}

/// For each MDS kind the number of attached records and their bytes together.
#[derive(Default)]
struct Totals {
    records: [u64; 5],
    bytes: [u64; 5],
}

/// The DSDs of a product and the values read from them.
#[derive(Clone, Copy)]
pub(crate) struct Listed<'a> {
    pub product: &'a [u8],
    pub descriptors: &'a [u8],
    pub entries: &'a [Entry],
}

impl<'a> Listed<'a> {
    /// The DSD of an entry.
    pub fn descriptor(&self, entry: usize) -> &'a [u8] {
        &self.descriptors[entry * DESCRIPTOR_SIZE..(entry + 1) * DESCRIPTOR_SIZE]
    }

    /// The entry of a type and name, where there is exactly one.
    pub fn only_entry(&self, set_type: u8, name: &[u8; NAME_LENGTH]) -> Option<usize> {
        let mut found = (0..self.entries.len()).filter(|&entry| {
            self.entries[entry].set_type == set_type && name_in(self.descriptor(entry)) == name
        });
        let only = found.next()?;
        found.next().is_none().then_some(only)
    }

    /// The bytes of a set that lies within the product.
    fn set(&self, entry: usize) -> &'a [u8] {
        let Entry { offset, size, .. } = self.entries[entry];
        if size == 0 {
            return &[];
        }
        &self.product[offset as usize..(offset + size) as usize]
    }

    /// The MDS kind of a variable set.
    fn kind(&self, entry: usize) -> Option<u8> {
        if self.entries[entry].is_variable() {
            variable_kind(name_in(self.descriptor(entry)))
        } else {
            None
        }
    }
}

/// Rules 15 and 16; answers the entry of the states, or [`NO_ENTRY`] where there is no variable set.
pub(crate) fn check_states(listed: Listed) -> Result<usize, Refusal> {
    if !listed.entries.iter().any(Entry::is_variable) {
        return Ok(NO_ENTRY);
    }
    let states = states_entry(listed)?;
    let totals = check_state_records(listed, states)?;
    for (entry, values) in listed.entries.iter().enumerate() {
        let Some(kind) = listed.kind(entry) else { continue };
        let kind = usize::from(kind);
        if totals.records[kind] != values.count as u64 || totals.bytes[kind] != values.size as u64 {
            return Err(Refusal::of_entry(16, values.offset as u64, entry));
        }
    }
    Ok(states)
}

/// The one entry of type A named STATES, whose record size is right unless it is empty.
fn states_entry(listed: Listed) -> Result<usize, Refusal> {
    let states = listed.only_entry(b'A', &STATES).ok_or(Refusal::without_entry(15, 0))?;
    let values = &listed.entries[states];
    if values.is_filled() && values.record_size != STATE_SIZE as i64 {
        return Err(Refusal::of_entry(15, values.offset as u64, states));
    }
    Ok(states)
}

/// Every state is good; answers the totals, which stay at the largest number once they reach it.
fn check_state_records(listed: Listed, states: usize) -> Result<Totals, Refusal> {
    let mut totals = Totals::default();
    for (record, bytes) in listed.set(states).chunks_exact(STATE_SIZE).enumerate() {
        let state = State::read(bytes);
        if !state.is_good() {
            let place = listed.entries[states].offset as u64 + (record * STATE_SIZE) as u64;
            return Err(Refusal::of_entry(15, place, states));
        }
        if state.is_attached() {
            let kind = usize::from(state.kind);
            totals.records[kind] += state.count;
            totals.bytes[kind] = totals.bytes[kind].saturating_add(state.count * state.length);
        }
    }
    Ok(totals)
}

/// The place and length of a variable set's record, found from the states before it.
pub(crate) fn variable_record(
    listed: Listed,
    states: usize,
    entry: usize,
    record: u64,
) -> Option<(u64, u64)> {
    let kind = listed.kind(entry)?;
    let mut place = listed.entries[entry].offset as u64;
    let mut left = record;
    for bytes in listed.set(states).chunks_exact(STATE_SIZE) {
        let state = State::read(bytes);
        if !state.is_attached() || state.kind != kind {
            continue;
        }
        if left < state.count {
            return Some((place + left * state.length, state.length));
        }
        left -= state.count;
        place += state.count * state.length;
    }
    None
}
