//! Good products at random, from a seed: the same seed gives the same products.

use super::description::{Description, EntryDescription, Number, Setting, StateDescription};

const TEXT_KEYWORDS: [&str; 12] = [
    "PRODUCT",
    "REF_DOC",
    "ACQUISITION_STATION",
    "PROC_CENTER",
    "PROC_TIME",
    "SOFTWARE_VER",
    "SENSING_START",
    "SENSING_STOP",
    "STATE_VECTOR_TIME",
    "VECTOR_SOURCE",
    "UTC_SBT_TIME",
    "LEAP_UTC",
];

/// Numbers that no rule looks at, with their digits.
const NUMBER_KEYWORDS: [(&str, u32); 13] = [
    ("CYCLE", 3),
    ("REL_ORBIT", 5),
    ("ABS_ORBIT", 5),
    ("DELTA_UT1", 6),
    ("X_POSITION", 10),
    ("Y_POSITION", 10),
    ("Z_POSITION", 10),
    ("X_VELOCITY", 10),
    ("Y_VELOCITY", 10),
    ("Z_VELOCITY", 10),
    ("SAT_BINARY_TIME", 10),
    ("CLOCK_STEP", 10),
    ("LEAP_SIGN", 3),
];

/// Names without STATES, which is given to an entry of type A only with care.
const NAMES: [&str; 9] = [
    "DEMO",
    "",
    "NADIR",
    "LIMB",
    "TRA_OCCULTATION_DATA",
    " NADIR",
    "GEOLOCATION",
    "A  B",
    "ABCDEFGHIJKLMNOPQRSTUVWXYZ_0",
];

/// Angles in 10^-6 degree at the limits of latitude and longitude, and one past them.
const EDGES_OF_ANGLES: [i32; 8] = [
    90_000_000,
    -90_000_000,
    90_000_001,
    -90_000_001,
    180_000_000,
    -180_000_000,
    180_000_001,
    -180_000_001,
];

pub(super) const VARIABLE_NAMES: [&str; 4] = ["NADIR", "LIMB", "OCCULTATION", "MONITORING"];

/// A source of pseudo-random numbers (xorshift) and of products made with them.
#[derive(Clone, Debug)]
pub struct Generator {
    state: u64,
}

impl Generator {
    pub fn new(seed: u64) -> Generator {
        let mut state = seed.wrapping_add(0x9e37_79b9_7f4a_7c15);
        state = (state ^ (state >> 30)).wrapping_mul(0xbf58_476d_1ce4_e5b9);
        state = (state ^ (state >> 27)).wrapping_mul(0x94d0_49bb_1331_11eb);
        Generator { state: (state ^ (state >> 31)).max(1) }
    }

    /// The generator of one product out of a seed's many.
    pub fn at(seed: u64, index: u64) -> Generator {
        Generator::new(seed.wrapping_mul(0xd134_2543_de82_ef95).wrapping_add(index))
    }

    pub fn next_number(&mut self) -> u64 {
        self.state ^= self.state >> 12;
        self.state ^= self.state << 25;
        self.state ^= self.state >> 27;
        self.state.wrapping_mul(0x2545_f491_4f6c_dd1d)
    }

    /// A number below the limit.
    pub fn below(&mut self, limit: u64) -> u64 {
        (self.next_number() >> 11) % limit
    }

    pub fn index(&mut self, limit: usize) -> usize {
        self.below(limit as u64) as usize
    }

    /// True once in so many times.
    pub fn once_in(&mut self, times: u64) -> bool {
        self.below(times) == 0
    }

    pub fn choose<T: Copy>(&mut self, from: &[T]) -> T {
        from[self.index(from.len())]
    }

    pub(super) fn shuffle<T>(&mut self, list: &mut [T]) {
        for last in (1..list.len()).rev() {
            list.swap(last, self.index(last + 1));
        }
    }

    fn text_byte(&mut self) -> u8 {
        match 32 + self.below(95) as u8 {
            b'"' => b' ',
            byte => byte,
        }
    }

    pub(super) fn text(&mut self, length: usize) -> Vec<u8> {
        (0..length).map(|_| self.text_byte()).collect()
    }

    pub(super) fn bytes(&mut self, length: usize) -> Vec<u8> {
        (0..length).map(|_| self.next_number() as u8).collect()
    }

    /// A whole number from minus the limit to the limit.
    pub fn within(&mut self, limit: u32) -> i32 {
        (self.below(2 * u64::from(limit) + 1) as i64 - i64::from(limit)) as i32
    }

    /// Big-endian words, most of them latitudes in range, the others longitudes or at an edge of either.
    fn angles(&mut self, length: usize) -> Vec<u8> {
        let mut bytes = self.bytes(length);
        for word in bytes.chunks_exact_mut(4) {
            let angle = match self.below(8) {
                0 => self.choose(&EDGES_OF_ANGLES),
                1 => self.within(180_000_000),
                _ => self.within(90_000_000),
            };
            word.copy_from_slice(&angle.to_be_bytes());
        }
        bytes
    }

    fn zero(&mut self) -> Number {
        Number { minus: self.once_in(3), magnitude: 0 }
    }

    pub(super) fn describe_header(&mut self, description: &mut Description) {
        for keyword in TEXT_KEYWORDS {
            let length = self.index(70);
            description.header.push((keyword, Setting::Text(self.text(length))));
        }
        for (keyword, digits) in NUMBER_KEYWORDS {
            let magnitude = u128::from(self.below(10u64.pow(digits)));
            let number = Number { minus: self.once_in(2), magnitude };
            description.set_number(keyword, number);
        }
        for keyword in ["PROC_STAGE", "PHASE"] {
            let byte = self.text_byte();
            description.set_single(keyword, byte);
        }
        for keyword in ["LEAP_ERR", "PRODUCT_ERR"] {
            let byte = self.choose(b"01");
            description.set_single(keyword, byte);
        }
    }

    /// A good SPH line with its byte 10.
    pub(super) fn sph_line(&mut self) -> Vec<u8> {
        if self.once_in(4) {
            return blank_line(2 + self.index(50));
        }
        let (keyword, value) = (1 + self.index(12), self.index(40));
        self.named_line(keyword, value)
    }

    /// A line of a keyword and a value: a q of this length, or text of one byte more.
    pub(super) fn named_line(&mut self, keyword: usize, value: usize) -> Vec<u8> {
        let mut line = vec![b'A' + self.below(26) as u8];
        for _ in 1..keyword {
            line.push(self.choose(b"ABCXYZ0189_"));
        }
        line.push(b'=');
        if self.once_in(2) {
            line.push(b'"');
            line.extend(self.text(value));
            line.push(b'"');
        } else {
            line.extend(self.text(value + 1));
        }
        line.push(b'\n');
        line
    }

    /// A spare, an R entry, an empty set or a set of equal records.
    pub(super) fn plain_entry(&mut self) -> EntryDescription {
        let mut name = self.choose(&NAMES);
        let set_type = self.choose(b"MAG");
        if set_type != b'A' && self.once_in(8) {
            name = "STATES";
        }
        let mut entry = match self.below(6) {
            0 => return EntryDescription::spare(),
            1 => self.empty_entry(b'R', name),
            2 => self.empty_entry(set_type, name),
            3 | 4 => self.records(set_type, name, 12, Generator::angles),
            _ => self.records(set_type, name, 1, Generator::bytes),
        };
        let length = self.index(63);
        entry.filename = self.text(length);
        entry
    }

    /// A set of up to four equal records, no shorter than this, of the bytes that are made for each.
    fn records(
        &mut self,
        set_type: u8,
        name: &str,
        least: usize,
        record: fn(&mut Generator, usize) -> Vec<u8>,
    ) -> EntryDescription {
        let (count, record_size) = (1 + self.index(4), least + self.index(30));
        let mut entry = EntryDescription::records(set_type, name, count, record_size);
        entry.data = (0..count).flat_map(|_| record(self, record_size)).collect();
        entry
    }

    /// An R entry or an empty set; some of its zeros are written with a minus.
    pub(super) fn empty_entry(&mut self, set_type: u8, name: &str) -> EntryDescription {
        let mut entry = EntryDescription::new(set_type, name, Vec::new());
        entry.offset = Some(self.zero());
        entry.size = Some(self.zero());
        entry.count = Some(self.zero());
        entry.record_size = Some(self.zero());
        if set_type != b'R' && self.once_in(2) {
            let offset = self.choose(&[1247, 1527, 1600, i64::MAX]);
            let record_size = self.choose(&[-1, 0, 1, 1387, 9_999_999_999i64]);
            entry.offset = Some(Number::from(i128::from(offset)));
            entry.record_size = Some(Number::from(i128::from(record_size)));
        }
        entry
    }

    fn state(&mut self) -> StateDescription {
        let kind = 1 + self.below(4) as u8;
        let count = self.below(4) as u16;
        let length = 1 + self.below(20) as u32;
        match self.below(6) {
            0 => StateDescription { flag: 1, kind: self.next_number() as u8, count, length: 0 },
            1 => StateDescription { flag: 0, kind, count: 0, length: 0 },
            _ => StateDescription { flag: 0, kind, count, length },
        }
    }

    /// STATES and the variable sets of every kind it attaches records of; none if it attaches none.
    pub(super) fn variable_entries(&mut self) -> Vec<EntryDescription> {
        let list: Vec<StateDescription> = (0..1 + self.index(3)).map(|_| self.state()).collect();
        let mut entries = vec![EntryDescription::states(&list)];
        for (kind, name) in (1..).zip(VARIABLE_NAMES) {
            let set = EntryDescription::filled_by(&list, kind, name);
            let sets = if self.once_in(6) { 2 } else { 1 };
            for _ in 0..if set.data.is_empty() { 0 } else { sets } {
                let mut entry = set.clone();
                entry.data = self.bytes(entry.data.len());
                entries.push(entry);
            }
        }
        entries
    }
}

/// A line of blanks, of this length with its byte 10.
pub(super) fn blank_line(length: usize) -> Vec<u8> {
    let mut line = vec![b' '; length - 1];
    line.push(b'\n');
    line
}
