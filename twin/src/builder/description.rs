//! A description of a product: sizes and counts are worked out unless given.

/// A signed number of any header line; minus zero is its own value here.
#[derive(Clone, Copy, Debug, PartialEq, Eq)]
pub struct Number {
    pub minus: bool,
    pub magnitude: u128,
}

impl Number {
    pub const MINUS_ZERO: Number = Number { minus: true, magnitude: 0 };

    /// A sign and this many digits.
    pub fn written(&self, digits: usize) -> String {
        let sign = if self.minus { '-' } else { '+' };
        format!("{sign}{:0digits$}", self.magnitude)
    }
}

impl From<i128> for Number {
    fn from(value: i128) -> Number {
        Number { minus: value < 0, magnitude: value.unsigned_abs() }
    }
}

/// What a main header line is given.
#[derive(Clone, Debug, PartialEq, Eq)]
pub enum Setting {
    Text(Vec<u8>),
    Single(u8),
    Number(Number),
}

/// One entry of the directory and the bytes of its set. What is not given is worked out: the offset
/// after the set before, the size from the data, one record unless there is no data.
#[derive(Clone, Debug)]
pub struct EntryDescription {
    /// M, A, G, R, or a blank for a spare.
    pub set_type: u8,
    pub name: Vec<u8>,
    pub filename: Vec<u8>,
    pub offset: Option<Number>,
    pub size: Option<Number>,
    pub count: Option<Number>,
    pub record_size: Option<Number>,
    pub data: Vec<u8>,
}

impl EntryDescription {
    /// An entry of a type and name whose set holds these bytes.
    pub fn new(set_type: u8, name: &str, data: Vec<u8>) -> EntryDescription {
        EntryDescription {
            set_type,
            name: name.into(),
            filename: Vec::new(),
            offset: None,
            size: None,
            count: None,
            record_size: None,
            data,
        }
    }

    pub fn spare() -> EntryDescription {
        EntryDescription::new(b' ', "", Vec::new())
    }

    /// A set of `count` records of `record_size` bytes, filled with a pattern.
    pub fn records(set_type: u8, name: &str, count: usize, record_size: usize) -> EntryDescription {
        let data = (0..count * record_size).map(|index| (index * 31 % 251) as u8).collect();
        let mut entry = EntryDescription::new(set_type, name, data);
        entry.count = Some(Number::from(count as i128));
        entry.record_size = Some(Number::from(record_size as i128));
        entry
    }

    /// A variable set of `count` records, `size` bytes together.
    pub fn variable(name: &str, count: usize, size: usize) -> EntryDescription {
        let mut entry = EntryDescription::records(b'M', name, 1, size);
        entry.count = Some(Number::from(count as i128));
        entry.record_size = Some(Number::from(-1));
        entry
    }

    /// The entry STATES with these state records.
    pub fn states(list: &[StateDescription]) -> EntryDescription {
        let mut entry = EntryDescription::new(b'A', "STATES", Vec::new());
        entry.data = list.iter().flat_map(|&state| state_record(state)).collect();
        entry.count = Some(Number::from(list.len() as i128));
        entry.record_size = Some(Number::from(1387));
        entry
    }

    /// The variable set of a kind that these states fill, and its number of records; empty if they attach none.
    pub fn filled_by(list: &[StateDescription], kind: u8, name: &str) -> EntryDescription {
        let attached = list.iter().filter(|state| state.flag == 0 && state.kind == kind);
        let (count, size) = attached.fold((0, 0), |(count, size), state| {
            let records = usize::from(state.count);
            (count + records, size + records * state.length as usize)
        });
        EntryDescription::variable(name, count, size)
    }

    pub fn at(mut self, offset: i128) -> EntryDescription {
        self.offset = Some(Number::from(offset));
        self
    }

    /// Whether NUM_DATA_SETS counts the entry: M, A or G, and DS_SIZE as it will be written is above 0.
    fn is_counted(&self) -> bool {
        let [_, size, ..] = self.numbers(0);
        matches!(self.set_type, b'M' | b'A' | b'G') && !size.minus && size.magnitude > 0
    }

    /// Offset, size, count and record size as they will be written.
    pub(super) fn numbers(&self, place: usize) -> [Number; 4] {
        let size = self.data.len();
        let count = self.count.unwrap_or(Number::from(i128::from(size > 0)));
        let even = size as i128 / (count.magnitude.max(1) as i128);
        [
            self.offset.unwrap_or(Number::from(place as i128)),
            self.size.unwrap_or(Number::from(size as i128)),
            count,
            self.record_size.unwrap_or(Number::from(even)),
        ]
    }
}

/// A product to build.
#[derive(Clone, Debug, Default)]
pub struct Description {
    /// Main header values by keyword; the last one given for a keyword counts.
    pub header: Vec<(&'static str, Setting)>,
    pub sph_lines: Vec<u8>,
    pub entries: Vec<EntryDescription>,
    /// Bytes after the room of the sets.
    pub after: Vec<u8>,
}

impl Description {
    pub fn new(entries: Vec<EntryDescription>) -> Description {
        Description { entries, ..Description::default() }
    }

    pub fn set_number(&mut self, keyword: &'static str, value: impl Into<Number>) {
        self.header.push((keyword, Setting::Number(value.into())));
    }

    pub fn set_text(&mut self, keyword: &'static str, text: &str) {
        self.header.push((keyword, Setting::Text(text.into())));
    }

    pub fn set_single(&mut self, keyword: &'static str, byte: u8) {
        self.header.push((keyword, Setting::Single(byte)));
    }

    /// The first byte after the headers, by what is described and not by what is written.
    pub fn headers_end(&self) -> usize {
        1247 + self.sph_lines.len() + 280 * self.entries.len()
    }

    /// The first byte after the SPH lines.
    pub fn lines_end(&self) -> usize {
        1247 + self.sph_lines.len()
    }

    pub fn length(&self) -> usize {
        let sets: usize = self.entries.iter().map(|entry| entry.data.len()).sum();
        self.headers_end() + sets + self.after.len()
    }

    /// The data sets, empty ones left out (document 02, order 4).
    pub(super) fn data_sets(&self) -> usize {
        self.entries.iter().filter(|entry| entry.is_counted()).count()
    }

    /// How many entries have one of these types.
    pub(super) fn entries_of(&self, types: &[u8]) -> usize {
        self.entries.iter().filter(|entry| types.contains(&entry.set_type)).count()
    }

    /// Gives the sets offsets one after another in the order of their entries.
    pub(super) fn place_in_entry_order(&mut self) {
        let order: Vec<usize> = (0..self.entries.len()).collect();
        self.place_in_order(&order);
    }

    /// Gives the sets offsets one after another in this order of entries.
    pub fn place_in_order(&mut self, order: &[usize]) {
        let mut place = self.headers_end();
        for &entry in order {
            let described = &mut self.entries[entry];
            if !described.data.is_empty() {
                described.offset = Some(Number::from(place as i128));
                place += described.data.len();
            }
        }
    }
}

/// What a state record says.
#[derive(Clone, Copy, Debug)]
pub struct StateDescription {
    pub flag: u8,
    pub kind: u8,
    pub count: u16,
    pub length: u32,
}

impl StateDescription {
    pub const fn new(flag: u8, kind: u8, count: u16, length: u32) -> StateDescription {
        StateDescription { flag, kind, count, length }
    }
}

/// A state record: flag at 12, kind at 1116, count at 1381, length at 1383, a pattern elsewhere.
pub fn state_record(state: StateDescription) -> [u8; 1387] {
    let mut record = [0; 1387];
    for (index, byte) in record.iter_mut().enumerate() {
        *byte = (index * 7 % 253) as u8;
    }
    record[12] = state.flag;
    record[1116] = state.kind;
    record[1381..1383].copy_from_slice(&state.count.to_be_bytes());
    record[1383..1387].copy_from_slice(&state.length.to_be_bytes());
    record
}
