//! The shapes of good products at random: most are small, a few have many entries or a long SPH, and some are
//! made to a length.

use super::description::{Description, EntryDescription, Number};
use super::generator::{blank_line, Generator};

/// One product in so many has many entries, and one in so many a long SPH.
const LARGE: u64 = 200;
const MOST_ENTRIES: usize = 128;
const LONGEST_SPH: usize = 49_152;
/// How many products are drawn at the most for one that can grow to a length.
const DRAWN: usize = 1000;

impl Generator {
    /// A product of a sort: `good`, `damaged` or `any`; `extinction`; `good-LENGTH` or `damaged-LENGTH`, which had that
    /// length before; or `longest-listing`.
    pub fn of_sort(&mut self, sort: &str) -> Option<Vec<u8>> {
        match sort.split_once('-') {
            None if sort == "good" => Some(self.good()),
            None if sort == "damaged" => Some(self.damaged()),
            None if sort == "any" => Some(self.any()),
            None if sort == "extinction" => Some(self.extinction()),
            Some(("good", length)) => Some(self.of_length(length.parse().ok()?)?.build()),
            Some(("damaged", length)) => {
                let description = self.of_length(length.parse().ok()?)?;
                Some(self.damage(description))
            }
            Some(("longest", "listing")) => Some(self.longest_listing()),
            _ => None,
        }
    }

    /// A product that is accepted.
    pub fn good(&mut self) -> Vec<u8> {
        self.good_description().build()
    }

    /// The description of a product that is accepted.
    pub(super) fn good_description(&mut self) -> Description {
        let many_entries = self.once_in(LARGE);
        let long_sph = self.once_in(if many_entries { 4 } else { LARGE });
        self.shaped(many_entries, long_sph)
    }

    fn shaped(&mut self, many_entries: bool, long_sph: bool) -> Description {
        let mut description = Description::default();
        if self.once_in(2) {
            self.describe_header(&mut description);
        }
        description.entries = self.entries(many_entries);
        let room = LONGEST_SPH - 280 * description.entries.len();
        description.sph_lines = if long_sph { self.long_lines(room) } else { self.few_lines() };
        self.place_sets(&mut description);
        description
    }

    /// Up to five entries, or up to 128 and more spares among them; beside them, once in three times, STATES and
    /// variable sets.
    fn entries(&mut self, many: bool) -> Vec<EntryDescription> {
        let variable = if self.once_in(3) { self.variable_entries() } else { Vec::new() };
        let (plain, spares) = if many {
            let all = if self.once_in(2) { MOST_ENTRIES } else { 9 + self.index(120) };
            (all - variable.len(), self.choose(&[0, 1, 9]))
        } else {
            (self.index(6), 0)
        };
        let mut entries = variable;
        for _ in 0..plain {
            let is_spare = self.below(10) < spares;
            entries.push(if is_spare { EntryDescription::spare() } else { self.plain_entry() });
        }
        self.shuffle(&mut entries);
        entries
    }

    /// Puts the sets one behind another: in the order of their entries once in three times, the other way round once
    /// in six, otherwise in any order.
    pub(super) fn place_sets(&mut self, description: &mut Description) {
        let mut order: Vec<usize> = (0..description.entries.len()).collect();
        match self.below(6) {
            0 | 1 => {}
            2 => order.reverse(),
            _ => self.shuffle(&mut order),
        }
        description.place_in_order(&order);
        self.point_empty_sets(description);
    }

    /// Lets empty sets point, once in three times, to the first bytes of a set, so that they lie among the others.
    fn point_empty_sets(&mut self, description: &mut Description) {
        let filled = description.entries.iter().filter(|entry| !entry.data.is_empty());
        let starts: Vec<Number> = filled.filter_map(|entry| entry.offset).collect();
        for entry in description.entries.iter_mut().filter(|entry| is_empty_set(entry)) {
            if !starts.is_empty() && self.once_in(3) {
                let Number { magnitude, .. } = self.choose(&starts);
                let behind = u128::from(self.below(3));
                entry.offset = Some(Number { minus: false, magnitude: magnitude + behind });
            }
        }
    }

    pub(super) fn few_lines(&mut self) -> Vec<u8> {
        (0..self.index(5)).flat_map(|_| self.sph_line()).collect()
    }

    /// Good lines of one form that fill this room, or a part of it.
    fn long_lines(&mut self, room: usize) -> Vec<u8> {
        let length = if self.once_in(2) { room } else { 2 + self.index(room - 1) };
        let form = self.below(5);
        let mut lines = Vec::with_capacity(length);
        while lines.len() < length {
            let left = length - lines.len();
            let line = self.line_of_form(form);
            // What is left behind a line is none or one more line, of two bytes at least.
            let fits = line.len() == left || line.len() + 2 <= left;
            lines.extend(if fits { line } else { blank_line(left) });
        }
        lines
    }

    /// Lines of every form, long blank ones, the shortest blank ones, the shortest of a keyword, or long ones.
    fn line_of_form(&mut self, form: u64) -> Vec<u8> {
        match form {
            0 => self.sph_line(),
            1 => blank_line(2 + self.index(20_000)),
            2 => blank_line(2),
            3 => self.named_line(1, 0),
            _ => {
                let (keyword, value) = (1 + self.index(500), self.index(20_000));
                self.named_line(keyword, value)
            }
        }
    }

    /// The description of an accepted product of exactly this length, to which a set of equal records grows; none
    /// where no product drawn is short enough.
    fn of_length(&mut self, length: usize) -> Option<Description> {
        for _ in 0..DRAWN {
            let (many_entries, long_sph) = (self.once_in(3), self.once_in(3));
            let mut description = self.shaped(many_entries, long_sph);
            let missing = length.checked_sub(description.length());
            let grows = description.entries.iter_mut().filter(|entry| has_equal_records(entry)).last();
            if let (Some(missing), Some(entry)) = (missing, grows) {
                self.grow(entry, missing);
                self.place_sets(&mut description);
                return Some(description);
            }
        }
        None
    }

    /// Puts bytes to a set and divides it into other equal records.
    fn grow(&mut self, entry: &mut EntryDescription, missing: usize) {
        let size = entry.data.len() + missing;
        entry.data = self.bytes(size);
        let most = self.choose(&[1, 300, size]).min(size);
        let mut count = 1 + self.index(most);
        while !size.is_multiple_of(count) {
            count -= 1;
        }
        entry.count = Some(Number::from(count as i128));
        entry.record_size = Some(Number::from((size / count) as i128));
    }

    /// An accepted product of the longest listing there is: 128 empty sets, whose names and numbers are as long as
    /// they can be.
    pub fn longest_listing(&mut self) -> Vec<u8> {
        let mut description = Description::default();
        for _ in 0..MOST_ENTRIES {
            let mut entry = EntryDescription::new(self.choose(b"MAG"), "", Vec::new());
            entry.name = self.text(27);
            entry.name.push(self.choose(b"AZ09_~"));
            let offset = i64::MAX as u64 - self.below(8_000_000_000_000_000_000);
            entry.offset = Some(Number::from(i128::from(offset)));
            let record_size = 9_999_999_999 - self.below(9_000_000_000);
            entry.record_size = Some(Number::from(i128::from(record_size)));
            description.entries.push(entry);
        }
        description.build()
    }
}

/// Whether an entry has records, and none whose number or length the states decide.
fn has_equal_records(entry: &EntryDescription) -> bool {
    let is_states = entry.set_type == b'A' && entry.name == b"STATES";
    !entry.data.is_empty() && !is_states && entry.record_size != Some(Number::from(-1))
}

/// Whether an entry has a set, and no byte in it.
fn is_empty_set(entry: &EntryDescription) -> bool {
    matches!(entry.set_type, b'M' | b'A' | b'G') && entry.data.is_empty()
}
