//! Damaged products at random: a good description is changed with a rule in mind, or bytes are.

use std::ops::Range;

use super::description::{Description, EntryDescription, Number, StateDescription};
use super::generator::{Generator, VARIABLE_NAMES};

impl Generator {
    /// A product damaged once or twice, most often one that is refused.
    pub fn damaged(&mut self) -> Vec<u8> {
        let description = self.good_description();
        self.damage(description)
    }

    /// The product of a good description, damaged once or twice.
    pub(super) fn damage(&mut self, mut description: Description) -> Vec<u8> {
        let aims = [self.aim(), self.aim()];
        let aims = if self.once_in(3) { &aims[..] } else { &aims[..1] };
        for &aim in aims {
            self.damage_description(&mut description, aim);
        }
        let descriptors = description.lines_end()..description.headers_end();
        let mut product = description.build();
        for &aim in aims {
            self.damage_bytes(&mut product, descriptors.clone(), aim);
        }
        product
    }

    /// A good product or a damaged one.
    pub fn any(&mut self) -> Vec<u8> {
        if self.once_in(3) {
            self.good()
        } else {
            self.damaged()
        }
    }

    /// A rule 1 to 16 but 2, and 0 for bytes anywhere.
    fn aim(&mut self) -> u8 {
        match self.below(17) as u8 {
            2 => 0,
            aim => aim,
        }
    }

    fn damage_description(&mut self, description: &mut Description, aim: u8) {
        match aim {
            4 => description.set_number("TOT_SIZE", self.too_large()),
            5 => self.damage_length(description),
            6 => self.damage_header_sizes(description),
            7 => self.damage_lines(description),
            9 => self.damage_magnitudes(description),
            10 => self.damage_numbers(description),
            11 => self.damage_count_of_sets(description),
            12 | 13 => self.damage_offset(description, aim),
            14 => self.damage_filling(description),
            15 => self.damage_states(description),
            16 => self.damage_counts(description),
            _ => {}
        }
    }

    fn damage_bytes(&mut self, product: &mut Vec<u8>, descriptors: Range<usize>, aim: u8) {
        let part = match aim {
            1 => {
                product.truncate(self.index(1300));
                return;
            }
            0 => 0..product.len(),
            3 => 0..1247,
            8 => descriptors,
            _ => return,
        };
        let length = part.end.min(product.len()).saturating_sub(part.start);
        if length == 0 {
            return;
        }
        let near = self.once_in(2);
        let place = part.start + self.index(if near { length.min(3000) } else { length });
        product[place] = match self.below(3) {
            0 => self.next_number() as u8,
            1 => self.choose(b" \n\"0+-=A."),
            _ => product[place].wrapping_add(1),
        };
    }

    fn too_large(&mut self) -> Number {
        let magnitude = match self.below(4) {
            0 => 1 << 63,
            1 => (1 << 64) + 1247,
            2 => 99_999_999_999_999_999_999,
            _ => (1 << 63) + u128::from(self.next_number() >> 1),
        };
        Number { minus: self.once_in(2), magnitude }
    }

    /// A number close to another one, or its negative.
    fn near(&mut self, number: i128) -> Number {
        let change = self.choose(&[-1, 1, 2, -2, 5]);
        Number::from(if self.once_in(5) { -number - 1 } else { number + change })
    }

    fn damage_length(&mut self, description: &mut Description) {
        let length = description.length() as i128;
        let number = match self.below(3) {
            0 => Number::from(-length),
            1 => Number::from(i128::from(i64::MAX)),
            _ => self.near(length),
        };
        description.set_number("TOT_SIZE", number);
    }

    fn damage_header_sizes(&mut self, description: &mut Description) {
        let (keyword, exact) = match self.below(3) {
            0 => ("SPH_SIZE", description.headers_end() as i128 - 1247),
            1 => ("NUM_DSD", description.entries.len() as i128),
            _ => ("DSD_SIZE", 280),
        };
        let number = match self.below(3) {
            0 => self.near(exact),
            1 => Number::from(self.choose(&[129, 49_153, 9_999_999_999, -1, 128, 0])),
            _ => Number::from(exact + self.choose(&[280, -280, 560])),
        };
        description.set_number(keyword, number);
    }

    fn damage_lines(&mut self, description: &mut Description) {
        const BAD: [&[u8]; 14] = [
            b"\n",
            b"A=\n",
            b"A=\"\n",
            b"A=\"x\" \n",
            b"A=\"a\"b\"\n",
            b"A=1",
            b"   ",
            b" A=1\n",
            b"a=1\n",
            b"1A=1\n",
            b"_A=1\n",
            b"A =1\n",
            b"A=\x7f\n",
            b"A=1\r\n",
        ];
        let mut places = vec![0];
        places.extend(
            (1..).zip(&description.sph_lines).filter(|(_, &byte)| byte == b'\n').map(|at| at.0),
        );
        let place = self.choose(&places);
        let bad = self.choose(&BAD);
        description.sph_lines.splice(place..place, bad.iter().copied());
        description.place_in_entry_order();
    }

    /// An entry that has a non-empty set, made if there is none.
    fn filled_entry<'a>(&mut self, description: &'a mut Description) -> &'a mut EntryDescription {
        let mut filled: Vec<usize> = (0..description.entries.len()).collect();
        filled.retain(|&entry| !description.entries[entry].data.is_empty());
        if filled.is_empty() {
            filled.push(description.entries.len());
            description.entries.push(EntryDescription::records(b'G', "DEMO", 2, 5));
            description.place_in_order(&filled);
        }
        let entry = self.choose(&filled);
        &mut description.entries[entry]
    }

    fn damage_magnitudes(&mut self, description: &mut Description) {
        let number = Some(self.too_large());
        let size = self.once_in(2);
        let entry = self.filled_entry(description);
        if size {
            entry.size = number;
        } else {
            entry.offset = number;
        }
    }

    fn damage_numbers(&mut self, description: &mut Description) {
        let which = self.below(6);
        let value = self.choose(&[-1, 0, 1, -2, 2, 7, 1387]);
        let entry = self.filled_entry(description);
        let number = Some(Number::from(value));
        match which {
            0 => entry.offset = Some(Number::from(-5)),
            1 => entry.size = number,
            2 => entry.count = number,
            3 => entry.record_size = number,
            4 => entry.set_type = b'R',
            _ => entry.name = b"NADIR_".to_vec(),
        }
    }

    /// Counts most often the empty sets too, as before order 4 of document 02; otherwise the R entries too, or some
    /// sets too many or too few.
    fn damage_count_of_sets(&mut self, description: &mut Description) {
        let right = description.data_sets() as i128;
        let number = match self.below(6) {
            0 => self.near(right),
            1 => Number::from(right + description.entries_of(b"R") as i128),
            _ => {
                self.provide_empty_set(description);
                Number::from(description.entries_of(b"MAG") as i128)
            }
        };
        description.set_number("NUM_DATA_SETS", number);
    }

    /// Puts an empty set in if there is none.
    fn provide_empty_set(&mut self, description: &mut Description) {
        if description.entries_of(b"MAG") == description.data_sets() {
            let set_type = self.choose(b"MAG");
            description.entries.push(self.empty_entry(set_type, "DEMO"));
            description.place_in_entry_order();
        }
    }

    fn damage_offset(&mut self, description: &mut Description, aim: u8) {
        let (start, length) = (description.headers_end() as i128, description.length() as i128);
        let room = (length - start).max(1) as u64;
        let offset = match (aim, self.below(4)) {
            (12, 0) => start - 1,
            (12, 1) => i128::from(i64::MAX),
            (12, 2) => length,
            (12, _) => i128::from(self.below(1300)),
            _ => start + i128::from(self.below(room)),
        };
        self.filled_entry(description).offset = Some(Number::from(offset));
    }

    fn damage_filling(&mut self, description: &mut Description) {
        if self.once_in(2) {
            description.after = vec![b'x'; 1 + self.index(9)];
            return;
        }
        let entry = self.filled_entry(description);
        let count = entry.count.map_or(1, |count| count.magnitude);
        let size = entry.data.len() as i128;
        if count > 1 && size % count as i128 == 0 {
            entry.count = Some(Number::from(count as i128 - 1));
            entry.size = Some(Number::from(size - size / count as i128));
        }
    }

    /// The entry of the states; STATES and a variable set are put in if there is none.
    fn states<'a>(&mut self, description: &'a mut Description) -> &'a mut EntryDescription {
        let is_states = |entry: &EntryDescription| entry.name == b"STATES" && entry.set_type == b'A';
        if !description.entries.iter().any(is_states) {
            let kind = self.index(VARIABLE_NAMES.len());
            let list = [4, 5].map(|length| StateDescription::new(0, kind as u8 + 1, 1, length));
            description.entries.push(EntryDescription::states(&list));
            description.entries.push(EntryDescription::variable(VARIABLE_NAMES[kind], 2, 9));
            description.place_in_entry_order();
        }
        let place = description.entries.iter().position(is_states).unwrap_or(0);
        &mut description.entries[place]
    }

    fn damage_states(&mut self, description: &mut Description) {
        let (which, byte) = (self.below(7), self.choose(&[0, 1, 2, 5, 255]));
        let entry = self.states(description);
        let records = entry.data.len() / 1387;
        let record = which as usize % records.max(1) * 1387;
        match which {
            0 => entry.name = b"STATE".to_vec(),
            1 => entry.set_type = b'G',
            2 => {
                entry.record_size = Some(Number::from(entry.data.len() as i128));
                entry.count = Some(Number::from(1));
            }
            3 => {
                let another = EntryDescription::new(b'A', "STATES", Vec::new());
                description.entries.push(another);
                description.place_in_entry_order();
            }
            4 => entry.data[record + 12] = byte,
            5 => entry.data[record + 1116] = byte,
            _ => entry.data[record + 1383..record + 1387].fill(0),
        }
    }

    fn damage_counts(&mut self, description: &mut Description) {
        let (which, byte, draw) = (self.below(4), self.below(4) as u8, self.next_number());
        let entry = self.states(description);
        let record = draw as usize % (entry.data.len() / 1387) * 1387;
        match which {
            0 => entry.data[record + 1382] = byte,
            1 => entry.data[record + 1386] = 1 + byte,
            2 => entry.data[record + 12] = 1,
            _ => {
                let variable =
                    |entry: &&mut EntryDescription| entry.record_size == Some(Number::from(-1));
                let mut sets = description.entries.iter_mut().filter(variable);
                if let Some(set) = sets.find(|set| !set.data.is_empty()) {
                    set.count = Some(Number::from(1 + i128::from(byte)));
                }
            }
        }
    }
}
