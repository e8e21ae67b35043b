//! One call asked of the library and of the twin, and what they write compared.

use std::fmt::Display;

use twin::words::{Answer, Call};

use crate::library::{ask, ROOM_TOO_SHORT, WRITTEN};
use crate::met::Met;
use crate::report::{report, report_of_product, Asked};
use crate::rooms::{as_doubles, Lengths, Room};

/// The rooms that are lent again and again.
pub struct Comparer {
    words: Room<u64>,
    bytes: Room<u8>,
    doubles: Room<u64>,
    origin: String,
    asked: usize,
    met: Met,
}

impl Default for Comparer {
    fn default() -> Comparer {
        Comparer {
            words: Room::new(0xa5c3_5a3c_9669_f00f),
            bytes: Room::new(0xa7),
            doubles: Room::new(0x4339_5a3c_9669_f00f),
            origin: String::new(),
            asked: 0,
            met: Met::default(),
        }
    }
}

impl Comparer {
    /// The comparer of products that come from here, as a report will say.
    pub fn of(origin: impl Display) -> Comparer {
        Comparer { origin: origin.to_string(), ..Comparer::default() }
    }

    /// What comes from now on comes from here.
    pub fn set_origin(&mut self, origin: impl Display) {
        self.origin = origin.to_string();
    }

    /// How many calls were compared.
    pub fn asked(&self) -> usize {
        self.asked
    }

    /// What was met in the answers that were compared.
    pub fn met(&self) -> &Met {
        &self.met
    }

    /// Asks both, lending up to eight elements more than the answer takes; answers what both wrote.
    ///
    /// # Panics
    /// Where the library does not write exactly the twin's answer.
    pub fn compare(&mut self, product: &[u8], call: Call) -> Answer {
        let answer = call.answer(product);
        let more = self.asked % 9;
        self.compare_with(product, call, &answer, Lengths::of(&answer).and(more));
        answer
    }

    /// Asks the library, lending rooms of these lengths, which the answer fits.
    ///
    /// # Panics
    /// Where it does not write exactly this answer.
    pub fn compare_with(&mut self, product: &[u8], call: Call, answer: &Answer, lengths: Lengths) {
        let returned = self.ask_library(product, call, lengths);
        let same = self.words.holds(&answer.words)
            && self.bytes.holds(&answer.bytes)
            && self.doubles.holds(&answer.double_bits);
        if returned != WRITTEN || !same {
            self.fail(product, call, lengths, returned, Some(answer));
        }
        self.met.count(product, call, answer);
    }

    /// Asks the library, lending rooms of these lengths, one of them too short.
    ///
    /// # Panics
    /// Where it says otherwise or has written anything.
    pub fn refuse_rooms(&mut self, product: &[u8], call: Call, lengths: Lengths) {
        let returned = self.ask_library(product, call, lengths);
        let untouched = self.words.is_untouched_behind(0)
            && self.bytes.is_untouched_behind(0)
            && self.doubles.is_untouched_behind(0);
        if returned != ROOM_TOO_SHORT || !untouched {
            self.fail(product, call, lengths, returned, None);
        }
    }

    fn ask_library(&mut self, product: &[u8], call: Call, lengths: Lengths) -> u32 {
        self.asked += 1;
        let words = self.words.lend(lengths.words);
        let bytes = self.bytes.lend(lengths.bytes);
        let doubles = self.doubles.lend(lengths.doubles);
        ask(product, &call, words, bytes, as_doubles(doubles))
    }

    /// Says that the records of an accepted product do not join to it.
    pub(crate) fn fail_joining(&self, product: &[u8]) -> ! {
        panic!("the joined records are not the product\n{}", report_of_product(&self.origin, product))
    }

    fn fail(
        &self,
        product: &[u8],
        call: Call,
        lengths: Lengths,
        returned: u32,
        expected: Option<&Answer>,
    ) -> ! {
        let rooms = Answer {
            words: self.words.lent().to_vec(),
            bytes: self.bytes.lent().to_vec(),
            double_bits: self.doubles.lent().to_vec(),
        };
        let untouched = expected.is_none_or(|answer| {
            self.words.is_untouched_behind(answer.words.len())
                && self.bytes.is_untouched_behind(answer.bytes.len())
                && self.doubles.is_untouched_behind(answer.double_bits.len())
        });
        let asked = Asked { product, origin: &self.origin, call, lengths, returned, untouched };
        panic!("{}", report(&asked, &rooms, expected))
    }
}
