//! What was met in the answers that both gave: how many were refused by which number, both sides of the count of
//! sets, sets in another order than their entries', the largest products, and times and their texts.

use twin::words::{Answer, Call};

use crate::empty_sets::{counts_empty_sets, has_empty_set};
use crate::file_order::is_out_of_entry_order;

/// Where SPH_SIZE stands in the words of the header values.
pub(crate) const SPH_SIZE_WORD: usize = 21;
/// Where the number of entries stands in the words of the directory.
pub(crate) const ENTRIES_WORD: usize = 3;
/// Where the words of a text's time tell a time from what is not given, and what says the latter.
const TIME_CASE_WORD: usize = 3;
const NOT_GIVEN: u64 = 2;

/// Counts by refusal number; at 0, of what was not refused.
pub type ByNumber = [u64; 32];

#[derive(Clone, Debug, Default, PartialEq, Eq)]
pub struct Met {
    /// The answers of every call but those that hand out a part, which have no refusal.
    pub answers: ByNumber,
    /// Of these the verdicts on products.
    pub verdicts: ByNumber,
    pub points_answered: u64,
    pub pixels_answered: u64,
    /// Texts whose time was answered, those that are not given, and times whose text was answered.
    pub times_answered: u64,
    pub times_not_given: u64,
    pub texts_answered: u64,
    /// Products with an empty set: accepted ones, whose NUM_DATA_SETS leaves it out, and those that are refused 11
    /// only because theirs does not.
    pub empty_sets_left_out: u64,
    pub empty_sets_counted: u64,
    /// Accepted products whose sets stand in the file in another order than their entries do, and the most entries
    /// of one.
    pub out_of_entry_order: u64,
    pub most_entries_out_of_order: u64,
    /// Of the accepted products.
    pub most_entries: u64,
    pub longest_sph: u64,
}

impl Met {
    pub(crate) fn count(&mut self, product: &[u8], call: Call, answer: &Answer) {
        let number = answer.words[0] as usize;
        match call {
            Call::SphPart | Call::RecordPart { .. } => return,
            Call::Judge => {
                self.verdicts[number] += 1;
                self.empty_sets_counted += u64::from(number == 11 && counts_empty_sets(product));
            }
            Call::OpenDirectory => {
                self.empty_sets_left_out += u64::from(has_empty_set(answer));
                self.most_entries = self.most_entries.max(answer.words[ENTRIES_WORD]);
                self.count_order(answer);
            }
            Call::HeaderValues => self.longest_sph = self.longest_sph.max(answer.words[SPH_SIZE_WORD]),
            Call::PointAt { .. } => self.points_answered += u64::from(number == 0),
            Call::ExtinctionAt { .. } => self.pixels_answered += u64::from(number == 0),
            Call::TimeOfText if number == 0 => match answer.words[TIME_CASE_WORD] {
                NOT_GIVEN => self.times_not_given += 1,
                _ => self.times_answered += 1,
            },
            Call::TextOfTime { .. } => self.texts_answered += u64::from(number == 0),
            Call::SphPlace | Call::RecordPlace { .. } | Call::FieldAt { .. } | Call::TimeOfText => {}
        }
        self.answers[number] += 1;
    }

    fn count_order(&mut self, directory: &Answer) {
        if is_out_of_entry_order(directory) {
            let entries = directory.words[ENTRIES_WORD];
            self.out_of_entry_order += 1;
            self.most_entries_out_of_order = self.most_entries_out_of_order.max(entries);
        }
    }

    /// What both have met.
    pub fn and(mut self, other: &Met) -> Met {
        let add = |sums: &mut ByNumber, counts: &ByNumber| {
            sums.iter_mut().zip(counts).for_each(|(sum, count)| *sum += count);
        };
        add(&mut self.answers, &other.answers);
        add(&mut self.verdicts, &other.verdicts);
        self.points_answered += other.points_answered;
        self.pixels_answered += other.pixels_answered;
        self.times_answered += other.times_answered;
        self.times_not_given += other.times_not_given;
        self.texts_answered += other.texts_answered;
        self.empty_sets_left_out += other.empty_sets_left_out;
        self.empty_sets_counted += other.empty_sets_counted;
        self.out_of_entry_order += other.out_of_entry_order;
        self.most_entries_out_of_order =
            self.most_entries_out_of_order.max(other.most_entries_out_of_order);
        self.most_entries = self.most_entries.max(other.most_entries);
        self.longest_sph = self.longest_sph.max(other.longest_sph);
        self
    }
}
