//! Both sides of rule 11 as order 4 of document 02 has it: empty sets that NUM_DATA_SETS leaves out, and empty sets
//! that it counts.

use twin::builder::Number;
use twin::words::{entry_words, Answer};
use twin::{judge, Verdict};

use crate::header_numbers::{header_ends, number_fields};
use crate::met::ENTRIES_WORD;

/// The types of entries that have a data set.
const SET_TYPES: [u8; 3] = *b"MAG";

/// Whether a directory has an empty set; where it is refused it has none.
pub(crate) fn has_empty_set(directory: &Answer) -> bool {
    let is_empty_set = |entry| {
        let [set_type, _, size, ..] = entry_words(directory, entry);
        SET_TYPES.contains(&(set_type as u8)) && size == 0
    };
    (0..directory.words[ENTRIES_WORD] as usize).any(is_empty_set)
}

/// Whether a product that is refused 11 counts its empty sets too, and would be accepted if it did not.
pub(crate) fn counts_empty_sets(product: &[u8]) -> bool {
    let sizes = sizes_of_sets(product);
    let data_sets = number_fields(product, 1180..1206).remove(0);
    if data_sets.read(product) != sizes.len() as i128 {
        return false;
    }
    let filled = sizes.iter().filter(|&&size| size > 0).count();
    let mut amended = product.to_vec();
    data_sets.write(&mut amended, Number::from(filled as i128)) && judge(&amended) == Verdict::Accepted
}

/// The DS_SIZE of every entry that has a data set, in a product that passes rules 1 to 10.
fn sizes_of_sets(product: &[u8]) -> Vec<i128> {
    let (lines_end, headers_end) = header_ends(product);
    let descriptors = (lines_end..headers_end).step_by(280);
    let sets = descriptors.filter(|place| SET_TYPES.contains(&product[place + 47]));
    let size = |place| number_fields(product, place + 162..place + 199)[0].read(product);
    sets.map(size).collect()
}
