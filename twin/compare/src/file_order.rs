//! The order of the sets in the file: by the ranks that a directory answers (order 10 of document 02), and by its
//! offsets.

use twin::words::{entry_words, Answer};

use crate::met::ENTRIES_WORD;

/// The entries with a non-empty set, in their order; none where the product is refused.
fn filled_entries(directory: &Answer) -> impl Iterator<Item = usize> + '_ {
    let entries = 0..directory.words[ENTRIES_WORD] as usize;
    entries.filter(|&entry| entry_words(directory, entry)[2] > 0)
}

/// The non-empty sets by rank.
pub(crate) fn by_rank(directory: &Answer) -> Vec<usize> {
    let mut order: Vec<usize> = filled_entries(directory).collect();
    order.sort_by_key(|&entry| entry_words(directory, entry)[5]);
    order
}

/// Whether the non-empty sets stand in the file in another order than their entries do.
pub(crate) fn is_out_of_entry_order(directory: &Answer) -> bool {
    !filled_entries(directory).is_sorted_by_key(|entry| entry_words(directory, entry)[1])
}
