//! What refuses: a number, a place (a byte offset) and an entry (128 for none), and the verdict on a product.

/// The entry of a refusal that belongs to no entry.
pub const NO_ENTRY: usize = 128;

/// The three things a refusal carries, and nothing else.
#[derive(Clone, Copy, Debug, PartialEq, Eq, Hash)]
pub struct Refusal {
    pub number: u8,
    pub place: u64,
    pub entry: usize,
}

impl Refusal {
    /// A refusal that belongs to no entry.
    pub(crate) const fn without_entry(number: u8, place: u64) -> Refusal {
        Refusal { number, place, entry: NO_ENTRY }
    }

    /// A refusal that belongs to an entry.
    pub(crate) const fn of_entry(number: u8, place: u64, entry: usize) -> Refusal {
        Refusal { number, place, entry }
    }
}

/// The answer of [`crate::judge`].
#[derive(Clone, Copy, Debug, PartialEq, Eq, Hash)]
pub enum Verdict {
    Accepted,
    Refused { number: u8, place: u64, entry: usize },
}

impl From<Refusal> for Verdict {
    fn from(refusal: Refusal) -> Verdict {
        let Refusal { number, place, entry } = refusal;
        Verdict::Refused { number, place, entry }
    }
}
