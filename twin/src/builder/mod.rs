//! Building products: from a description, by name, from facts of the source documents, or at random.
//! Nothing here uses the reader's layout tables.

mod atmosphere;
mod catalogue;
mod damage;
mod description;
mod extinction;
mod generator;
mod header_text;
mod named;
mod product;
mod random_extinction;
mod shapes;

pub use catalogue::CATALOGUE_NAMES;
pub use description::{state_record, Description, EntryDescription, Number, Setting, StateDescription};
pub use extinction::{
    extinction_entry, extinction_record, time_bytes, PixelDescription, EXTINCTION_PIXELS,
    EXTINCTION_RECORD,
};
pub use generator::Generator;
pub use named::{named_product, wrapping_states, NamedProduct, Request, NAMED_PRODUCTS};
