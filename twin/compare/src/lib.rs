//! The proved library beside the twin: every public call asked of both, and what they write compared.

mod comparing;
mod empty_sets;
mod file_order;
mod header_numbers;
pub mod library;
mod mapping;
mod met;
mod product_calls;
mod report;
mod rooms;
mod shares;

pub use comparing::Comparer;
pub use header_numbers::{header_ends, number_fields, NumberField};
pub use mapping::Mapping;
pub use met::{ByNumber, Met};
pub use report::report_of_product;
pub use rooms::Lengths;
pub use shares::shared_out;
