//! The tests of the reader, as one program.

mod cases;
mod common;
mod descriptors;
mod extinction;
mod header_text;
mod listing;
mod programs;
mod random;
mod ranks;
mod records;
mod rule_by_rule;
mod sets;
mod settings;
mod sph_lines;
mod states;
mod stored;
mod times;
mod words;
