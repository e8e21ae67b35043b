//! The library beside the twin, as one program.

mod common;
mod cuts;
mod extinction;
mod fields;
mod file_orders;
mod header_bytes;
mod line_bytes;
mod longest;
mod named;
mod numbers;
mod points;
mod random;
mod short_rooms;
mod spare_bytes;
mod times;
