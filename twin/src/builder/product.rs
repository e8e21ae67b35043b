//! The product that a description describes.

use super::description::{Description, Number};
use super::header_text::{write_descriptor, write_main_header};

impl Description {
    /// The product.
    pub fn build(&self) -> Vec<u8> {
        let mut product = write_main_header(self);
        product.extend_from_slice(&self.sph_lines);
        let mut place = self.headers_end();
        let mut sets = Vec::new();
        for entry in &self.entries {
            let filled = !entry.data.is_empty();
            let numbers = entry.numbers(if filled { place } else { 0 });
            write_descriptor(&mut product, entry, numbers);
            sets.push((numbers[0], &entry.data));
            place += entry.data.len();
        }
        product.resize(place, 0);
        for (offset, data) in sets {
            self.write_set(&mut product, offset, data);
        }
        product.extend_from_slice(&self.after);
        product
    }

    /// Writes a set's bytes at its offset, as far as they lie after the headers and in the room of sets.
    fn write_set(&self, product: &mut [u8], offset: Number, data: &[u8]) {
        let start = if offset.minus { 0 } else { offset.magnitude };
        let from = start.max(self.headers_end() as u128);
        let to = (start + data.len() as u128).min(product.len() as u128);
        if from < to {
            let bytes = &data[(from - start) as usize..(to - start) as usize];
            product[from as usize..to as usize].copy_from_slice(bytes);
        }
    }
}
