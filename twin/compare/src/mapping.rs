//! Memory mapped for products that are long but cost nothing, and for products that end where reading on fails.

use std::ffi::{c_int, c_void};

const PROT_NONE: c_int = 0;
const PROT_READ: c_int = 1;
const PROT_WRITE: c_int = 2;
const MAP_PRIVATE: c_int = 0x02;
const MAP_ANONYMOUS: c_int = 0x20;
const MAP_NORESERVE: c_int = 0x4000;
/// A page, or a whole number of them.
const PAGE: usize = 65_536;

extern "C" {
    fn mmap(
        address: *mut c_void,
        length: usize,
        protection: c_int,
        flags: c_int,
        file: c_int,
        offset: i64,
    ) -> *mut c_void;
    fn mprotect(address: *mut c_void, length: usize, protection: c_int) -> c_int;
    fn munmap(address: *mut c_void, length: usize) -> c_int;
}

/// A product in memory mapped for it alone, which can only be read.
pub struct Mapping {
    start: *mut u8,
    mapped: usize,
    place: usize,
    length: usize,
}

impl Mapping {
    /// Zeros behind some first bytes, to a length; only the pages of the first bytes take memory.
    ///
    /// # Panics
    /// Where the system maps no memory, as for all that is made here.
    pub fn beginning_with(bytes: &[u8], length: usize) -> Mapping {
        let mut mapping = Mapping::of_length(length);
        mapping.bytes_mut()[..bytes.len()].copy_from_slice(bytes);
        mapping.protect(0, length, PROT_READ);
        mapping
    }

    /// A copy of a product whose last byte is the last that can be read.
    pub fn ending_at_its_end(product: &[u8]) -> Mapping {
        let pages = product.len().next_multiple_of(PAGE);
        let mut mapping = Mapping::of_length(pages + PAGE);
        mapping.place = pages - product.len();
        mapping.length = product.len();
        mapping.bytes_mut().copy_from_slice(product);
        mapping.protect(0, pages, PROT_READ);
        mapping.protect(pages, PAGE, PROT_NONE);
        mapping
    }

    /// A copy of a product whose first byte is the first that can be read.
    pub fn starting_at_its_start(product: &[u8]) -> Mapping {
        let mut mapping = Mapping::of_length(PAGE + product.len());
        mapping.place = PAGE;
        mapping.length = product.len();
        mapping.bytes_mut().copy_from_slice(product);
        mapping.protect(PAGE, product.len(), PROT_READ);
        mapping.protect(0, PAGE, PROT_NONE);
        mapping
    }

    /// Zeros that can be written.
    fn of_length(length: usize) -> Mapping {
        let flags = MAP_PRIVATE | MAP_ANONYMOUS | MAP_NORESERVE;
        let protection = PROT_READ | PROT_WRITE;
        // Safety: a new mapping takes no address that is in use.
        let start = unsafe { mmap(std::ptr::null_mut(), length, protection, flags, -1, 0) };
        assert!(start as isize != -1, "no memory is mapped for {length} bytes");
        Mapping { start: start.cast(), mapped: length, place: 0, length }
    }

    fn protect(&self, place: usize, length: usize, protection: c_int) {
        if length == 0 {
            return;
        }
        // Safety: the pages are of this mapping, and no one holds a reference into it yet.
        let done = unsafe { mprotect(self.start.add(place).cast(), length, protection) };
        assert_eq!(done, 0, "the mapping is not protected");
    }

    pub fn bytes(&self) -> &[u8] {
        // Safety: the bytes are of this mapping and are not written while it is lent.
        unsafe { std::slice::from_raw_parts(self.start.add(self.place), self.length) }
    }

    fn bytes_mut(&mut self) -> &mut [u8] {
        // Safety: as above; the mapping is not yet protected.
        unsafe { std::slice::from_raw_parts_mut(self.start.add(self.place), self.length) }
    }
}

impl Drop for Mapping {
    fn drop(&mut self) {
        // Safety: it was mapped with this start and length, and no borrow outlives it.
        unsafe { munmap(self.start.cast(), self.mapped) };
    }
}
