//! Memory between two pages that must not be touched: a read or a write past a lent slice ends the program.

use std::ffi::{c_int, c_long, c_void};
use std::marker::PhantomData;
use std::ptr::null_mut;
use std::slice::from_raw_parts_mut;

const PAGE: usize = 4096;

// The C library's, on Linux.
const NO_ACCESS: c_int = 0;
const READ_WRITE: c_int = 3;
const PRIVATE_ANONYMOUS: c_int = 0x22;

extern "C" {
    fn mmap(
        address: *mut c_void,
        length: usize,
        protection: c_int,
        flags: c_int,
        file: c_int,
        offset: c_long,
    ) -> *mut c_void;
    fn mprotect(address: *mut c_void, length: usize, protection: c_int) -> c_int;
}

/// Room for items, with a forbidden page before it and one after it. Kept until the program ends.
pub struct Guarded<T> {
    start: *mut u8,
    bytes: usize,
    items: PhantomData<T>,
}

impl<T: Copy> Guarded<T> {
    /// Room for at least so many items.
    pub fn new(items: usize) -> Self {
        let bytes = (items * size_of::<T>()).next_multiple_of(PAGE);
        let whole = bytes + 2 * PAGE;
        // Anonymous pages at an address of the system's choice: no other memory is concerned.
        let start = unsafe {
            let mapped = mmap(null_mut(), whole, NO_ACCESS, PRIVATE_ANONYMOUS, -1, 0);
            assert!(mapped as isize != -1, "no memory");
            let start = mapped.cast::<u8>().add(PAGE);
            assert_eq!(mprotect(start.cast(), bytes, READ_WRITE), 0, "no memory");
            start
        };
        Guarded { start, bytes, items: PhantomData }
    }

    /// A slice with these items that ends at the forbidden page, or begins at the other one.
    pub fn hold(&mut self, items: &[T], at_end: bool) -> &mut [T] {
        let bytes = size_of_val(items);
        assert!(bytes <= self.bytes);
        let offset = if at_end { self.bytes - bytes } else { 0 };
        // Within the room, aligned to the items, and borrowed as long as the slice is.
        let slice = unsafe { from_raw_parts_mut(self.start.add(offset).cast::<T>(), items.len()) };
        slice.copy_from_slice(items);
        slice
    }
}
