//! What the programs that count the search and the list share.
use crate::libfind::{omf51::Omf51Objects, SegmentCollection};
use std::arch::asm;
use std::convert::TryFrom;

/// What `std::hint::black_box` is for, which Debian's compiler does not have yet: the value must be there.
pub fn keep<T>(value: &T) {
    unsafe { asm!("/* {0} */", in(reg) value, options(nostack, preserves_flags)) }
}

/// In the place of the C library's: a `HashMap` asks it for its keys, and how far it has to look for an entry depends on them. With one answer every run counts the same.
#[no_mangle]
pub unsafe extern "C" fn getrandom(buffer: *mut u8, length: usize, _flags: u32) -> isize {
    std::ptr::write_bytes(buffer, 0x5a, length);
    length as isize
}

pub fn collected(library: &[u8]) -> Option<SegmentCollection> {
    SegmentCollection::try_from(Omf51Objects::new(library).ok()?).ok()
}
