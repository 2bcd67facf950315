//! rust-reading WHAT FILE: one job of the unchanged libfind, so that its instructions can be counted.
//!   load   the file's bytes are loaded, and nothing else is done
//!   read   they are also read as a library, once; what was read is kept and never freed
//!   free   as read, and what was read is freed again
//! Its status is 0, or 1 where the library is refused.
#![allow(dead_code)]
mod libfind;

use libfind::omf51::Omf51Objects;
use std::arch::asm;

/// What `std::hint::black_box` is for, which Debian's compiler does not have yet: the value must be there.
fn keep<T>(value: &T) {
    unsafe { asm!("/* {0} */", in(reg) value, options(nostack, preserves_flags)) }
}

fn main() {
    let words: Vec<String> = std::env::args().collect();
    let library = std::fs::read(&words[2]).expect("the file cannot be loaded");
    keep(&library);
    if words[1] == "load" {
        return;
    }
    match Omf51Objects::new(&library) {
        Ok(objects) => {
            keep(&objects);
            if words[1] == "read" {
                std::mem::forget(objects);
            }
        }
        Err(_) => std::process::exit(1),
    }
}
