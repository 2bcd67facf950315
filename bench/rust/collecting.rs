//! rust-collecting WHAT FILE: as rust-reading (main.rs), for the collection of the segments. It is a program of its own, so that the code that
//! rust-reading executes stays what it is.
//!   load   the file's bytes are loaded, and nothing else is done
//!   read   they are also read as a library, once; what was read is kept and never freed
//!   pick   they are read, and the segments collected; these are kept and never freed, what was read is freed by it
//! Its status is 0, or 1 where the library is refused.
#![allow(dead_code)]
mod libfind;

use libfind::{omf51::Omf51Objects, SegmentCollection};
use std::arch::asm;
use std::convert::TryFrom;

/// What `std::hint::black_box` is for, which Debian's compiler does not have yet: the value must be there.
fn keep<T>(value: &T) {
    unsafe { asm!("/* {0} */", in(reg) value, options(nostack, preserves_flags)) }
}

fn pick(objects: Omf51Objects) {
    match SegmentCollection::try_from(objects) {
        Ok(collection) => {
            keep(&collection);
            std::mem::forget(collection);
        }
        Err(_) => std::process::exit(1),
    }
}

fn main() {
    let words: Vec<String> = std::env::args().collect();
    let library = std::fs::read(&words[2]).expect("the file cannot be loaded");
    keep(&library);
    if words[1] == "load" {
        return;
    }
    match Omf51Objects::new(&library) {
        Ok(objects) => {
            keep(&objects);
            if words[1] == "read" {
                std::mem::forget(objects);
            } else {
                pick(objects);
            }
        }
        Err(_) => std::process::exit(1),
    }
}
