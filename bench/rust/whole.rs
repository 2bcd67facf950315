//! rust-whole WHAT CHECK MINIMUM SKIP IMAGE LIBRARY: the whole run, as at51 does it; CHECK is 1 or 0, SKIP is `none` or the skip amount.
//!   load   both files are loaded, and nothing else is done
//!   find   the library is also read and converted, its segments searched for (`find_segments`, which frees them), and what was found listed (`process_segrefs`); what was
//!          found and the list are kept and never freed, what was read is freed on the way
//!   show   as find, and how many symbols were placed, names noted and lines listed is printed
//! What `find` executes more than `load` is the run without its printing. The list of positions is as long as the image, as `read_libraries` makes it.
//! Its status is 0, or 1 where the library is refused.
#![allow(dead_code)]
mod libfind;
mod searched;

use libfind::{process_segrefs, Pubsymref, RefHashMap};
use searched::{collected, keep};

fn main() {
    let words: Vec<String> = std::env::args().collect();
    let check = words[2] == "1";
    let minimum = words[3].parse().expect("no number");
    let skip = words[4].parse().ok();
    let image = std::fs::read(&words[5]).expect("the image cannot be loaded");
    let library = std::fs::read(&words[6]).expect("the library cannot be loaded");
    keep(&image);
    keep(&library);
    if words[1] == "load" {
        std::mem::forget(image);
        std::mem::forget(library);
        return;
    }
    let mut placed: Vec<Vec<Pubsymref>> = vec![Vec::new(); image.len()];
    let mut noted: RefHashMap = RefHashMap::new();
    match collected(&library) {
        Some(collection) => collection.find_segments(&image, &mut placed, &mut noted, check, minimum),
        None => std::process::exit(1),
    }
    let lines = process_segrefs(&mut placed, &mut noted, skip);
    keep(&lines);
    if words[1] == "show" {
        let symbols: usize = placed.iter().map(Vec::len).sum();
        let names: usize = noted.values().map(Vec::len).sum();
        println!("{} placed, {} noted, {} lines", symbols, names, lines.len());
    }
    std::mem::forget((image, library, placed, noted, lines));
}
