//! rust-listing WHAT CHECK MINIMUM SKIP IMAGE LIBRARY: as rust-searching (searching.rs), for the list of what the search found; SKIP is `none` or the skip amount.
//!   find   as there
//!   list   what was found is also listed: `process_segrefs`; the list is kept and never freed
//!   text   the list is also printed: `print_segrefs`
//!   show   as list, and how many symbols were placed, names noted and lines listed is printed
//! What `list` executes more than `find` is the listing, with the descriptions that it makes; what `text` executes more than `list` is the printing, a line at a time.
//! The list of positions is as long as the image, as `read_libraries` makes it.
#![allow(dead_code)]
mod libfind;
mod searched;

use libfind::{print_segrefs, process_segrefs, Pubsymref, RefHashMap};
use searched::{collected, keep};

fn main() {
    let words: Vec<String> = std::env::args().collect();
    let check = words[2] == "1";
    let minimum = words[3].parse().expect("no number");
    let skip = words[4].parse().ok();
    let image = std::fs::read(&words[5]).expect("the image cannot be loaded");
    let library = std::fs::read(&words[6]).expect("the library cannot be loaded");
    let collection = match collected(&library) {
        Some(collection) => collection,
        None => std::process::exit(1),
    };
    let mut placed: Vec<Vec<Pubsymref>> = vec![Vec::new(); image.len()];
    let mut noted: RefHashMap = RefHashMap::new();
    collection.find_segments(&image, &mut placed, &mut noted, check, minimum);
    keep(&placed);
    keep(&noted);
    if words[1] != "find" {
        let lines = process_segrefs(&mut placed, &mut noted, skip);
        keep(&lines);
        if words[1] == "text" {
            print_segrefs(&lines);
        }
        if words[1] == "show" {
            let symbols: usize = placed.iter().map(Vec::len).sum();
            let names: usize = noted.values().map(Vec::len).sum();
            println!("{} placed, {} noted, {} lines", symbols, names, lines.len());
        }
        std::mem::forget(lines);
    }
    std::mem::forget(placed);
    std::mem::forget(noted);
}
