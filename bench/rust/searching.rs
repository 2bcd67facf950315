//! rust-searching WHAT CHECK MINIMUM IMAGE LIBRARY: as rust-collecting (collecting.rs), for the search of an image; CHECK is 1 or 0.
//!   pick   both files are loaded, the library read, and its segments collected
//!   make   the two lists that are filled are also made, as `read_libraries` makes them but for one entry
//!   find   the image is also searched: `find_segments`, which frees the segments at its end; what it found is kept and never freed
//!   show   as find, and how many symbols were placed and names noted is printed
//! What `find` executes more than `make` is the search.
//! The list of symbols is one entry longer than the image: without it an empty segment with a symbol ends in a panic, since it matches at the image's end too.
//! Its status is 0, or 1 where the library is refused.
#![allow(dead_code)]
mod libfind;
mod searched;

use libfind::{Pubsymref, RefHashMap};
use searched::{collected, keep};

fn main() {
    let words: Vec<String> = std::env::args().collect();
    let check = words[2] == "1";
    let minimum = words[3].parse().expect("no number");
    let image = std::fs::read(&words[4]).expect("the image cannot be loaded");
    let library = std::fs::read(&words[5]).expect("the library cannot be loaded");
    let collection = match collected(&library) {
        Some(collection) => collection,
        None => std::process::exit(1),
    };
    keep(&collection);
    if words[1] == "pick" {
        std::mem::forget(collection);
        return;
    }
    let mut placed: Vec<Vec<Pubsymref>> = vec![Vec::new(); image.len() + 1];
    let mut noted: RefHashMap = RefHashMap::new();
    keep(&placed);
    keep(&noted);
    if words[1] == "make" {
        std::mem::forget(collection);
    } else {
        collection.find_segments(&image, &mut placed, &mut noted, check, minimum);
        keep(&placed);
        keep(&noted);
    }
    if words[1] == "show" {
        let symbols: usize = placed[..image.len()].iter().map(Vec::len).sum();
        let names: usize = noted.values().map(Vec::len).sum();
        println!("{} placed, {} noted", symbols, names);
    }
    std::mem::forget(placed);
    std::mem::forget(noted);
}
