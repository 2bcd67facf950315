//! Batch driver around the unchanged libfind.
//!
//! stdin: any number of cases, each
//!   flags u8 (1 = check, 2 = a skip amount is given, 4 = also print the table, 8 = only collect the segments,
//!     16 = only search, and list nothing)
//!   minimum, skip (u64 LE each), image length u32 LE, image, library length u32 LE, library
//! stdout: per case one JSON line
//!   {"case":n,"outcome":"ok","ns":..,"rows":[{location,name,goodness,description}..]}
//!   {"case":n,"outcome":"collected","ns":..,"segments":[..]} with flag 8: the segments as shown.rs puts them
//!   {"case":n,"outcome":"searched","ns":..,"placed":[..],"noted":[..]} with flag 16: what shown.rs shows of both lists
//!   {"case":n,"outcome":"unread"|"convert error"|"panic","text":"..","stage":"read|convert|search|list"}
//!   the text of "unread" is "incomplete" where a record's body passes the file's end, else "error .."
//! and, if flag 4 is set and the outcome is ok, the very output of print_segrefs between the lines
//! "\x1eBEGIN n" and "\x1eEND n".
#![allow(dead_code)]
mod libfind;

use libfind::{
    aslink3::shown, omf51::Omf51Objects, print_segrefs, process_segrefs, Pubsymref, RefHashMap, SegmentCollection, Segref,
};
use std::cell::Cell;
use std::collections::HashMap;
use std::convert::TryInto;
use std::io::{Read, Write};
use std::panic::{catch_unwind, AssertUnwindSafe};
use std::time::Instant;

enum Outcome {
    Ok(Vec<Segref>),
    Collected(Vec<serde_json::Value>),
    Searched(serde_json::Value, serde_json::Value),
    Unread(String),
    Convert(&'static str),
}

/// at51 reads the file inside nom's `complete`, which turns "incomplete" into an error of kind
/// Complete that points at the whole file. The same kind from within a record points at its body.
fn unread(e: nom::Err<nom::error::Error<&[u8]>>, library: &[u8]) -> String {
    match e {
        nom::Err::Incomplete(_) => "incomplete".to_string(),
        nom::Err::Error(e) | nom::Err::Failure(e) => {
            if e.code == nom::error::ErrorKind::Complete && e.input.len() == library.len() {
                "incomplete".to_string()
            } else {
                format!("error {:?}", e.code)
            }
        }
    }
}

/// Reading and converting.
fn collect(library: &[u8], stage: &Cell<&'static str>) -> Result<SegmentCollection, Outcome> {
    stage.set("read");
    let objects = Omf51Objects::new(library).map_err(|e| Outcome::Unread(unread(e, library)))?;
    stage.set("convert");
    objects.try_into().map_err(Outcome::Convert)
}

/// Searching alone. The list of positions is so much longer than the image that a symbol placed past the image's end has an
/// entry too, where `find_segments` would else panic: an offset and an address have 16 bits each.
fn search(
    image: &[u8],
    library: &[u8],
    check: bool,
    minimum: usize,
    stage: &Cell<&'static str>,
) -> Result<(Vec<Vec<Pubsymref>>, RefHashMap), Outcome> {
    let collection = collect(library, stage)?;
    stage.set("search");
    let mut cslist = vec![Vec::new(); image.len() + 0x20000];
    let mut rslist = HashMap::new();
    collection.find_segments(image, &mut cslist, &mut rslist, check, minimum);
    Ok((cslist, rslist))
}

fn run(
    image: &[u8],
    library: &[u8],
    check: bool,
    minimum: usize,
    skip: Option<usize>,
    stage: &Cell<&'static str>,
) -> Outcome {
    let collection = match collect(library, stage) {
        Ok(c) => c,
        Err(outcome) => return outcome,
    };
    stage.set("search");
    let mut cslist = vec![Vec::new(); image.len()];
    let mut rslist = HashMap::new();
    collection.find_segments(image, &mut cslist, &mut rslist, check, minimum);
    stage.set("list");
    Outcome::Ok(process_segrefs(&mut cslist, &mut rslist, skip))
}

fn take<'a>(buf: &mut &'a [u8], n: usize) -> &'a [u8] {
    let (a, b) = buf.split_at(n);
    *buf = b;
    a
}

fn u64le(b: &[u8]) -> u64 {
    b.iter().rev().fold(0, |a, x| a << 8 | u64::from(*x))
}

fn main() {
    std::panic::set_hook(Box::new(|_| {}));
    let mut data = Vec::new();
    std::io::stdin().read_to_end(&mut data).unwrap();
    let mut buf: &[u8] = &data;
    let mut case = 0u64;
    while !buf.is_empty() {
        let flags = take(&mut buf, 1)[0];
        let minimum = u64le(take(&mut buf, 8)) as usize;
        let skip_amount = u64le(take(&mut buf, 8)) as usize;
        let n = u64le(take(&mut buf, 4)) as usize;
        let image = take(&mut buf, n);
        let n = u64le(take(&mut buf, 4)) as usize;
        let library = take(&mut buf, n);
        let check = flags & 1 != 0;
        let skip = if flags & 2 != 0 { Some(skip_amount) } else { None };
        let stage = Cell::new("read");
        let start = Instant::now();
        let outcome = catch_unwind(AssertUnwindSafe(|| {
            if flags & 8 != 0 {
                match collect(library, &stage) {
                    Ok(c) => Outcome::Collected(shown::segments(&c)),
                    Err(outcome) => outcome,
                }
            } else if flags & 16 != 0 {
                match search(image, library, check, minimum, &stage) {
                    Ok((cslist, rslist)) => Outcome::Searched(shown::placed(&cslist), shown::noted(&rslist)),
                    Err(outcome) => outcome,
                }
            } else {
                run(image, library, check, minimum, skip, &stage)
            }
        }));
        let ns = start.elapsed().as_nanos() as u64;
        let stage = stage.get();
        let line = match &outcome {
            Ok(Outcome::Ok(rows)) => {
                serde_json::json!({"case": case, "outcome": "ok", "ns": ns, "rows": rows})
            }
            Ok(Outcome::Collected(segments)) => {
                serde_json::json!({"case": case, "outcome": "collected", "ns": ns, "segments": segments})
            }
            Ok(Outcome::Searched(placed, noted)) => {
                serde_json::json!({"case": case, "outcome": "searched", "ns": ns, "placed": placed, "noted": noted})
            }
            Ok(Outcome::Unread(t)) => {
                serde_json::json!({"case": case, "outcome": "unread", "ns": ns, "text": t})
            }
            Ok(Outcome::Convert(t)) => {
                serde_json::json!({"case": case, "outcome": "convert error", "ns": ns, "text": t})
            }
            Err(p) => {
                let text = p
                    .downcast_ref::<String>()
                    .cloned()
                    .or_else(|| p.downcast_ref::<&'static str>().map(|s| s.to_string()))
                    .unwrap_or_default();
                serde_json::json!({"case": case, "outcome": "panic", "ns": ns, "stage": stage, "text": text})
            }
        };
        println!("{}", line);
        if flags & 4 != 0 {
            if let Ok(Outcome::Ok(rows)) = &outcome {
                println!("\x1eBEGIN {}", case);
                print_segrefs(rows);
                println!("\x1eEND {}", case);
            }
        }
        case += 1;
    }
    std::io::stdout().flush().unwrap();
}
