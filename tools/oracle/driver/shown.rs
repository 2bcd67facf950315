//! What the Rust collected, as JSON: all that its segments hold; and what its search left in its two lists.
use crate::libfind::{CodeRef, Fixup, Pubsymref, RefHashMap, RefKind, RefType, SegType, Segment, SegmentCollection};
use serde_json::{json, Value};

/// How a fixup makes an address is a function, so its kind is told by what that function makes of two bytes.
fn kind(fixup: &Fixup) -> &'static str {
    match (fixup.size, (fixup.addr_fun)(&[0x12, 0x34], 0xf000)) {
        (1, 0xf013) => "Relative",
        (2, 0x1234) => "Word",
        (2, 0xf034) => "Inblock",
        _ => "another",
    }
}

fn goal(code_ref: &CodeRef) -> Value {
    match &code_ref.reftype {
        RefType::SegId(number) => json!(number),
        RefType::Pubname(name) => json!(name),
    }
}

fn reference(fixup: &Fixup) -> Value {
    json!([fixup.refloc, kind(fixup), fixup.code_ref.offset, goal(&fixup.code_ref)])
}

/// The address of an absolute segment, or null; pattern bytes; masks; references (place, kind, offset, and a segment's
/// number or a name); symbols (name, offset).
fn segment(s: &Segment) -> Value {
    let address = match s.segtype {
        SegType::Absolute(at) => Some(at),
        SegType::Relocatable => None,
    };
    let (bytes, masks): (Vec<u8>, Vec<u8>) = s.content_mask.iter().copied().unzip();
    let references: Vec<Value> = s.fixup.iter().map(reference).collect();
    json!([address, bytes, masks, references, s.pubsyms])
}

pub fn segments(collection: &SegmentCollection) -> Vec<Value> {
    collection.segments.iter().map(segment).collect()
}

/// The positions that have symbols, ascending; of each symbol, in the order pushed, name, validity, and what its match noted
/// (target and name).
pub fn placed(cslist: &[Vec<Pubsymref>]) -> Value {
    let symbol = |s: &Pubsymref| json!([s.name, s.valid, s.refs]);
    let at = |(position, symbols): (usize, &Vec<Pubsymref>)| json!([position, symbols.iter().map(symbol).collect::<Vec<_>>()]);
    let some = cslist.iter().enumerate().filter(|(_, symbols)| !symbols.is_empty());
    Value::Array(some.map(at).collect())
}

/// The targets, ascending; of each name, in the order noted, its validity.
pub fn noted(rslist: &RefHashMap) -> Value {
    let mut targets: Vec<_> = rslist.iter().collect();
    targets.sort_by_key(|(target, _)| **target);
    let name = |(name, kind): &(String, RefKind)| json!([name, *kind == RefKind::Valid]);
    let at = |(target, names): (&usize, &Vec<(String, RefKind)>)| json!([target, names.iter().map(name).collect::<Vec<_>>()]);
    Value::Array(targets.into_iter().map(at).collect())
}
