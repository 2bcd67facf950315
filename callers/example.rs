// example IMAGE LIBRARY found|documented EDITION DEPTH: prints where the names of the library stand in the image, as `sillmarble list` does with nothing else
// said. Status 0: printed. 1: refused, and standard error has the number. 2: wrong usage, or a file that cannot be read.
use std::io::Write;
use std::process::exit;

// As libfind.h has it: a slice is a pointer and a length.
extern "C" {
    fn sillmarble_find(
        image: *const u8, in_image: usize,
        library: *const u8, in_library: usize,
        rules: u64, edition: u64, depth: u64, minimum: usize,
        skips: bool, amount: usize,
        withheld: *const u64, in_withheld: usize,
        counts: *mut u64, in_counts: usize,
        segments: *mut u64, in_segments: usize,
        references: *mut u64, in_references: usize,
        symbols: *mut u64, in_symbols: usize,
        bytes: *mut u8, in_bytes: usize,
        masks: *mut u8, in_masks: usize,
        placed: *mut u64, in_placed: usize,
        noted: *mut u64, in_noted: usize,
        lines: *mut u64, in_lines: usize,
    ) -> u8;
    fn sillmarble_print_heading(out: *mut u8, in_out: usize) -> usize;
    fn sillmarble_print_line(
        library: *const u8, in_library: usize,
        lines: *const u64, in_lines: usize, i: usize,
        out: *mut u8, in_out: usize,
    ) -> usize;
    fn sillmarble_row_width(list: usize) -> usize;
}

// The lent lists that rows are left in, by their numbers in libfind.h.
const SEGMENTS: usize = 0;
const REFERENCES: usize = 1;
const SYMBOLS: usize = 2;
const PLACED: usize = 5;
const NOTED: usize = 6;
const LINES: usize = 7;

// No stretch is withheld.
const NOTHING: [u64; 2] = [0, 0];

// The number that a run with minimum 3, no skip amount and nothing withheld comes to, and what is left: how many lines there are, and their rows.
fn find(image: &[u8], library: &[u8], rules: u64, edition: u64, depth: u64) -> (u8, usize, Vec<u64>) {
    let room = |list: usize, rows: usize| vec![0u64; rows * unsafe { sillmarble_row_width(list) }];
    let (mut segments, mut references, mut symbols) = (room(SEGMENTS, 20000), room(REFERENCES, 40000), room(SYMBOLS, 20000));
    let (mut placed, mut noted, mut lines) = (room(PLACED, 20000), room(NOTED, 20000), room(LINES, 40000));
    let (mut bytes, mut masks) = (vec![0u8; 1 << 20], vec![0u8; 1 << 20]);
    let mut counts = [0u64; 7];
    let number = unsafe {
        sillmarble_find(
            image.as_ptr(), image.len(), library.as_ptr(), library.len(), rules, edition, depth, 3, false, 0, NOTHING.as_ptr(), 0, counts.as_mut_ptr(), counts.len(),
            segments.as_mut_ptr(), segments.len(), references.as_mut_ptr(), references.len(), symbols.as_mut_ptr(), symbols.len(),
            bytes.as_mut_ptr(), bytes.len(), masks.as_mut_ptr(), masks.len(), placed.as_mut_ptr(), placed.len(), noted.as_mut_ptr(), noted.len(),
            lines.as_mut_ptr(), lines.len(),
        )
    };
    (number, counts[6] as usize, lines)
}

// The list, through a buffer that has room for one line.
fn text(library: &[u8], lines: &[u64], n: usize) -> Vec<u8> {
    let mut out = [0u8; 512];
    let size = unsafe { sillmarble_print_heading(out.as_mut_ptr(), out.len()) };
    let mut all = out[..size].to_vec();
    for i in 0..n {
        let size = unsafe { sillmarble_print_line(library.as_ptr(), library.len(), lines.as_ptr(), lines.len(), i, out.as_mut_ptr(), out.len()) };
        all.extend_from_slice(&out[..size]);
    }
    all
}

fn loaded(word: Option<&String>) -> Option<Vec<u8>> {
    std::fs::read(word?).ok()
}

fn number(word: Option<&String>) -> Option<u64> {
    word?.parse().ok()
}

fn run(words: Vec<String>) -> i32 {
    match (loaded(words.get(1)), loaded(words.get(2)), words.get(3), number(words.get(4)), number(words.get(5))) {
        (Some(image), Some(library), Some(rules), Some(edition), Some(depth)) => list(&image, &library, u64::from(rules != "found"), edition, depth),
        _ => {
            eprintln!("usage: example IMAGE LIBRARY found|documented EDITION DEPTH");
            2
        }
    }
}

fn list(image: &[u8], library: &[u8], rules: u64, edition: u64, depth: u64) -> i32 {
    let (number, n, lines) = find(image, library, rules, edition, depth);
    if number != 0 {
        eprintln!("refused ({})", number);
        return 1;
    }
    if std::io::stdout().write_all(&text(library, &lines, n)).is_ok() { 0 } else { 2 }
}

// A thread of Rust's has 2 MiB of stack where nothing is said, and a run takes nearly 4 MiB.
fn main() {
    let thread = std::thread::Builder::new().stack_size(5 << 20).spawn(|| run(std::env::args().collect()));
    exit(thread.expect("a thread").join().expect("an answer"));
}
