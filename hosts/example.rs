// example FILE: the tags of a PAG file whose bits are high first, a line each: code, state and values, an opaque body byte by byte. docs/HOSTS.md says how to build it.
use std::process::exit;

// The answer of pag.h: reason 0 means accepted, and the number is the count.
#[repr(C)]
struct PagAnswer {
    reason: u32,
    number: u64,
}

const ACCEPTED: u32 = 0;
const TABLE_TOO_SHORT: u32 = 19;
const LEVEL: u32 = 1023;
const HIGH_FIRST: u32 = 0; // 1: low first

#[link(name = "pag", kind = "static")]
extern "C" {
    fn pag_read(level: u32, order: u32, file: *const u8, file_len: usize, table: *mut u64, table_len: usize) -> PagAnswer;
}

/// Reads a file into a table: its numbers, or the reason and its number.
fn read(level: u32, order: u32, file: &[u8]) -> Result<Vec<u64>, PagAnswer> {
    let mut table = Vec::new();
    loop {
        // Sound for every input: both slices are valid for their lengths, and a Vec overlaps nothing.
        let answer = unsafe { pag_read(level, order, file.as_ptr(), file.len(), table.as_mut_ptr(), table.len()) };
        match answer.reason {
            ACCEPTED => return Ok(table),
            TABLE_TOO_SHORT => table.resize(answer.number as usize, 0),
            _ => return Err(answer),
        }
    }
}

/// The body of an opaque tag, copied out of its values: its length, and then eight bytes to a number, the lowest first.
fn body(values: &[u64]) -> Vec<u8> {
    values[1..].iter().flat_map(|number| number.to_le_bytes()).take(values[0] as usize).collect()
}

/// A line for each tag: its numbers are its code, its state, the count of its values, and the values. A tag with an even state is opaque.
fn print_tags(mut tags: &[u64]) {
    while let [code, state, count, rest @ ..] = tags {
        let (values, behind) = rest.split_at(*count as usize);
        let shown = if state % 2 == 0 { body(values).into_iter().map(u64::from).collect() } else { values.to_vec() };
        print!("{code}\t{state}");
        shown.iter().for_each(|number| print!("\t{number}"));
        println!();
        tags = behind;
    }
}

fn main() {
    let name = std::env::args().nth(1).unwrap_or_else(|| {
        eprintln!("usage: example FILE");
        exit(2);
    });
    let file = std::fs::read(&name).unwrap_or_else(|why| {
        eprintln!("{name}: {why}");
        exit(2);
    });
    match read(LEVEL, HIGH_FIRST, &file) {
        Ok(table) => print_tags(&table[1..]), // the first is the compression byte
        Err(answer) => {
            println!("refused\t{}\t{}", answer.reason, answer.number);
            exit(1);
        }
    }
}
