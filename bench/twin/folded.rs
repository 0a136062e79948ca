//! The plain counterpart of `profhouse import --folded`, without proofs, and without the tables: it
//! reads a folded file in pieces of 65,536 bytes, takes their SHA-256, and adds up the counts of equal
//! stacks and of the functions that were running, in hash maps with the standard library's random
//! seeds. It prints the digest, and what there is of each, to be compared with a store.

mod digest;

use digest::Digest;
use std::collections::HashMap;
use std::fs::File;
use std::io::Read;

const PIECE: usize = 65_536;
const LINE_LIMIT: usize = 1_048_576;
const LARGEST: u64 = (1 << 63) - 1;

extern "C" {
    fn memchr(bytes: *const u8, byte: i32, len: usize) -> *const u8;
}

fn find(byte: u8, bytes: &[u8]) -> Option<usize> {
    // Sound: memchr reads within the slice and answers a place in it or null.
    unsafe {
        let found = memchr(bytes.as_ptr(), i32::from(byte), bytes.len());
        (!found.is_null()).then(|| found as usize - bytes.as_ptr() as usize)
    }
}

type Parsed<T> = Result<T, &'static str>;

fn count_of(digits: &[u8]) -> Parsed<u64> {
    if digits.is_empty() || !digits.iter().all(u8::is_ascii_digit) {
        return Err("F19 folded line");
    }
    let mut count = 0u64;
    for digit in digits {
        count = count
            .checked_mul(10)
            .and_then(|n| n.checked_add(u64::from(digit - b'0')))
            .filter(|n| *n <= LARGEST)
            .ok_or("F4 number too large")?;
    }
    Ok(count)
}

/// The function that was running.
fn leaf(stack: &[u8]) -> &[u8] {
    let start = stack.iter().rposition(|b| *b == b';').map_or(0, |at| at + 1);
    let name = &stack[start..];
    if name.is_empty() {
        b"???"
    } else {
        name
    }
}

type Counts = HashMap<Vec<u8>, u128>;

fn merge(counts: &mut Counts, key: &[u8], count: u64) {
    match counts.get_mut(key) {
        Some(sum) => *sum += u128::from(count),
        None => {
            counts.insert(key.to_vec(), u128::from(count));
        }
    }
}

#[derive(Default)]
struct Rows {
    lines: u64,
    stacks: Counts,
    functions: Counts,
    fault: Option<(u64, &'static str)>,
}

impl Rows {
    fn read(&mut self, line: &[u8]) -> Parsed<()> {
        if line.len() > LINE_LIMIT {
            return Err("F1 line too long");
        }
        let line = line.strip_suffix(b"\r").unwrap_or(line);
        if line.is_empty() {
            return Ok(());
        }
        let blank = line.iter().rposition(|b| *b == b' ' || *b == b'\t');
        let end = blank.filter(|end| *end > 0).ok_or("F19 folded line")?;
        let count = count_of(&line[end + 1..])?;
        merge(&mut self.stacks, &line[..end], count);
        merge(&mut self.functions, leaf(&line[..end]), count);
        Ok(())
    }

    fn take(&mut self, line: &[u8]) {
        self.lines += 1;
        if self.fault.is_none() {
            if let Err(fault) = self.read(line) {
                self.fault = Some((self.lines, fault));
            }
        }
    }

    /// Takes the lines that a piece ends, and keeps what is left of it.
    fn feed(&mut self, kept: &mut Vec<u8>, piece: &[u8]) {
        let mut rest = piece;
        while let Some(end) = find(b'\n', rest) {
            if kept.is_empty() {
                self.take(&rest[..end]);
            } else {
                kept.extend_from_slice(&rest[..end]);
                self.take(kept);
                kept.clear();
            }
            rest = &rest[end + 1..];
        }
        if kept.len() <= LINE_LIMIT {
            kept.extend_from_slice(rest);
        }
    }
}

/// How many keys there are with a count, and the sum of the counts.
fn told(counts: &Counts) -> (usize, u128) {
    let some = counts.values().filter(|count| **count > 0);
    (some.clone().count(), some.sum())
}

fn main() -> std::io::Result<()> {
    let path = std::env::args().nth(1).expect("usage: folded FILE");
    let mut file = File::open(path)?;
    let mut buffer = vec![0u8; PIECE];
    let mut kept = Vec::new();
    let mut digest = Digest::new();
    let mut rows = Rows::default();
    loop {
        let count = file.read(&mut buffer)?;
        if count == 0 {
            break;
        }
        digest.add(&buffer[..count]);
        rows.feed(&mut kept, &buffer[..count]);
    }
    if !kept.is_empty() {
        rows.take(&kept);
    }
    if let Some((line, fault)) = rows.fault {
        println!("refused: line {line}: {fault}");
        std::process::exit(1);
    }
    let ((stacks, samples), (functions, leaves)) = (told(&rows.stacks), told(&rows.functions));
    println!("{} {stacks} {samples} {functions} {leaves}", digest.end());
    println!("{:.3}", digest.seconds());
    Ok(())
}
