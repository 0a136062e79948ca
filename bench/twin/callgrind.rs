//! Reads a Callgrind file in plain Rust, without proofs, for the twins: in pieces, line by line. It
//! resolves identifiers in three name spaces, follows positions, keeps the names in force, and hands
//! records to a sink.

use std::collections::HashMap;
use std::fs::File;
use std::io::{self, Read};

const PIECE: usize = 65_536;
const LINE_LIMIT: usize = 1_048_576;
const LARGEST: u64 = (1 << 63) - 1;

extern "C" {
    fn memchr(bytes: *const u8, byte: i32, len: usize) -> *const u8;
}

fn find(byte: u8, bytes: &[u8]) -> Option<usize> {
    // Sound: memchr reads within the slice and answers a place in it or null.
    unsafe {
        let found = memchr(bytes.as_ptr(), i32::from(byte), bytes.len());
        (!found.is_null()).then(|| found as usize - bytes.as_ptr() as usize)
    }
}

type Parsed<T> = Result<T, &'static str>;

fn is_blank(b: u8) -> bool {
    b == b' ' || b == b'\t'
}

fn trim_start(mut text: &[u8]) -> &[u8] {
    while let [first, rest @ ..] = text {
        if !is_blank(*first) {
            break;
        }
        text = rest;
    }
    text
}

fn trim_end(mut text: &[u8]) -> &[u8] {
    while let [rest @ .., last] = text {
        if !is_blank(*last) {
            break;
        }
        text = rest;
    }
    text
}

fn next_field(text: &[u8]) -> Option<(&[u8], &[u8])> {
    let text = trim_start(text);
    if text.is_empty() {
        return None;
    }
    let end = text.iter().position(|b| is_blank(*b)).unwrap_or(text.len());
    Some(text.split_at(end))
}

fn digit(base: u64, b: u8) -> Option<u64> {
    let digit = match b {
        b'0'..=b'9' => b - b'0',
        b'a'..=b'f' => b - b'a' + 10,
        b'A'..=b'F' => b - b'A' + 10,
        _ => return None,
    };
    Some(u64::from(digit)).filter(|d| *d < base)
}

fn digits(base: u64, digits: &[u8]) -> Parsed<u64> {
    if digits.is_empty() {
        return Err("bad number");
    }
    let mut value = 0u64;
    for b in digits {
        let digit = digit(base, *b).ok_or("bad number")?;
        value = value
            .checked_mul(base)
            .and_then(|v| v.checked_add(digit))
            .ok_or("number too large")?;
    }
    Ok(value)
}

fn number(field: &[u8]) -> Parsed<u64> {
    match field {
        [b'0', b'x', rest @ ..] => digits(16, rest),
        _ => digits(10, field),
    }
}

fn amount(field: &[u8]) -> Parsed<u64> {
    match number(field)? {
        n if n <= LARGEST => Ok(n),
        _ => Err("number too large"),
    }
}

fn position(field: &[u8], before: u64, largest: u64) -> Parsed<u64> {
    let next = match field {
        [b'+', rest @ ..] => before.checked_add(number(rest)?),
        [b'-', rest @ ..] => before.checked_sub(number(rest)?),
        b"*" => Some(before),
        _ => Some(number(field)?),
    };
    next.filter(|n| *n <= largest).ok_or("position range")
}

/// A place by its names.
pub struct Place<'a> {
    pub object: &'a [u8],
    pub file: &'a [u8],
    pub function: &'a [u8],
    pub line: u64,
}

/// Takes the records of a file.
pub trait Sink {
    /// Own costs at a place.
    fn own(&mut self, place: Place, costs: &[u64]);

    /// So many calls from a place to another function, whose line is 0.
    fn call(&mut self, place: Place, called: Place, count: u64, costs: &[u64]);
}

/// The names of a name space: what identifiers mean, and the names in force.
struct Space {
    texts: HashMap<u64, Vec<u8>>,
    own: Vec<u8>,
    called: Option<Vec<u8>>,
}

impl Default for Space {
    fn default() -> Space {
        Space {
            texts: HashMap::new(),
            own: b"???".to_vec(),
            called: None,
        }
    }
}

enum Role {
    Own,
    Called,
    Jumped,
}

fn set(target: &mut Vec<u8>, text: &[u8]) {
    target.clear();
    target.extend_from_slice(text);
}

impl Space {
    fn give(&mut self, role: &Role, text: &[u8]) {
        match role {
            Role::Own => set(&mut self.own, text),
            Role::Called => set(self.called.get_or_insert_with(Vec::new), text),
            Role::Jumped => {}
        }
    }

    fn take(&mut self, role: &Role, value: &[u8]) -> Parsed<()> {
        let value = trim_start(value);
        if let [b'(', inside @ ..] = value {
            if let Some(end) = find(b')', inside) {
                if let Ok(id) = number(&inside[..end]) {
                    let text = trim_start(&inside[end + 1..]);
                    return self.identified(role, id, text);
                }
            }
        }
        self.give(role, if value.is_empty() { b"???" } else { value });
        Ok(())
    }

    fn identified(&mut self, role: &Role, id: u64, text: &[u8]) -> Parsed<()> {
        if !text.is_empty() {
            match self.texts.get(&id) {
                Some(before) if before != text => return Err("identifier redefined"),
                Some(_) => {}
                None => {
                    self.texts.insert(id, text.to_vec());
                }
            }
            self.give(role, text);
            return Ok(());
        }
        let text = self.texts.get(&id).ok_or("unknown identifier")?;
        match role {
            Role::Own => set(&mut self.own, text),
            Role::Called => set(self.called.get_or_insert_with(Vec::new), text),
            Role::Jumped => {}
        }
        Ok(())
    }
}

#[derive(Clone, Copy, PartialEq)]
enum Layout {
    Line,
    InstrLine,
    Instr,
}

/// Reads a file in pieces, and hands its records to a sink.
#[derive(Default)]
pub struct Reader<S> {
    pub lines: u64,
    pub events: Option<Vec<Vec<u8>>>,
    pub sink: S,
    kept: Vec<u8>,
    layout: Option<Layout>,
    objects: Space,
    files: Space,
    functions: Space,
    address: u64,
    line: u64,
    call: Option<u64>,
    row: Vec<u64>,
}

impl<S: Sink> Reader<S> {
    fn layout(&self) -> Layout {
        self.layout.unwrap_or(Layout::Line)
    }

    fn header(&mut self, key: &[u8], value: &[u8]) -> Parsed<()> {
        let mut fields = Vec::new();
        let mut rest = value;
        if matches!(key, b"events" | b"positions" | b"version" | b"summary" | b"totals") {
            while let Some((field, more)) = next_field(rest) {
                fields.push(field);
                rest = more;
            }
        }
        match key {
            b"events" => {
                let names: Vec<Vec<u8>> = fields.iter().map(|f| f.to_vec()).collect();
                match &self.events {
                    Some(earlier) if *earlier != names => return Err("events changed"),
                    _ => {}
                }
                self.events = Some(names);
            }
            b"positions" => {
                let form = match fields.as_slice() {
                    [b"line"] => Layout::Line,
                    [b"instr", b"line"] => Layout::InstrLine,
                    [b"instr"] => Layout::Instr,
                    _ => return Err("positions form"),
                };
                if self.layout.is_some_and(|l| l != form) {
                    return Err("positions form");
                }
                self.layout = Some(form);
            }
            b"summary" | b"totals" => {
                for field in fields {
                    amount(field)?;
                }
            }
            _ => {}
        }
        Ok(())
    }

    fn name(&mut self, word: &[u8], value: &[u8]) -> Parsed<bool> {
        match word {
            b"ob" => self.objects.take(&Role::Own, value)?,
            b"cob" => self.objects.take(&Role::Called, value)?,
            b"fl" | b"fi" | b"fe" => self.files.take(&Role::Own, value)?,
            b"cfi" | b"cfl" => self.files.take(&Role::Called, value)?,
            b"jfi" => self.files.take(&Role::Jumped, value)?,
            b"fn" => self.functions.take(&Role::Own, value)?,
            b"cfn" => self.functions.take(&Role::Called, value)?,
            b"jfn" => self.functions.take(&Role::Jumped, value)?,
            _ => return Ok(false),
        }
        Ok(true)
    }

    fn places<'a>(&mut self, text: &'a [u8]) -> Parsed<&'a [u8]> {
        let mut rest = text;
        let layout = self.layout();
        if layout != Layout::Line {
            let (field, more) = next_field(rest).ok_or("short line")?;
            self.address = position(field, self.address, u64::MAX)?;
            rest = more;
        }
        if layout != Layout::Instr {
            let (field, more) = next_field(rest).ok_or("short line")?;
            self.line = position(field, self.line, LARGEST)?;
            rest = more;
        }
        Ok(rest)
    }

    fn cost(&mut self, text: &[u8]) -> Parsed<()> {
        let count = self.events.as_ref().ok_or("no events")?.len();
        let mut rest = self.places(text)?;
        self.row.clear();
        while let Some((field, more)) = next_field(rest) {
            self.row.push(amount(field)?);
            rest = more;
        }
        if self.row.len() > count {
            return Err("too many costs");
        }
        self.row.resize(count, 0);
        self.hand_on();
        Ok(())
    }

    /// Hands on the record of a cost line.
    fn hand_on(&mut self) {
        let place = Place {
            object: &self.objects.own,
            file: &self.files.own,
            function: &self.functions.own,
            line: if self.layout() == Layout::Instr { 0 } else { self.line },
        };
        let Some(count) = self.call.take() else {
            self.sink.own(place, &self.row);
            return;
        };
        let called = Place {
            object: self.objects.called.as_deref().unwrap_or(place.object),
            file: self.files.called.as_deref().unwrap_or(place.file),
            function: self.functions.called.as_deref().unwrap_or(b"???"),
            line: 0,
        };
        self.sink.call(place, called, count, &self.row);
        for space in [&mut self.objects, &mut self.files, &mut self.functions] {
            space.called = None;
        }
    }

    fn calls(&mut self, value: &[u8]) -> Parsed<()> {
        let (field, mut rest) = next_field(value).ok_or("short line")?;
        self.call = Some(amount(field)?);
        let targets = if self.layout() == Layout::InstrLine { 2 } else { 1 };
        for _ in 0..targets {
            let (field, more) = next_field(rest).ok_or("short line")?;
            position(field, 1 << 62, u64::MAX)?;
            rest = more;
        }
        Ok(())
    }

    fn take(&mut self, line: &[u8]) -> Parsed<()> {
        self.lines += 1;
        if line.len() > LINE_LIMIT {
            return Err("line too long");
        }
        let line = line.strip_suffix(b"\r").unwrap_or(line);
        let text = trim_end(trim_start(line));
        match text {
            [] | [b'#', ..] => Ok(()),
            [b'0'..=b'9' | b'+' | b'-' | b'*', ..] => self.cost(text),
            _ => self.worded(text),
        }
    }

    fn worded(&mut self, text: &[u8]) -> Parsed<()> {
        if self.call.is_some() {
            return Err("call without cost");
        }
        let end = text
            .iter()
            .position(|b| !b.is_ascii_alphabetic())
            .ok_or("unknown line")?;
        let (word, value) = (&text[..end], &text[end + 1..]);
        match text[end] {
            b':' if end > 0 => self.header(word, value),
            b'=' if word == b"calls" => self.calls(value),
            b'=' if word == b"jump" || word == b"jcnd" => Ok(()),
            b'=' if self.name(word, value)? => Ok(()),
            _ => Err("unknown line"),
        }
    }

    fn feed(&mut self, piece: &[u8]) -> Parsed<()> {
        let mut rest = piece;
        while let Some(end) = find(b'\n', rest) {
            if self.kept.is_empty() {
                self.take(&rest[..end])?;
            } else {
                let mut line = std::mem::take(&mut self.kept);
                line.extend_from_slice(&rest[..end]);
                self.take(&line)?;
                line.clear();
                self.kept = line;
            }
            rest = &rest[end + 1..];
        }
        self.kept.extend_from_slice(rest);
        Ok(())
    }

    fn finish(&mut self) -> Parsed<()> {
        let line = std::mem::take(&mut self.kept);
        if line.is_empty() {
            return Ok(());
        }
        self.take(&line)
    }

    fn refuse(&self, fault: &str) -> ! {
        println!("refused: line {}: {fault}", self.lines);
        std::process::exit(1)
    }

    /// Reads the file at a path to its end, and shows each piece first. A fault of the file ends the
    /// program.
    pub fn read_file(&mut self, path: &str, mut show: impl FnMut(&[u8])) -> io::Result<()> {
        let mut file = File::open(path)?;
        let mut buffer = vec![0; PIECE];
        loop {
            let n = file.read(&mut buffer)?;
            if n == 0 {
                break;
            }
            show(&buffer[..n]);
            if let Err(fault) = self.feed(&buffer[..n]) {
                self.refuse(fault);
            }
        }
        if let Err(fault) = self.finish() {
            self.refuse(fault);
        }
        Ok(())
    }
}
