//! The plain counterpart of `profhouse import`, without proofs, and without the tables: it reads a
//! Callgrind file in pieces of 65,536 bytes, takes their SHA-256, interns names and merges records in
//! hash maps with the standard library's random seeds, or in ordered maps, if it is built with
//! `--cfg ordered`. It prints the digest, and what the rows come to, to be compared with a store.

mod callgrind;
mod digest;

use callgrind::{Place, Reader, Sink};
use digest::Digest;
#[cfg(ordered)]
use std::collections::BTreeMap as Map;
#[cfg(not(ordered))]
use std::collections::HashMap as Map;

#[derive(Default)]
struct Names {
    names: Vec<Vec<u8>>,
    numbers: Map<Vec<u8>, u32>,
}

impl Names {
    /// The number of a name. The one that it is thought to have costs no look-up.
    fn number(&mut self, guess: u32, name: &[u8]) -> u32 {
        if self.names.get(guess as usize).is_some_and(|held| held == name) {
            return guess;
        }
        if let Some(number) = self.numbers.get(name) {
            return *number;
        }
        let number = u32::try_from(self.names.len()).expect("fewer than 2^32 names");
        self.names.push(name.to_vec());
        self.numbers.insert(name.to_vec(), number);
        number
    }

    fn key(&mut self, guess: Key, place: &Place) -> Key {
        Key {
            object: self.number(guess.object, place.object),
            file: self.number(guess.file, place.file),
            function: self.number(guess.function, place.function),
            line: place.line,
        }
    }
}

#[derive(Clone, Copy, Default, PartialEq, Eq, PartialOrd, Ord, Hash)]
struct Key {
    object: u32,
    file: u32,
    function: u32,
    line: u64,
}

fn add(sums: &mut Vec<u128>, costs: &[u64]) {
    if sums.len() < costs.len() {
        sums.resize(costs.len(), 0);
    }
    for (sum, cost) in sums.iter_mut().zip(costs) {
        *sum += u128::from(*cost);
    }
}

#[derive(Default)]
struct Calls {
    count: u128,
    costs: Vec<u128>,
}

#[derive(Default)]
struct Rows {
    names: Names,
    cells: Map<Key, Vec<u128>>,
    arcs: Map<(Key, Key), Calls>,
    recent: Key,
    recent_call: (Key, Key),
}

impl Sink for Rows {
    fn own(&mut self, place: Place, costs: &[u64]) {
        let key = self.names.key(self.recent, &place);
        self.recent = key;
        add(self.cells.entry(key).or_default(), costs);
    }

    fn call(&mut self, place: Place, called: Place, count: u64, costs: &[u64]) {
        let (guess, guess_called) = self.recent_call;
        let key = self.names.key(guess, &place);
        let called = self.names.key(guess_called, &called);
        self.recent_call = (key, called);
        let calls = self.arcs.entry((key, called)).or_default();
        calls.count += u128::from(count);
        add(&mut calls.costs, costs);
    }
}

/// How many rows there are, as a store has them, and what they add up to.
fn print_sums(rows: &Rows, digest: &str) {
    let costs = rows.cells.values().flatten().filter(|cost| **cost > 0);
    let (cells, cost): (usize, u128) = (costs.clone().count(), costs.sum());
    let calls: u128 = rows.arcs.values().map(|calls| calls.count).sum();
    let inclusive: u128 = rows.arcs.values().flat_map(|calls| &calls.costs).sum();
    println!("{digest} {cells} {cost} {} {calls} {inclusive}", rows.arcs.len());
}

fn main() -> std::io::Result<()> {
    let path = std::env::args().nth(1).expect("usage: rows FILE");
    let mut digest = Digest::new();
    let mut reader = Reader::<Rows>::default();
    reader.read_file(&path, |piece| digest.add(piece))?;
    print_sums(&reader.sink, &digest.end());
    println!("{:.3}", digest.seconds());
    Ok(())
}
