//! The plain counterpart of `profhouse total`: the same work in Rust, without proofs. It adds up the
//! self costs of each event.

mod callgrind;

use callgrind::{Place, Reader, Sink};
use std::io::{self, Write};

#[derive(Default)]
struct Sums {
    sums: Vec<u128>,
    /// So that no name and no line is left unused.
    names: usize,
}

impl Sums {
    fn name(&mut self, place: Place) {
        let length = place.object.len() + place.file.len() + place.function.len();
        self.names = self.names.wrapping_add(length).wrapping_add(place.line as usize);
    }
}

impl Sink for Sums {
    fn own(&mut self, place: Place, costs: &[u64]) {
        self.name(place);
        if self.sums.len() < costs.len() {
            self.sums.resize(costs.len(), 0);
        }
        for (sum, cost) in self.sums.iter_mut().zip(costs) {
            *sum += u128::from(*cost);
        }
    }

    fn call(&mut self, place: Place, called: Place, _count: u64, _costs: &[u64]) {
        self.name(place);
        self.name(called);
    }
}

fn main() -> io::Result<()> {
    let path = std::env::args().nth(1).expect("a file");
    let mut reader = Reader::<Sums>::default();
    reader.read_file(&path, |_| {})?;
    let mut text = Vec::new();
    for (k, name) in reader.events.iter().flatten().enumerate() {
        text.extend_from_slice(name);
        writeln!(text, " {}", reader.sink.sums.get(k).unwrap_or(&0))?;
    }
    io::stdout().write_all(&text)?;
    std::process::exit(i32::from(reader.sink.names == usize::MAX))
}
