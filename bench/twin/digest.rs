//! SHA-256, as FIPS 180-4 has it, in plain Rust, for the twins of imports.

extern "C" {
    /// The microseconds that this program had of the processor.
    fn clock() -> i64;
}

fn microseconds() -> i64 {
    // Sound: clock takes nothing and touches no memory of ours.
    unsafe { clock() }
}

const ROUNDS: [u32; 64] = [
    0x428a2f98, 0x71374491, 0xb5c0fbcf, 0xe9b5dba5, 0x3956c25b, 0x59f111f1, 0x923f82a4, 0xab1c5ed5,
    0xd807aa98, 0x12835b01, 0x243185be, 0x550c7dc3, 0x72be5d74, 0x80deb1fe, 0x9bdc06a7, 0xc19bf174,
    0xe49b69c1, 0xefbe4786, 0x0fc19dc6, 0x240ca1cc, 0x2de92c6f, 0x4a7484aa, 0x5cb0a9dc, 0x76f988da,
    0x983e5152, 0xa831c66d, 0xb00327c8, 0xbf597fc7, 0xc6e00bf3, 0xd5a79147, 0x06ca6351, 0x14292967,
    0x27b70a85, 0x2e1b2138, 0x4d2c6dfc, 0x53380d13, 0x650a7354, 0x766a0abb, 0x81c2c92e, 0x92722c85,
    0xa2bfe8a1, 0xa81a664b, 0xc24b8b70, 0xc76c51a3, 0xd192e819, 0xd6990624, 0xf40e3585, 0x106aa070,
    0x19a4c116, 0x1e376c08, 0x2748774c, 0x34b0bcb5, 0x391c0cb3, 0x4ed8aa4a, 0x5b9cca4f, 0x682e6ff3,
    0x748f82ee, 0x78a5636f, 0x84c87814, 0x8cc70208, 0x90befffa, 0xa4506ceb, 0xbef9a3f7, 0xc67178f2,
];

const START: [u32; 8] = [
    0x6a09e667, 0xbb67ae85, 0x3c6ef372, 0xa54ff53a, 0x510e527f, 0x9b05688c, 0x1f83d9ab, 0x5be0cd19,
];

fn schedule(block: &[u8]) -> [u32; 64] {
    let mut words = [0; 64];
    for (word, bytes) in words.iter_mut().zip(block.chunks_exact(4)) {
        *word = u32::from_be_bytes([bytes[0], bytes[1], bytes[2], bytes[3]]);
    }
    for k in 16..64 {
        let (a, b) = (words[k - 15], words[k - 2]);
        let a = a.rotate_right(7) ^ a.rotate_right(18) ^ (a >> 3);
        let b = b.rotate_right(17) ^ b.rotate_right(19) ^ (b >> 10);
        words[k] = words[k - 16].wrapping_add(words[k - 7]).wrapping_add(a).wrapping_add(b);
    }
    words
}

fn add_block(state: &mut [u32; 8], block: &[u8]) {
    let [mut a, mut b, mut c, mut d, mut e, mut f, mut g, mut h] = *state;
    for (word, round) in schedule(block).iter().zip(ROUNDS) {
        let turned = e.rotate_right(6) ^ e.rotate_right(11) ^ e.rotate_right(25);
        let chosen = (e & f) ^ (!e & g);
        let first = h.wrapping_add(turned).wrapping_add(chosen).wrapping_add(round).wrapping_add(*word);
        let turned = a.rotate_right(2) ^ a.rotate_right(13) ^ a.rotate_right(22);
        let second = turned.wrapping_add((a & b) ^ (a & c) ^ (b & c));
        (h, g, f, e) = (g, f, e, d.wrapping_add(first));
        (d, c, b, a) = (c, b, a, first.wrapping_add(second));
    }
    for (old, new) in state.iter_mut().zip([a, b, c, d, e, f, g, h]) {
        *old = old.wrapping_add(new);
    }
}

/// The digest of what was added so far, and the microseconds of the processor that it took.
pub struct Digest {
    state: [u32; 8],
    length: u64,
    rest: Vec<u8>,
    taken: i64,
}

impl Digest {
    pub fn new() -> Digest {
        Digest { state: START, length: 0, rest: Vec::new(), taken: 0 }
    }

    pub fn add(&mut self, mut bytes: &[u8]) {
        let start = microseconds();
        self.length += bytes.len() as u64;
        if !self.rest.is_empty() {
            let (begin, end) = bytes.split_at(bytes.len().min(64 - self.rest.len()));
            self.rest.extend_from_slice(begin);
            bytes = end;
            if self.rest.len() == 64 {
                add_block(&mut self.state, &self.rest);
                self.rest.clear();
            }
        }
        let mut blocks = bytes.chunks_exact(64);
        for block in &mut blocks {
            add_block(&mut self.state, block);
        }
        self.rest.extend_from_slice(blocks.remainder());
        self.taken += microseconds() - start;
    }

    /// The digest in hexadecimal digits.
    pub fn end(&mut self) -> String {
        let bits = 8 * self.length;
        let padding = 1 + (119 - self.length as usize % 64) % 64;
        let mut tail = vec![0; padding];
        tail[0] = 0x80;
        tail.extend_from_slice(&bits.to_be_bytes());
        self.add(&tail);
        self.state.iter().map(|word| format!("{word:08x}")).collect()
    }

    pub fn seconds(&self) -> f64 {
        self.taken as f64 / 1e6
    }
}
