//! SHA-1 in software, block by block.

pub struct Sha1 {
    state: [u32; 5],
    block: [u8; 64],
    filled: usize,
    length: u64,
}

impl Sha1 {
    pub fn new() -> Sha1 {
        let state = [0x67452301, 0xEFCDAB89, 0x98BADCFE, 0x10325476, 0xC3D2E1F0];
        Sha1 { state, block: [0; 64], filled: 0, length: 0 }
    }

    pub fn update(&mut self, mut bytes: &[u8]) {
        self.length += bytes.len() as u64;
        if self.filled > 0 {
            let count = bytes.len().min(64 - self.filled);
            self.block[self.filled..self.filled + count].copy_from_slice(&bytes[..count]);
            self.filled += count;
            bytes = &bytes[count..];
            if self.filled < 64 {
                return;
            }
            compress(&mut self.state, &self.block);
            self.filled = 0;
        }
        let (blocks, rest) = bytes.as_chunks();
        for block in blocks {
            compress(&mut self.state, block);
        }
        self.block[..rest.len()].copy_from_slice(rest);
        self.filled = rest.len();
    }

    pub fn finish(mut self) -> [u8; 20] {
        self.block[self.filled] = 0x80;
        self.block[self.filled + 1..].fill(0);
        if self.filled >= 56 {
            compress(&mut self.state, &self.block);
            self.block.fill(0);
        }
        self.block[56..].copy_from_slice(&(self.length * 8).to_be_bytes());
        compress(&mut self.state, &self.block);
        let mut digest = [0; 20];
        for (bytes, word) in digest.chunks_exact_mut(4).zip(self.state) {
            bytes.copy_from_slice(&word.to_be_bytes());
        }
        digest
    }
}

/// Rounds of these numbers, written out one by one. Of the words, the last sixteen are kept.
macro_rules! rounds {
    ($h:ident, $words:ident, $constant:literal, $mix:expr, $($i:literal)*) => { $(
        if $i >= 16 {
            let word = $words[($i + 13) % 16] ^ $words[($i + 8) % 16] ^ $words[($i + 2) % 16] ^ $words[$i % 16];
            $words[$i % 16] = word.rotate_left(1);
        }
        let [a, b, c, d, e] = $h;
        let sum = e.wrapping_add($constant).wrapping_add($words[$i % 16]).wrapping_add($mix(b, c, d));
        $h = [a.rotate_left(5).wrapping_add(sum), a, b.rotate_left(30), c, d];
    )* };
}

fn compress(state: &mut [u32; 5], block: &[u8; 64]) {
    let mut words = [0; 16];
    for (word, bytes) in words.iter_mut().zip(block.as_chunks().0) {
        *word = u32::from_be_bytes(*bytes);
    }
    let choose = |b: u32, c: u32, d: u32| d ^ (b & (c ^ d));
    let parity = |b: u32, c: u32, d: u32| b ^ c ^ d;
    let majority = |b: u32, c: u32, d: u32| (b & c) | (d & (b | c));
    let mut h = *state;
    rounds!(h, words, 0x5A827999, choose, 0 1 2 3 4 5 6 7 8 9 10 11 12 13 14 15 16 17 18 19);
    rounds!(h, words, 0x6ED9EBA1, parity, 20 21 22 23 24 25 26 27 28 29 30 31 32 33 34 35 36 37 38 39);
    rounds!(h, words, 0x8F1BBCDC, majority, 40 41 42 43 44 45 46 47 48 49 50 51 52 53 54 55 56 57 58 59);
    rounds!(h, words, 0xCA62C1D6, parity, 60 61 62 63 64 65 66 67 68 69 70 71 72 73 74 75 76 77 78 79);
    for (sum, more) in state.iter_mut().zip(h) {
        *sum = sum.wrapping_add(more);
    }
}
