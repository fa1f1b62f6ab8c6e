//! The calls of the crate sha2 that the proved sources make.
const START: [u32; 8] = [
    0x6a09e667, 0xbb67ae85, 0x3c6ef372, 0xa54ff53a, 0x510e527f, 0x9b05688c, 0x1f83d9ab, 0x5be0cd19,
];

const K: [u32; 64] = [
    0x428a2f98, 0x71374491, 0xb5c0fbcf, 0xe9b5dba5, 0x3956c25b, 0x59f111f1, 0x923f82a4, 0xab1c5ed5,
    0xd807aa98, 0x12835b01, 0x243185be, 0x550c7dc3, 0x72be5d74, 0x80deb1fe, 0x9bdc06a7, 0xc19bf174,
    0xe49b69c1, 0xefbe4786, 0x0fc19dc6, 0x240ca1cc, 0x2de92c6f, 0x4a7484aa, 0x5cb0a9dc, 0x76f988da,
    0x983e5152, 0xa831c66d, 0xb00327c8, 0xbf597fc7, 0xc6e00bf3, 0xd5a79147, 0x06ca6351, 0x14292967,
    0x27b70a85, 0x2e1b2138, 0x4d2c6dfc, 0x53380d13, 0x650a7354, 0x766a0abb, 0x81c2c92e, 0x92722c85,
    0xa2bfe8a1, 0xa81a664b, 0xc24b8b70, 0xc76c51a3, 0xd192e819, 0xd6990624, 0xf40e3585, 0x106aa070,
    0x19a4c116, 0x1e376c08, 0x2748774c, 0x34b0bcb5, 0x391c0cb3, 0x4ed8aa4a, 0x5b9cca4f, 0x682e6ff3,
    0x748f82ee, 0x78a5636f, 0x84c87814, 0x8cc70208, 0x90befffa, 0xa4506ceb, 0xbef9a3f7, 0xc67178f2,
];

#[inline(always)]
fn round([a, b, c, d, e, f, g, h]: [u32; 8], k: u32, word: u32) -> [u32; 8] {
    let s1 = (e ^ (e ^ e.rotate_right(14)).rotate_right(5)).rotate_right(6);
    let first = h.wrapping_add(s1).wrapping_add(g ^ (e & (f ^ g))).wrapping_add(k).wrapping_add(word);
    let s0 = (a ^ (a ^ a.rotate_right(9)).rotate_right(11)).rotate_right(2);
    let second = s0.wrapping_add(b ^ ((a ^ b) & (b ^ c)));
    [first.wrapping_add(second), a, b, c, d.wrapping_add(first), e, f, g]
}

/// The next word goes over that 16 before it.
#[inline(always)]
fn next_word(w: &mut [u32; 16], i: usize) -> u32 {
    let (x, y) = (w[(i + 1) % 16], w[(i + 14) % 16]);
    let s0 = (x ^ x.rotate_right(11)).rotate_right(7) ^ (x >> 3);
    let s1 = (y ^ y.rotate_right(2)).rotate_right(17) ^ (y >> 10);
    w[i] = s1.wrapping_add(w[(i + 9) % 16]).wrapping_add(s0).wrapping_add(w[i]);
    w[i]
}

/// Sixteen rounds, each written out, so that the places of its words are constants.
macro_rules! rounds {
    ($v:ident, $at:expr, $word:expr) => {
        rounds!($v, $at, $word; 0 1 2 3 4 5 6 7 8 9 10 11 12 13 14 15)
    };
    ($v:ident, $at:expr, $word:expr; $($i:literal)*) => {
        $($v = round($v, K[$at + $i], $word($i));)*
    };
}

fn compress(state: &mut [u32; 8], block: &[u8]) {
    let mut w = [0u32; 16];
    for (word, bytes) in w.iter_mut().zip(block.as_chunks().0) {
        *word = u32::from_be_bytes(*bytes);
    }
    let mut v = *state;
    rounds!(v, 0, |i: usize| w[i]);
    for turn in 1..4 {
        rounds!(v, 16 * turn, |i| next_word(&mut w, i));
    }
    for (word, more) in state.iter_mut().zip(v) {
        *word = word.wrapping_add(more);
    }
}

pub trait Digest {
    fn new() -> Self;
    fn update(&mut self, bytes: impl AsRef<[u8]>);
    fn finalize(self) -> [u8; 32];
}

pub struct Sha256 {
    state: [u32; 8],
    block: [u8; 64],
    count: usize,
}

impl Digest for Sha256 {
    fn new() -> Self {
        Sha256 { state: START, block: [0; 64], count: 0 }
    }

    fn update(&mut self, bytes: impl AsRef<[u8]>) {
        let mut rest = bytes.as_ref();
        while !rest.is_empty() {
            let used = self.count % 64;
            let (now, later) = rest.split_at(rest.len().min(64 - used));
            self.count += now.len();
            rest = later;
            if now.len() == 64 {
                compress(&mut self.state, now);
                continue;
            }
            self.block[used..used + now.len()].copy_from_slice(now);
            if self.count % 64 == 0 {
                compress(&mut self.state, &self.block);
            }
        }
    }

    fn finalize(mut self) -> [u8; 32] {
        let bits = 8 * self.count as u64;
        self.update([0x80]);
        while self.count % 64 != 56 {
            self.update([0]);
        }
        self.update(bits.to_be_bytes());
        let mut digest = [0; 32];
        for (part, word) in digest.chunks_exact_mut(4).zip(self.state) {
            part.copy_from_slice(&word.to_be_bytes());
        }
        digest
    }
}
