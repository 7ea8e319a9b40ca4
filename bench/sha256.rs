//! A scalar SHA-256, as fast as it can be written plainly, to measure against.

const START: [u32; 8] = [
    0x6a09e667, 0xbb67ae85, 0x3c6ef372, 0xa54ff53a, 0x510e527f, 0x9b05688c, 0x1f83d9ab, 0x5be0cd19,
];

#[rustfmt::skip]
const K: [[u32; 16]; 4] = [
    [
        0x428a2f98, 0x71374491, 0xb5c0fbcf, 0xe9b5dba5, 0x3956c25b, 0x59f111f1, 0x923f82a4, 0xab1c5ed5,
        0xd807aa98, 0x12835b01, 0x243185be, 0x550c7dc3, 0x72be5d74, 0x80deb1fe, 0x9bdc06a7, 0xc19bf174,
    ],
    [
        0xe49b69c1, 0xefbe4786, 0x0fc19dc6, 0x240ca1cc, 0x2de92c6f, 0x4a7484aa, 0x5cb0a9dc, 0x76f988da,
        0x983e5152, 0xa831c66d, 0xb00327c8, 0xbf597fc7, 0xc6e00bf3, 0xd5a79147, 0x06ca6351, 0x14292967,
    ],
    [
        0x27b70a85, 0x2e1b2138, 0x4d2c6dfc, 0x53380d13, 0x650a7354, 0x766a0abb, 0x81c2c92e, 0x92722c85,
        0xa2bfe8a1, 0xa81a664b, 0xc24b8b70, 0xc76c51a3, 0xd192e819, 0xd6990624, 0xf40e3585, 0x106aa070,
    ],
    [
        0x19a4c116, 0x1e376c08, 0x2748774c, 0x34b0bcb5, 0x391c0cb3, 0x4ed8aa4a, 0x5b9cca4f, 0x682e6ff3,
        0x748f82ee, 0x78a5636f, 0x84c87814, 0x8cc70208, 0x90befffa, 0xa4506ceb, 0xbef9a3f7, 0xc67178f2,
    ],
];

/// The words of the block that pads a message of 64 bytes, each with its round's constant added.
const PADDING: [[u32; 16]; 4] = {
    let mut w = [0u32; 16];
    w[0] = 0x80000000;
    w[15] = 8 * 64;
    let mut sums = K;
    let mut t = 0;
    while t < 64 {
        let j = t % 16;
        sums[t / 16][j] = K[t / 16][j].wrapping_add(w[j]);
        w[j] = next(w[j], w[(j + 1) % 16], w[(j + 9) % 16], w[(j + 14) % 16]);
        t += 1;
    }
    sums
};

#[inline(always)]
fn round(s: &mut [u32; 8], k: u32, w: u32) {
    let [a, b, c, d, e, f, g, h] = *s;
    let s1 = e.rotate_right(6) ^ e.rotate_right(11) ^ e.rotate_right(25);
    let t1 = h.wrapping_add(s1).wrapping_add((e & (f ^ g)) ^ g).wrapping_add(k).wrapping_add(w);
    let s0 = a.rotate_right(2) ^ a.rotate_right(13) ^ a.rotate_right(22);
    let t2 = s0.wrapping_add(((a ^ b) & (b ^ c)) ^ b);
    *s = [t1.wrapping_add(t2), a, b, c, d.wrapping_add(t1), e, f, g];
}

#[inline(always)]
const fn next(w0: u32, w1: u32, w9: u32, w14: u32) -> u32 {
    let s0 = w1.rotate_right(7) ^ w1.rotate_right(18) ^ (w1 >> 3);
    let s1 = w14.rotate_right(17) ^ w14.rotate_right(19) ^ (w14 >> 10);
    w0.wrapping_add(s0).wrapping_add(w9).wrapping_add(s1)
}

/// Sixteen rounds written out, with a window of sixteen words that rolls on.
macro_rules! sixteen {
    ($s:ident, $k:expr, $w:ident, $extend:expr, $($j:literal)*) => {
        $(
            round(&mut $s, $k[$j], $w[$j]);
            if $extend {
                $w[$j] = next($w[$j], $w[($j + 1) % 16], $w[($j + 9) % 16], $w[($j + 14) % 16]);
            }
        )*
    };
}

fn add(hash: &mut [u32; 8], s: [u32; 8]) {
    for (h, x) in hash.iter_mut().zip(s) {
        *h = h.wrapping_add(x);
    }
}

fn compress(hash: &mut [u32; 8], block: &[u8; 64]) {
    let mut w = [0u32; 16];
    for (word, bytes) in w.iter_mut().zip(block.chunks_exact(4)) {
        *word = u32::from_be_bytes(bytes.try_into().unwrap());
    }
    let mut s = *hash;
    let [first @ .., last] = &K;
    for k in first {
        sixteen!(s, k, w, true, 0 1 2 3 4 5 6 7 8 9 10 11 12 13 14 15);
    }
    sixteen!(s, last, w, false, 0 1 2 3 4 5 6 7 8 9 10 11 12 13 14 15);
    add(hash, s);
}

/// The second block of a message of 64 bytes, which is always the same.
fn compress_padding(hash: &mut [u32; 8]) {
    let mut s = *hash;
    for sums in &PADDING {
        for &sum in sums {
            round(&mut s, sum, 0);
        }
    }
    add(hash, s);
}

fn to_bytes(hash: [u32; 8]) -> [u8; 32] {
    let mut out = [0; 32];
    for (bytes, word) in out.chunks_exact_mut(4).zip(hash) {
        bytes.copy_from_slice(&word.to_be_bytes());
    }
    out
}

pub fn digest(message: &[u8]) -> [u8; 32] {
    let mut hash = START;
    let (blocks, rest) = message.as_chunks::<64>();
    for block in blocks {
        compress(&mut hash, block);
    }
    let mut end = [[0u8; 64]; 2];
    let flat = end.as_flattened_mut();
    flat[..rest.len()].copy_from_slice(rest);
    flat[rest.len()] = 0x80;
    let count = if rest.len() < 56 { 1 } else { 2 };
    let bits = (message.len() as u64).wrapping_mul(8);
    flat[64 * count - 8..64 * count].copy_from_slice(&bits.to_be_bytes());
    for block in &end[..count] {
        compress(&mut hash, block);
    }
    to_bytes(hash)
}

/// The digest of 64 bytes, quicker since their padding is constant.
pub fn digest_of_64(message: &[u8; 64]) -> [u8; 32] {
    let mut hash = START;
    compress(&mut hash, message);
    compress_padding(&mut hash);
    to_bytes(hash)
}
