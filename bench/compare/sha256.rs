//! SHA-256 after FIPS 180-4. Its constants are computed from what defines them, so that no table is shared.

use std::sync::LazyLock;

struct Constants {
    start: [u32; 8],
    rounds: [u32; 64],
}

/// The greatest number whose power is not above the bound; it is below 2^36.
fn root(power: u32, bound: u128) -> u128 {
    let mut found = 0u128;
    for bit in (0..36).rev() {
        let more = found | 1 << bit;
        if more.pow(power) <= bound {
            found = more;
        }
    }
    found
}

/// The first 32 bits of the fractions of the square roots of 8 primes and of the cube roots of 64.
static CONSTANTS: LazyLock<Constants> = LazyLock::new(|| {
    let primes: Vec<u128> = (2..312).filter(|n| (2..*n).all(|d| n % d != 0)).collect();
    Constants {
        start: std::array::from_fn(|i| root(2, primes[i] << 64) as u32),
        rounds: std::array::from_fn(|i| root(3, primes[i] << 96) as u32),
    }
});

fn block(hash: &mut [u32; 8], rounds: &[u32; 64], bytes: &[u8]) {
    let mut w = [0u32; 64];
    for (word, four) in w.iter_mut().zip(bytes.chunks_exact(4)) {
        *word = u32::from_be_bytes(four.try_into().unwrap());
    }
    for t in 16..64 {
        let (x, y) = (w[t - 15], w[t - 2]);
        let small = x.rotate_right(7) ^ x.rotate_right(18) ^ (x >> 3);
        let great = y.rotate_right(17) ^ y.rotate_right(19) ^ (y >> 10);
        w[t] = w[t - 16].wrapping_add(small).wrapping_add(w[t - 7]).wrapping_add(great);
    }
    let [mut a, mut b, mut c, mut d, mut e, mut f, mut g, mut h] = *hash;
    for t in 0..64 {
        let great = e.rotate_right(6) ^ e.rotate_right(11) ^ e.rotate_right(25);
        let choice = (e & f) ^ (!e & g);
        let t1 = h.wrapping_add(great).wrapping_add(choice).wrapping_add(rounds[t]).wrapping_add(w[t]);
        let great = a.rotate_right(2) ^ a.rotate_right(13) ^ a.rotate_right(22);
        let majority = (a & b) ^ (a & c) ^ (b & c);
        let t2 = great.wrapping_add(majority);
        (h, g, f, e, d, c, b, a) = (g, f, e, d.wrapping_add(t1), c, b, a, t1.wrapping_add(t2));
    }
    for (old, new) in hash.iter_mut().zip([a, b, c, d, e, f, g, h]) {
        *old = old.wrapping_add(new);
    }
}

pub fn digest(message: &[u8]) -> [u8; 32] {
    let constants = &*CONSTANTS;
    let mut padded = message.to_vec();
    padded.push(0x80);
    while padded.len() % 64 != 56 {
        padded.push(0);
    }
    padded.extend((8 * message.len() as u64).to_be_bytes());
    let mut hash = constants.start;
    for bytes in padded.chunks_exact(64) {
        block(&mut hash, &constants.rounds, bytes);
    }
    let mut out = [0; 32];
    for (four, word) in out.chunks_exact_mut(4).zip(hash) {
        four.copy_from_slice(&word.to_be_bytes());
    }
    out
}

/// The model has to be right itself: the published digests of messages of one block and of two.
pub fn try_published() {
    let published = [
        ("abc", "ba7816bf8f01cfea414140de5dae2223b00361a396177a9cb410ff61f20015ad"),
        (
            "abcdbcdecdefdefgefghfghighijhijkijkljklmklmnlmnomnopnopq",
            "248d6a61d20638b8e5c026930c3e6039a33ce45964ff2167f6ecedd419db06c1",
        ),
    ];
    for (message, expected) in published {
        assert_eq!(crate::hex(&digest(message.as_bytes())), expected, "the digest of {message}");
    }
}
