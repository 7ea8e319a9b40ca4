//! Compares a sealed draft through the proved library with one written by hand in Rust: first the roots, then
//! the times. Also times the digests of such a draft alone, which tells what the rest of it takes.

#[path = "../sha256.rs"]
mod sha256;

use sha256::digest;
use sha256::digest_of_64;
use std::hint::black_box;
use std::time::Instant;

extern "C" {
    fn draft_bench_root(seed: *const u8, seed_len: usize, out: *mut u8, out_len: usize) -> bool;
    fn draft_bench_digests(seed: *const u8, seed_len: usize, out: *mut u8, out_len: usize) -> bool;
}

/// The height of the tree that `draft_bench_root` drafts.
const HEIGHT: u32 = 16;

/// How often each is timed.
const RUNS: u32 = 50;

fn rattle_root(seed: &[u8; 32]) -> [u8; 32] {
    let mut out = [0; 32];
    assert!(unsafe { draft_bench_root(seed.as_ptr(), seed.len(), out.as_mut_ptr(), out.len()) });
    out
}

fn rattle_digests(seed: &[u8; 32]) -> [u8; 32] {
    let mut out = [0; 32];
    assert!(unsafe { draft_bench_digests(seed.as_ptr(), seed.len(), out.as_mut_ptr(), out.len()) });
    out
}

/// Makes the tree leaf by leaf and joins two nodes of equal height on top of the stack at once. Keeps no other
/// nodes, so it has a little less to do than the draft of a traversal, which fills a table.
#[inline(never)]
fn rust_root(seed: &[u8; 32]) -> [u8; 32] {
    let mut numbered = [0; 36];
    numbered[..32].copy_from_slice(seed);
    let mut stack = [[0; 32]; HEIGHT as usize + 1];
    let mut size = 0;
    for number in 0..1u32 << HEIGHT {
        numbered[32..].copy_from_slice(&number.to_be_bytes());
        let token = digest(&numbered);
        let mut node = digest(&token);
        for _ in 0..number.trailing_ones() {
            size -= 1;
            node = join(&stack[size], &node);
        }
        stack[size] = node;
        size += 1;
    }
    stack[0]
}

fn join(left: &[u8; 32], right: &[u8; 32]) -> [u8; 32] {
    let mut both = [0; 64];
    both[..32].copy_from_slice(left);
    both[32..].copy_from_slice(right);
    digest_of_64(&both)
}

/// As many digests as a draft makes, and of the same lengths, each laid over the front of what was hashed.
fn rust_digests(seed: &[u8; 32]) -> [u8; 32] {
    let mut row = [0; 64];
    row[..32].copy_from_slice(seed);
    for number in 0..1u32 << HEIGHT {
        for len in [36, 32] {
            let hash = digest(&row[..len]);
            row[..32].copy_from_slice(&hash);
        }
        if number > 0 {
            let hash = digest_of_64(&row);
            row[..32].copy_from_slice(&hash);
        }
    }
    row[..32].try_into().unwrap()
}

fn hex(bytes: &[u8]) -> String {
    bytes.iter().map(|b| format!("{b:02x}")).collect()
}

fn compare(seeds: &[[u8; 32]]) {
    for seed in seeds {
        let root = rust_root(seed);
        assert_eq!(hex(&rattle_root(seed)), hex(&root), "the roots differ");
        assert_eq!(hex(&rattle_digests(seed)), hex(&rust_digests(seed)), "the digests differ");
        println!("both roots are {}", hex(&root));
    }
}

fn milliseconds(f: fn(&[u8; 32]) -> [u8; 32], seed: &[u8; 32]) -> f64 {
    let start = Instant::now();
    black_box(f(black_box(seed)));
    start.elapsed().as_secs_f64() * 1e3
}

fn measure(seed: &[u8; 32]) {
    let (mut rattle, mut rust, mut digests) = (f64::MAX, f64::MAX, f64::MAX);
    for _ in 0..RUNS {
        rattle = rattle.min(milliseconds(rattle_root, seed));
        rust = rust.min(milliseconds(rust_root, seed));
        digests = digests.min(milliseconds(rattle_digests, seed));
    }
    println!("height {HEIGHT}, best of {RUNS} runs: rattle {rattle:.1} ms, rust {rust:.1} ms");
    println!("rattle / rust {:.3}", rattle / rust);
    let share = 100.0 * (rattle - digests) / rattle;
    println!("the digests alone {digests:.1} ms; {share:.1} % of the rattle time is not hashing");
}

fn main() {
    let seeds = [digest(b"one seed"), digest(b"another seed")];
    compare(&seeds);
    measure(&seeds[0]);
}
