//! Compares `hashing::digest` with a scalar SHA-256 written in Rust: first the results, then the time of a call.

#[path = "../sha256.rs"]
mod sha256;

use std::hint::black_box;
use std::time::Instant;

extern "C" {
    fn bench_digest(message: *const u8, message_len: usize, out: *mut u8, out_len: usize) -> bool;
}

#[inline(never)]
fn rattle(message: &[u8], out: &mut [u8; 32]) -> bool {
    unsafe { bench_digest(message.as_ptr(), message.len(), out.as_mut_ptr(), out.len()) }
}

#[inline(never)]
fn rust(message: &[u8], out: &mut [u8; 32]) -> bool {
    *out = sha256::digest(message);
    true
}

/// Knows, as the rattle one does, that the padding of 64 bytes is always the same block.
#[inline(never)]
fn rust_of_64(message: &[u8], out: &mut [u8; 32]) -> bool {
    let Ok(message) = message.try_into() else {
        return false;
    };
    *out = sha256::digest_of_64(message);
    true
}

fn compare() {
    let message: Vec<u8> = (0..300u32).map(|i| (i.wrapping_mul(2654435761) >> 13) as u8).collect();
    for len in 0..message.len() {
        let (mut a, mut b) = ([0; 32], [0; 32]);
        assert!(rattle(&message[..len], &mut a) && rust(&message[..len], &mut b));
        assert_eq!(a, b, "the digests differ at {len} bytes");
    }
    let (mut a, mut b) = ([0; 32], [0; 32]);
    assert!(rattle(&message[..64], &mut a) && rust_of_64(&message[..64], &mut b));
    assert_eq!(a, b, "the digests of 64 bytes differ");
    println!("equal on all lengths below {}", message.len());
}

/// Nanoseconds a call, over one batch of calls that each hash the result of the one before.
fn batch(digest: fn(&[u8], &mut [u8; 32]) -> bool, len: usize) -> f64 {
    const CALLS: u32 = 2000;
    let mut message = [7u8; 128];
    let mut out = [0; 32];
    let start = Instant::now();
    for _ in 0..CALLS {
        black_box(digest(black_box(&message[..len]), &mut out));
        message[..32].copy_from_slice(&out);
    }
    start.elapsed().as_nanos() as f64 / f64::from(CALLS)
}

fn measure(what: &str, other: fn(&[u8], &mut [u8; 32]) -> bool, len: usize) {
    let (mut rattle_ns, mut rust_ns) = (f64::MAX, f64::MAX);
    for _ in 0..1000 {
        rattle_ns = rattle_ns.min(batch(rattle, len));
        rust_ns = rust_ns.min(batch(other, len));
    }
    println!("{what}: rattle {rattle_ns:.1} ns, rust {rust_ns:.1} ns, rattle/rust {:.3}", rattle_ns / rust_ns);
}

fn main() {
    compare();
    measure("64 bytes", rust_of_64, 64);
    measure("64 bytes, rust with the general padding", rust, 64);
    measure("32 bytes", rust, 32);
    measure("128 bytes", rust, 128);
}
