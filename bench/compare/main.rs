//! Compares the three calls for C with a model of them, written from docs/FORMATS.md and docs/REFUSALS.md and
//! not from the code, on numbers and strips that are the same in every run. Ends with 1 at the first difference.

mod model;
mod sha256;

use std::process::exit;
use std::ptr::null;

extern "C" {
    fn strips_table_size(height: u32, subtree: u32) -> u64;
    fn strips_strip_length(kind: u32, height: u32) -> u64;
    fn strips_check(strip: *const u8, strip_len: usize, root: *const u8, root_len: usize) -> u32;
}

/// How often each height has a new strip, to be damaged in every way below.
const ROUNDS: u32 = 16;

/// Full trees are made up to this height; all their strips are right.
const FULL_TREES: u32 = 11;

/// SplitMix64: a counter, and a good mixing of it.
struct Random(u64);

impl Random {
    fn next(&mut self) -> u64 {
        self.0 = self.0.wrapping_add(0x9e3779b97f4a7c15);
        let mut x = self.0;
        x = (x ^ (x >> 30)).wrapping_mul(0xbf58476d1ce4e5b9);
        x = (x ^ (x >> 27)).wrapping_mul(0x94d049bb133111eb);
        x ^ (x >> 31)
    }

    fn below(&mut self, end: u64) -> u64 {
        self.next() % end
    }

    fn byte(&mut self) -> u8 {
        self.next() as u8
    }

    /// What to change a byte by: never 0, so that it does change.
    fn change(&mut self) -> u8 {
        1 + self.below(255) as u8
    }

    fn bytes(&mut self, len: usize) -> Vec<u8> {
        (0..len).map(|_| self.byte()).collect()
    }

    fn node(&mut self) -> [u8; 32] {
        std::array::from_fn(|_| self.byte())
    }
}

fn hex(bytes: &[u8]) -> String {
    bytes.iter().map(|b| format!("{b:02x}")).collect()
}

/// Compares checks and counts the answers.
struct Checks {
    yes: u64,
    root_length: u64,
    no_strip: u64,
    no: u64,
    /// where the strips are put, so that they stand at all alignments
    shelf: Vec<u8>,
}

impl Checks {
    fn new() -> Checks {
        Checks { yes: 0, root_length: 0, no_strip: 0, no: 0, shelf: Vec::new() }
    }

    fn count(&self) -> u64 {
        self.yes + self.root_length + self.no_strip + self.no
    }

    /// The answer of both.
    fn compare(&mut self, strip: &[u8], root: &[u8]) -> u32 {
        let shift = (self.count() % 8) as usize;
        self.shelf.clear();
        self.shelf.resize(shift, 0);
        self.shelf.extend_from_slice(strip);
        let there = &self.shelf[shift..];
        let call = unsafe { strips_check(there.as_ptr(), there.len(), root.as_ptr(), root.len()) };
        self.settle(call, strip, root)
    }

    fn settle(&mut self, call: u32, strip: &[u8], root: &[u8]) -> u32 {
        let own = model::check(strip, root);
        if call != own {
            println!("strips_check answers {call}, the model {own}");
            println!("root {}", hex(root));
            println!("strip {}", hex(strip));
            exit(1);
        }
        match own {
            model::YES => self.yes += 1,
            model::ROOT_LENGTH => self.root_length += 1,
            model::NO_STRIP => self.no_strip += 1,
            model::NO => self.no += 1,
            _ => unreachable!("the model has no other answers"),
        }
        own
    }

    /// As `compare`, where it is known from the making of the input what both must answer.
    fn expect(&mut self, answer: u32, strip: &[u8], root: &[u8]) {
        let both = self.compare(strip, root);
        if both != answer {
            println!("both answer {both}, but it has to be {answer}");
            println!("root {}", hex(root));
            println!("strip {}", hex(strip));
            exit(1);
        }
    }
}

/// Numbers about all limits, and big ones that are small in their lowest bytes.
fn numbers() -> Vec<u32> {
    let mut all: Vec<u32> = (0..=40).collect();
    for base in [1 << 6, 1 << 7, 1 << 8, 1 << 16, 1 << 20, 1 << 24, 1 << 31, 3 << 30] {
        all.extend((0..=20).map(|i| base + i));
        all.push(base - 1);
    }
    all.extend((0..=20).map(|i| u32::MAX - i));
    all
}

fn compare_numbers(name: &str, call: unsafe extern "C" fn(u32, u32) -> u64, own: fn(u32, u32) -> u64) -> u64 {
    let mut random = Random(1);
    let numbers = numbers();
    let mut pairs: Vec<(u32, u32)> = numbers.iter().flat_map(|&a| numbers.iter().map(move |&b| (a, b))).collect();
    pairs.extend((0..100_000).map(|_| (random.next() as u32, random.next() as u32)));
    let mut some = 0;
    for &(a, b) in &pairs {
        let (called, modelled) = (unsafe { call(a, b) }, own(a, b));
        if called != modelled {
            println!("{name}({a}, {b}) answers {called}, the model {modelled}; in hex {a:08x} {b:08x}");
            exit(1);
        }
        some += u64::from(modelled != 0);
    }
    println!("{name}: {} compared, {some} of them not 0", pairs.len());
    pairs.len() as u64
}

/// All strips of full trees are right, and right for no other root.
fn full_trees(checks: &mut Checks, random: &mut Random) {
    for height in 1..=FULL_TREES {
        let tokens: Vec<[u8; 32]> = (0..1 << height).map(|_| random.node()).collect();
        let mut rows: Vec<Vec<[u8; 32]>> = vec![tokens.iter().map(|token| sha256::digest(token)).collect()];
        while rows.last().unwrap().len() > 1 {
            let row = rows.last().unwrap().chunks(2).map(|pair| sha256::digest(&pair.concat())).collect();
            rows.push(row);
        }
        let root = rows[height as usize][0];
        for (number, token) in tokens.iter().enumerate() {
            let path: Vec<[u8; 32]> = (0..height as usize).map(|t| rows[t][(number >> t) ^ 1]).collect();
            let strip = model::strip(1, height as u8, number as u32, token, &path.concat());
            checks.expect(model::YES, &strip, &root);
            checks.expect(model::NO, &strip, &rows[height as usize - 1][0]);
        }
    }
}

/// A right strip of a random token and path, and its root.
fn right(random: &mut Random, height: u32, number: u32) -> (Vec<u8>, [u8; 32]) {
    let strip = model::strip(1, height as u8, number, &random.node(), &random.bytes(32 * height as usize));
    let root = model::leads(&strip).expect("a strip");
    (strip, root)
}

/// Everything done to one right strip.
fn damages(checks: &mut Checks, random: &mut Random, strip: &[u8], root: &[u8; 32]) {
    let height = u32::from(strip[2]);
    let end = 1u64 << height;
    checks.expect(model::YES, strip, root);

    // a byte by one bit at either end, and by anything
    for place in 0..strip.len() {
        for by in [1, 128, random.change()] {
            let mut other = strip.to_vec();
            other[place] ^= by;
            checks.compare(&other, root);
        }
    }
    // the bytes that rules speak of: all their values
    for place in [0, 1, 2, 7, 40] {
        for value in 0..=255 {
            let mut other = strip.to_vec();
            other[place] = value;
            checks.expect(if value == strip[place] { model::YES } else { model::NO_STRIP }, &other, root);
        }
    }
    // several bytes
    for _ in 0..100 {
        let mut other = strip.to_vec();
        for _ in 0..2 + random.below(4) {
            let place = random.below(strip.len() as u64) as usize;
            other[place] = random.byte();
        }
        checks.compare(&other, root);
    }

    // cut at every length, and with something after the end
    for len in 0..strip.len() {
        checks.expect(model::NO_STRIP, &strip[..len], root);
    }
    for more in (1..=40).chain([64, 640, 5000, strip.len()]) {
        checks.expect(model::NO_STRIP, &[strip, &vec![0; more]].concat(), root);
        checks.expect(model::NO_STRIP, &[strip, &random.bytes(more)].concat(), root);
    }
    checks.expect(model::NO_STRIP, &[strip, strip].concat(), root);
    // a byte lost or gained inside
    for _ in 0..20 {
        let place = random.below(strip.len() as u64) as usize;
        checks.expect(model::NO_STRIP, &[&strip[..place], &strip[place + 1..]].concat(), root);
        checks.expect(model::NO_STRIP, &[&strip[..place], &[random.byte()], &strip[place..]].concat(), root);
    }

    // another number, below the end and not
    for _ in 0..10 {
        let mut other = strip.to_vec();
        other[3..7].copy_from_slice(&(random.below(end) as u32).to_be_bytes());
        checks.compare(&other, root);
    }
    for number in [end, end + 1, 2 * end - 1, end + random.below(end), 1 << 24, 1 << 31, u64::from(u32::MAX)] {
        let mut other = strip.to_vec();
        other[3..7].copy_from_slice(&(number as u32).to_be_bytes());
        checks.expect(model::NO_STRIP, &other, root);
    }

    // all other heights, in both places, with as many nodes as they ask for: a strip unless the number is too big
    for other_height in (0..=40).chain([64, 128, 255]) {
        let mut other = strip.to_vec();
        other[2] = other_height;
        other[40] = other_height;
        checks.compare(&other, root);
        other.resize(41 + 32 * usize::from(other_height), 7);
        checks.compare(&other, root);
    }
    // the path's nodes in another order
    for t in 1..height as usize {
        let mut other = strip.to_vec();
        other[41..].rotate_left(32 * t);
        checks.compare(&other, root);
    }

    // other roots: each byte changed, nodes of the path, the leaf, any
    for place in 0..32 {
        let mut other = *root;
        other[place] ^= random.change();
        checks.expect(model::NO, strip, &other);
    }
    for other in strip[41..].chunks(32) {
        checks.expect(model::NO, strip, other);
    }
    checks.expect(model::NO, strip, &strip[8..40]);
    checks.expect(model::NO, strip, &sha256::digest(&strip[8..40]));
    checks.expect(model::NO, strip, &[0; 32]);
    checks.expect(model::NO, strip, &random.node());

    // roots of other lengths come before anything that is wrong with the strip
    let long = [&root[..], &random.bytes(600)].concat();
    for len in (0..=70).chain([256, 288, 544, 600]).filter(|&len| len != 32) {
        checks.expect(model::ROOT_LENGTH, strip, &long[..len]);
        checks.expect(model::ROOT_LENGTH, &strip[..random.below(strip.len() as u64) as usize], &long[..len]);
    }
}

/// Bytes that never were a sealed strip.
fn others(checks: &mut Checks, random: &mut Random) {
    let any = random.node();
    // no bytes, as C may pass them
    for pointer in [null(), any.as_ptr()] {
        let call = unsafe { strips_check(pointer, 0, any.as_ptr(), 32) };
        checks.settle(call, &[], &any);
        let call = unsafe { strips_check(any.as_ptr(), 32, pointer, 0) };
        checks.settle(call, &any, &[]);
        let call = unsafe { strips_check(pointer, 0, pointer, 0) };
        checks.settle(call, &[], &[]);
    }
    // dummy strips, with a root of either width
    for height in 1..=20 {
        let strip = model::strip(2, height, 0, &random.node(), &random.bytes(5 * usize::from(height)));
        checks.expect(model::NO_STRIP, &strip, &any);
        checks.expect(model::ROOT_LENGTH, &strip, &[0, 0, 0, 0, height]);
    }
    // anything, also with a head that is right so far
    for i in 0..60_000 {
        let len = random.below(800) as usize;
        let mut strip = random.bytes(len);
        let head = [6, 1, 1 + random.below(20) as u8, 0, 0, 0, random.below(2) as u8, 32];
        let right = len.min(i % 9);
        strip[..right].copy_from_slice(&head[..right]);
        checks.compare(&strip, &any);
    }
    // right in all that rules speak of, and of any length
    for _ in 0..20_000 {
        let height = 1 + random.below(20) as u8;
        let mut strip = model::strip(1, height, random.below(1 << height) as u32, &random.node(), &[]);
        let long = random.below(700) as usize;
        strip.extend(random.bytes(long));
        checks.compare(&strip, &any);
    }
    // long
    for power in 10..=22 {
        for fill in [0, 1, 6, 255] {
            checks.expect(model::NO_STRIP, &vec![fill; 1 << power], &any);
            checks.expect(model::ROOT_LENGTH, &any, &vec![fill; 1 << power]);
        }
        let (mut strip, root) = right(random, 20, 12345);
        strip.resize(1 << power, 0);
        checks.expect(model::NO_STRIP, &strip, &root);
    }
}

fn main() {
    sha256::try_published();
    let mut all = compare_numbers("strips_table_size", strips_table_size, model::table_size);
    all += compare_numbers("strips_strip_length", strips_strip_length, model::strip_length);

    let mut checks = Checks::new();
    let mut random = Random(2);
    full_trees(&mut checks, &mut random);
    for round in 0..ROUNDS {
        for height in 1..=20 {
            let last = (1 << height) - 1;
            let number = match round {
                0 => 0,
                1 => last,
                _ => random.next() as u32 & last,
            };
            let (strip, root) = right(&mut random, height, number);
            damages(&mut checks, &mut random, &strip, &root);
        }
    }
    others(&mut checks, &mut random);
    println!("strips_check: {} compared", checks.count());
    println!("  0 (yes): {}", checks.yes);
    println!("  7 (length of the root): {}", checks.root_length);
    println!("  11 (no sealed strip): {}", checks.no_strip);
    println!("  100 (no): {}", checks.no);
    all += checks.count();
    println!("{all} compared, no difference");
}
