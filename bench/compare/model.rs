//! What the three calls answer, in the plainest way.

use crate::sha256::digest;

pub const YES: u32 = 0;
pub const ROOT_LENGTH: u32 = 7;
pub const NO_STRIP: u32 = 11;
pub const NO: u32 = 100;

/// The cells of a table, section by section: the root; an existing subtree on each level; a following one on
/// each level but the highest; and a tail on each level between the lowest and the highest.
pub fn table_size(height: u32, subtree: u32) -> u64 {
    if !(1..=20).contains(&height) || !(1..=10).contains(&subtree) || height % subtree != 0 {
        return 0;
    }
    // the rows of a subtree, from the two nodes below its root to its bottom
    let mut nodes = 0;
    let mut row = 1;
    for _ in 0..subtree {
        row *= 2;
        nodes += row;
    }
    let levels = height / subtree;
    let mut cells = 1;
    for level in 1..=levels {
        cells += nodes;
        if level < levels {
            cells += nodes;
        }
        if 1 < level && level < levels {
            // one node for each height below this level, and one more
            cells += 1;
            for _ in 1..level {
                cells += u64::from(subtree);
            }
        }
    }
    cells
}

/// A strip's length, section by section.
pub fn strip_length(kind: u32, height: u32) -> u64 {
    if height < 1 || height > 20 {
        return 0;
    }
    let width = match kind {
        1 => 32,
        2 => 5,
        _ => return 0,
    };
    let head = 1 + 6;
    let token = 1 + 32;
    let mut path = 1;
    for _ in 0..height {
        path += width;
    }
    head + token + path
}

/// The bytes of a strip, right or not.
pub fn strip(kind: u8, height: u8, number: u32, token: &[u8; 32], path: &[u8]) -> Vec<u8> {
    let mut bytes = vec![6, kind, height];
    bytes.extend(number.to_be_bytes());
    bytes.push(32);
    bytes.extend(token);
    bytes.push(height);
    bytes.extend(path);
    bytes
}

/// Takes the first `n` bytes off; none if there are not so many.
fn take<'a>(bytes: &mut &'a [u8], n: usize) -> Option<&'a [u8]> {
    let (front, rest) = bytes.split_at_checked(n)?;
    *bytes = rest;
    Some(front)
}

/// The node that a sealed strip leads to; none if the bytes are no sealed strip.
pub fn leads(strip: &[u8]) -> Option<[u8; 32]> {
    let mut rest = strip;
    let &[count, kind, height, n0, n1, n2, n3] = take(&mut rest, 7)? else { return None };
    let number = u64::from(n0) << 24 | u64::from(n1) << 16 | u64::from(n2) << 8 | u64::from(n3);
    if count != 6 || kind != 1 || height == 0 || height > 20 || number >= 1 << height {
        return None;
    }
    if take(&mut rest, 1)? != [32] {
        return None;
    }
    let token = take(&mut rest, 32)?;
    if take(&mut rest, 1)? != [height] {
        return None;
    }
    // the whole path before any hashing: a strip that ends too soon or too late is none
    let mut path = Vec::new();
    for _ in 0..height {
        path.push(take(&mut rest, 32)?);
    }
    if !rest.is_empty() {
        return None;
    }
    let mut node = digest(token);
    let mut index = number;
    for sibling in path {
        let (left, right) = if index % 2 == 0 { (&node[..], sibling) } else { (sibling, &node[..]) };
        node = digest(&[left, right].concat());
        index /= 2;
    }
    Some(node)
}

pub fn check(strip: &[u8], root: &[u8]) -> u32 {
    if root.len() != 32 {
        return ROOT_LENGTH;
    }
    match leads(strip) {
        None => NO_STRIP,
        Some(node) if node == root => YES,
        Some(_) => NO,
    }
}
