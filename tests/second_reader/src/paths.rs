//! Paths for lookup: like the path of a node, and malformed in every way (request C-18). Most of those that are malformed in editions 1 and 2 are not in
//! edition 3 (request C-15).

use crate::format::Edition;
use crate::images::{subkey, NEVER};
use crate::random::Random;

/// Malformed paths, and a few that are not.
pub const PATHS: [&[u8]; 36] = [
    b"",
    b"/",
    b"//",
    b"///",
    b"a",
    b"a/",
    b"a/9",
    b" /a",
    b"\0",
    b"\xff",
    b"/9",
    b"/9a",
    b"/-a",
    b"/.",
    b"/ ",
    b"/ a",
    b"/\0",
    b"/\xff",
    b"/a",
    b"/a/",
    b"//a",
    b"/a//",
    b"/a//b",
    b"/a b/9",
    b"/a/n/",
    b"/a\0",
    b"/a/n\xff",
    b"/momentum,1/x",
    b"/..",
    b"/../9 /~",
    b"/\n",
    b"/\\",
    b"/\\x20",
    b"/\x01",
    b"/ /\xff//",
    b"/9 \\\0",
];

/// A path like another: often absent, sometimes malformed.
pub fn near(random: &Random, path: &[u8]) -> Vec<u8> {
    let mut near = path.to_vec();
    let place = random.below(near.len().max(1));
    match random.below(9) {
        0 => near.push(b'/'),
        1 => near.extend(b"/zz"),
        2 => near.push(b'x'),
        3 => near.truncate(near.len().saturating_sub(1)),
        4 => near.insert(0, b'/'),
        5 if !near.is_empty() => near[place] ^= 0x20,
        6 if !near.is_empty() => near[place] = random.byte(),
        7 => near.truncate(place),
        _ => near.insert(place, b'/'),
    }
    near
}

/// A path malformed in an edition, made from the path of a node or from a long one. Some have more faults after the first.
pub fn malformed(random: &Random, edition: Edition, path: &[u8]) -> Vec<u8> {
    let mut bad = match random.below(40) {
        0 => long(random, edition),
        1..=5 => deep(random, edition),
        _ => path.to_vec(),
    };
    let place = spoil(random, edition, &mut bad);
    if random.one_in(3) {
        for byte in bad.iter_mut().skip(place + 1) {
            if random.one_in(4) {
                *byte = random.pick(&[b'/', b' ', b'9', 0, random.byte()]);
            }
        }
    }
    bad
}

/// A path of one subkey, of two or of many, of about 65,536 bytes.
fn long(random: &Random, edition: Edition) -> Vec<u8> {
    let length = random.pick(&[65_535, 65_536, 65_536, 65_537, 70_000]);
    let subkey = random.pick(&[length, length / 2, 99, 1]);
    let letter = match edition {
        Edition::One | Edition::Two => b'k',
        Edition::Three => random.pick(b"k\x01 "),
    };
    let byte = |place: usize| match place % (subkey + 1) {
        0 => b'/',
        _ => letter,
    };
    let mut path: Vec<u8> = (0..length).map(byte).collect();
    path[length - 1] = letter;
    path
}

/// A path of up to 30 subkeys.
fn deep(random: &Random, edition: Edition) -> Vec<u8> {
    let subkeys = random.between(1, 30);
    let mut path = Vec::new();
    for _ in 0..subkeys {
        path.push(b'/');
        path.extend(subkey(random, edition));
    }
    path
}

/// Spoils a path; returns the place before which it is still as it was.
fn spoil(random: &Random, edition: Edition, path: &mut Vec<u8>) -> usize {
    if random.one_in(8) {
        path.remove(0);
        return 0;
    }
    let narrow = random.pick(&[random.pick(NEVER), random.pick(NEVER), b' ', 0, 255]);
    let (byte, first) = match edition {
        Edition::One | Edition::Two => (narrow, random.pick(&[narrow, b'0', b'9', b'.', b'-'])),
        Edition::Three => (0, 0),
    };
    let (slash, end) = (a_slash(random, path), path.len());
    let any = random.between(1, end.max(2) - 1);
    // Place, byte, and whether it is inserted: no first slash; an empty subkey at the end or before a slash; the first byte of a subkey; the last byte, one
    // after it, any other.
    let (place, byte, inserted) = random.pick(&[
        (0, byte, false),
        (0, b'a', true),
        (end, b'/', true),
        (slash, b'/', true),
        (slash + 1, first, true),
        (end - 1, byte, false),
        (end, byte, true),
        (any, byte, true),
    ]);
    match inserted {
        true => path.insert(place, byte),
        false => path[place] = byte,
    }
    place
}

/// The place of a slash: the last, or any.
fn a_slash(random: &Random, path: &[u8]) -> usize {
    let places = (0..path.len()).filter(|place| path[*place] == b'/');
    let places: Vec<usize> = places.collect();
    random.pick(&[places[places.len() - 1], random.pick(&places)])
}
