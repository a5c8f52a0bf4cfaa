//! Random scripts, whole and damaged.

use differential::random::Random;

const LENGTHS: [usize; 8] = [0, 1, 1, 2, 3, 8, 16, 40];

fn field(random: &mut Random, tag: u8) -> Vec<u8> {
    let length = random.pick(&LENGTHS);
    [&[tag, 0, length as u8][..], &random.bytes(length)].concat()
}

fn id(random: &mut Random) -> Vec<u8> {
    match random.below(3) {
        0 => random.bytes(16),
        1 => vec![random.byte(); 16],
        _ => vec![random.pick(b"ABCxyz"); 16],
    }
}

fn list(random: &mut Random) -> Vec<u8> {
    (0..random.below(4)).flat_map(|_| field(random, 0x4b)).collect()
}

fn bound(random: &mut Random) -> Vec<u8> {
    match random.pick(&[0x10, 0x11, 0x12]) {
        0x10 => vec![0x10, 0, 0],
        tag => field(random, tag),
    }
}

fn record(random: &mut Random) -> Vec<u8> {
    let tag = 1 + random.below(9) as u8;
    let payload = match tag {
        1 | 5 | 8 => id(random),
        2 | 3 => [id(random), list(random)].concat(),
        4 => [id(random), bound(random), bound(random)].concat(),
        6 => [id(random), random.number().to_be_bytes().to_vec()].concat(),
        7 => [random.number().to_be_bytes().to_vec(), list(random)].concat(),
        _ => Vec::new(),
    };
    let length = payload.len() as u16;
    [&[tag], &length.to_be_bytes()[..], &payload].concat()
}

/// Up to eight records, each the call that its tag says.
pub fn well_formed(random: &mut Random) -> (usize, Vec<u8>) {
    let count = random.below(9);
    (count, (0..count).flat_map(|_| record(random)).collect())
}

/// A script with one byte gone, put in or changed, or cut.
pub fn damaged(random: &mut Random) -> Vec<u8> {
    let mut bytes = well_formed(random).1;
    let at = random.below(bytes.len() + 1);
    match random.below(4) {
        0 => bytes.truncate(at),
        1 => bytes.insert(at, random.byte()),
        2 if at < bytes.len() => {
            bytes.remove(at);
        }
        _ if at < bytes.len() => bytes[at] = random.byte(),
        _ => bytes.push(random.byte()),
    }
    bytes
}

/// Any bytes; small ones, which are often a tag or a length; or records of any short payload.
pub fn any_bytes(random: &mut Random) -> Vec<u8> {
    const SMALL: [u8; 14] = [0, 0, 0, 1, 2, 3, 4, 5, 6, 7, 8, 9, 16, 0x4b];
    let length = random.below(60);
    match random.below(3) {
        0 => random.bytes(length),
        1 => (0..length).map(|_| random.pick(&SMALL)).collect(),
        _ => (0..length / 8).flat_map(|_| any_record(random)).collect(),
    }
}

fn any_record(random: &mut Random) -> Vec<u8> {
    let tag = 1 + random.below(9) as u8;
    field(random, tag)
}
