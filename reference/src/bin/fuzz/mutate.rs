//! Changes of a file: flipped bits, cuts, parts of other files, inserted bytes, other lengths of
//! fields.

use crate::seeds::Bytes;
use reference::generate::{damage, Random};

/// No file grows beyond this.
const MOST_BYTES: usize = 70_000;
/// Bytes at which something often begins or ends.
const EDGES: [u8; 10] = [0, 1, 2, 8, 16, 31, 32, 127, 128, 255];

/// A place in a file, or its end.
fn place(random: &mut Random, bytes: &[u8]) -> usize {
    random.below(bytes.len() + 1)
}

/// The ends of a part of a file.
fn part(random: &mut Random, bytes: &[u8]) -> (usize, usize) {
    let (one, other) = (place(random, bytes), place(random, bytes));
    (one.min(other), one.max(other))
}

/// Changes one byte, if there is one.
fn change_byte(random: &mut Random, bytes: &mut Bytes) {
    if bytes.is_empty() {
        return bytes.push(random.byte());
    }
    let place = random.below(bytes.len());
    bytes[place] = match random.below(5) {
        0 | 1 => bytes[place] ^ (1 << random.below(8)),
        2 => bytes[place].wrapping_add(random.pick(&[1, 255])),
        3 => random.pick(&EDGES),
        _ => random.byte(),
    };
}

/// Where the fields of a file start, as far as they are whole, those inside of languages and bodies
/// too.
fn field_starts(bytes: &[u8], from: usize, starts: &mut Vec<usize>) {
    let mut at = from;
    while let [tag, high, low, ..] = bytes[at..] {
        let end = at + 3 + usize::from(high) * 256 + usize::from(low);
        starts.push(at);
        if end > bytes.len() {
            return;
        }
        if [0x20, 0x21, 0x30, 0x31].contains(&tag) {
            field_starts(&bytes[..end], at + 3, starts);
        }
        at = end;
    }
}

/// Changes the tag or the length of a field, or puts a field in the place of another.
fn change_field(random: &mut Random, bytes: &mut Bytes) {
    let mut starts = vec![];
    field_starts(bytes, 0, &mut starts);
    if starts.is_empty() {
        return change_byte(random, bytes);
    }
    let (start, other) = (random.pick(&starts), random.pick(&starts));
    let low = start + 2;
    match random.below(6) {
        0 => {
            bytes[start] =
                random.pick(&[0x11, 0x12, 0x20, 0x22, 0x23, 0x24, 0x27, 0x28, 0x29, 0x32])
        }
        1 => bytes[start + 1] = random.pick(&EDGES),
        2 | 3 => bytes[low] = bytes[low].wrapping_add(random.pick(&[1, 2, 254, 255])),
        4 => bytes[low] = random.byte(),
        _ => {
            let (one, behind) = (start.min(other), start.max(other));
            let field = bytes[one..behind].to_vec();
            bytes.splice(behind..behind, field);
        }
    }
}

/// Puts a part of another file between two bytes or in the place of a part.
fn splice(random: &mut Random, bytes: &mut Bytes, other: &[u8]) {
    let (start, end) = part(random, other);
    let (from, to) = part(random, bytes);
    let to = if random.percent(50) { from } else { to };
    bytes.splice(from..to, other[start..end].iter().copied());
}

/// Repeats a part: once, about as often as there are levels, or until the file is long.
fn repeat(random: &mut Random, bytes: &mut Bytes) {
    let (start, end) = part(random, bytes);
    let end = if random.percent(70) { end.min(start + 1) } else { end };
    let times = match random.below(40) {
        0..=19 => 1,
        20..=30 => random.within(60..=66),
        31..=38 => random.below(300),
        _ => MOST_BYTES / (end - start).max(1),
    };
    let more = bytes[start..end].repeat(times.min(MOST_BYTES / (end - start).max(1)));
    bytes.splice(start..start, more);
    bytes.truncate(MOST_BYTES);
}

/// Changes a file once; in many cases the lengths of its fields stay right.
fn change(random: &mut Random, bytes: &mut Bytes, other: &[u8]) {
    match random.below(20) {
        0..=3 => change_byte(random, bytes),
        4..=9 => damage(random, bytes),
        10 => bytes.truncate(place(random, bytes)),
        11 => {
            let (start, end) = part(random, bytes);
            bytes.drain(start..end.min(start + 4));
        }
        12 => {
            let (at, more) = (place(random, bytes), random.within(1..=4));
            bytes.splice(at..at, (0..more).map(|_| random.byte()).collect::<Bytes>());
        }
        13 => bytes.push(random.pick(&EDGES)),
        14 | 15 => splice(random, bytes, other),
        16..=18 => repeat(random, bytes),
        _ => change_field(random, bytes),
    }
}

/// Changes a few bytes of the term of a pack, its last field, into signs or small numbers; its length
/// stays right.
pub fn change_term(random: &mut Random, pack: &mut Bytes) {
    let mut starts = vec![];
    field_starts(pack, 0, &mut starts);
    let Some(&start) = starts.last().filter(|&&start| start + 3 < pack.len()) else { return };
    let mut term = pack.split_off(start + 3);
    for _ in 0..random.within(1..=3) {
        let place = random.below(term.len());
        let byte = random.pick(&[0x40, 0x50]) + random.below(8) as u8;
        match random.below(4) {
            0 => term.insert(place, byte),
            1 => term[place] = random.below(3) as u8,
            2 => term[place] ^= 1 << random.below(8),
            _ => term[place] = byte,
        }
    }
    let length = (term.len() as u16).to_be_bytes();
    pack[start + 1..].copy_from_slice(&length);
    pack.extend(term);
}

/// Changes one of some files, or two, once or more often; in some cases none.
pub fn mutate(random: &mut Random, files: &mut [&mut Bytes], others: &[Bytes]) {
    for _ in 0..random.pick(&[0, 0, 1, 1, 1, 1, 2, 3]) {
        let (file, other) = (random.below(files.len()), random.below(others.len()));
        change(random, files[file], &others[other]);
    }
}
