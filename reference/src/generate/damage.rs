//! Damage to a file: to its bytes, or to its fields with the lengths kept right.

use super::random::Random;
use crate::field::{put_header, Field, Fields};

/// Tags of fields whose contents are fields again.
const CONTAINERS: [u8; 4] = [0x20, 0x21, 0x30, 0x31];
/// Tags of all fields.
const TAGS: [u8; 11] = [0x11, 0x12, 0x20, 0x21, 0x22, 0x23, 0x28, 0x29, 0x30, 0x31, 0x32];

/// A field taken apart.
pub struct Part {
    pub tag: u8,
    pub contents: Vec<u8>,
}

/// Damages a file once.
pub fn damage(random: &mut Random, bytes: &mut Vec<u8>) {
    if random.percent(40) {
        damage_bytes(random, bytes);
    } else {
        damage_fields(random, bytes);
    }
}

/// Changes, removes or adds bytes without regard to fields.
pub fn damage_bytes(random: &mut Random, bytes: &mut Vec<u8>) {
    let place = random.below(bytes.len() + 1);
    match random.below(7) {
        0 | 1 if place < bytes.len() => bytes[place] ^= 1 << random.below(8),
        2 if place < bytes.len() => bytes[place] = random.byte(),
        3 if place < bytes.len() => bytes[place] = bytes[place].wrapping_add(1),
        4 => bytes.truncate(place),
        5 => bytes.insert(place, random.byte()),
        6 => bytes.push(random.byte()),
        _ => bytes.push(0),
    }
}

/// Changes one field, or the order or number of fields; falls back to bytes.
pub fn damage_fields(random: &mut Random, bytes: &mut Vec<u8>) {
    match take_apart(bytes) {
        Some(mut parts) if !parts.is_empty() => {
            let place = random.below(parts.len());
            *bytes = match random.below(10) {
                0 => with_wrong_length(random, &parts, place),
                choice => {
                    change_fields(random, &mut parts, place, choice);
                    put_together(&parts)
                }
            };
        }
        _ => damage_bytes(random, bytes),
    }
}

/// Swaps, repeats, removes, moves or changes fields.
fn change_fields(random: &mut Random, parts: &mut Vec<Part>, place: usize, choice: usize) {
    let other = random.below(parts.len());
    let next = (place + 1) % parts.len();
    match choice {
        1 => parts.swap(place, other),
        2 => parts.swap(place, next),
        3 => {
            let copy = Part { tag: parts[place].tag, contents: parts[place].contents.clone() };
            let behind = if random.percent(70) { place } else { other };
            parts.insert(behind, copy);
        }
        4 => drop(parts.remove(place)),
        5 => parts[place].tag = random.pick(&TAGS),
        _ => change_contents(random, &mut parts[place]),
    }
}

/// Damages the contents of a field; its length is kept right.
fn change_contents(random: &mut Random, part: &mut Part) {
    if CONTAINERS.contains(&part.tag) {
        damage(random, &mut part.contents);
    } else {
        damage_bytes(random, &mut part.contents);
    }
}

/// The bytes with one length too low or too high.
fn with_wrong_length(random: &mut Random, parts: &[Part], place: usize) -> Vec<u8> {
    let mut bytes = put_together(&parts[..place]);
    let length = bytes.len() + 1 + random.below(2);
    bytes.extend(put_together(&parts[place..]));
    let change = random.pick(&[1, 255, 4, 16]);
    bytes[length] = bytes[length].wrapping_add(change);
    bytes
}

/// The fields of a file, if all are whole.
pub fn take_apart(bytes: &[u8]) -> Option<Vec<Part>> {
    let part = |field: Field| Part { tag: field.tag, contents: field.contents.to_vec() };
    Fields::new(bytes).map(|field| field.ok().map(part)).collect()
}

/// The bytes of the fields.
pub fn put_together(parts: &[Part]) -> Vec<u8> {
    let mut bytes = Vec::new();
    for part in parts {
        put_header(&mut bytes, part.tag, part.contents.len());
        bytes.extend_from_slice(&part.contents);
    }
    bytes
}
