//! Images to put into a slot: right ones, and every kind of wrong one.

use crate::image::HEADER_MAGIC;
use crate::random::Random;
use crate::sha256::digest;

pub struct Record {
    pub kind: u8,
    pub pad: u8,
    pub bytes: Vec<u8>,
}

pub fn record(kind: u8, bytes: Vec<u8>) -> Record {
    Record { kind, pad: 0, bytes }
}

pub fn records_area(records: &[Record]) -> Vec<u8> {
    let mut area = Vec::new();
    for Record { kind, pad, bytes } in records {
        area.extend_from_slice(&[*kind, *pad]);
        area.extend_from_slice(&(bytes.len() as u16).to_le_bytes());
        area.extend_from_slice(bytes);
    }
    area
}

/// Header and body. The other header fields are filled with 0x5a: they are not read.
pub fn front(header_size: usize, body: &[u8], records_size: usize) -> Vec<u8> {
    let mut bytes = vec![0x5a; header_size.max(32)];
    bytes[0..4].copy_from_slice(&HEADER_MAGIC.to_le_bytes());
    bytes[4..6].copy_from_slice(&(records_size as u16).to_le_bytes());
    bytes[8..10].copy_from_slice(&(header_size as u16).to_le_bytes());
    bytes[12..16].copy_from_slice(&(body.len() as u32).to_le_bytes());
    bytes.extend_from_slice(body);
    bytes
}

/// A right image with records before and after its digest.
pub fn image_with(header_size: usize, body: &[u8], before: &[Record], after: &[Record]) -> Vec<u8> {
    let (before, after) = (records_area(before), records_area(after));
    let mut image = front(header_size, body, before.len() + 36 + after.len());
    let own = records_area(&[record(1, digest(&image).to_vec())]);
    image.extend([before, own, after].concat());
    image
}

pub fn image(body: &[u8]) -> Vec<u8> {
    image_with(32, body, &[], &[])
}

/// An accepted image that fits the room.
pub fn right_image(random: &mut Random, room: usize) -> Vec<u8> {
    let header_size = if random.percent(70) { 32 } else { 33 + random.below(64) };
    let some = |random: &mut Random| -> Vec<Record> {
        let count = if random.percent(70) { 0 } else { 1 + random.below(3) };
        let length = |random: &mut Random| if random.percent(40) { 0 } else { random.below(9) };
        (0..count)
            .map(|_| {
                let length = length(random);
                Record { kind: 2 + random.below(254) as u8, pad: random.byte(), bytes: random.bytes(length) }
            })
            .collect()
    };
    let (before, after) = (some(random), some(random));
    let taken = header_size + 36 + records_area(&before).len() + records_area(&after).len();
    let body_size = match random.below(5) {
        0 => 0,
        1 => room - taken,
        _ => random.below((room - taken).min(700) + 1),
    };
    let body = random.bytes(body_size);
    image_with(header_size, &body, &before, &after)
}

/// An image with a fault of a random kind. It may be right after all: the model decides.
pub fn wrong_image(random: &mut Random, room: usize) -> Vec<u8> {
    let mut bytes = right_image(random, room);
    let sum = bytes.len();
    let body_at = 12;
    match random.below(16) {
        0 => bytes[random.below(4)] ^= 1 << random.below(8),
        1 => bytes[8..10].copy_from_slice(&(random.below(32) as u16).to_le_bytes()),
        2 => bytes[8..10].copy_from_slice(&31u16.to_le_bytes()),
        3 => set_body(&mut bytes, random.next() as u32),
        4 | 5 => {
            let body = u32::from_le_bytes(bytes[body_at..body_at + 4].try_into().unwrap());
            set_body(&mut bytes, body + (room + 1 - sum) as u32);
        }
        6 => set_body(&mut bytes, 0u32.wrapping_sub(1 + random.below(90) as u32)),
        7 => return odd_records(random, &[]),
        8 => return odd_records(random, &[record(1, vec![7; 31])]),
        9 => return odd_records(random, &[record(1, vec![7; 33])]),
        10 => return odd_records(random, &[record(2, vec![7; 32])]),
        11 => return two_digests(random),
        12 => return left_over(random),
        13 => return long_record(random),
        14 => {
            let at = random.below(sum);
            bytes[at] ^= 1 << random.below(8);
        }
        _ => {
            let last = sum - 1;
            bytes[last] ^= 0x80;
        }
    }
    bytes
}

fn set_body(bytes: &mut [u8], size: u32) {
    bytes[12..16].copy_from_slice(&size.to_le_bytes());
}

fn small_body(random: &mut Random) -> Vec<u8> {
    let length = random.below(60);
    random.bytes(length)
}

fn odd_records(random: &mut Random, records: &[Record]) -> Vec<u8> {
    let area = records_area(records);
    let mut bytes = front(32, &small_body(random), area.len());
    bytes.extend(area);
    bytes
}

fn two_digests(random: &mut Random) -> Vec<u8> {
    let second = if random.percent(50) { vec![3; 32] } else { vec![3; random.below(5)] };
    image_with(32, &small_body(random), &[], &[record(1, second)])
}

/// One, two or three bytes after the last record.
fn left_over(random: &mut Random) -> Vec<u8> {
    let extra = 1 + random.below(3);
    let mut bytes = front(32, &small_body(random), 36 + extra);
    let own = records_area(&[record(1, digest(&bytes).to_vec())]);
    bytes.extend(own);
    bytes.extend(random.bytes(extra));
    bytes
}

/// A last record whose length goes past the area.
fn long_record(random: &mut Random) -> Vec<u8> {
    let mut bytes = front(32, &small_body(random), 36 + 4 + 5);
    let own = records_area(&[record(1, digest(&bytes).to_vec())]);
    bytes.extend(own);
    let length = random.pick(&[6u16, 7, 255, 256, 0x7fff, 0xffff]);
    bytes.extend([9, 0]);
    bytes.extend(length.to_le_bytes());
    bytes.extend(random.bytes(5));
    bytes
}

/// Records one behind the other, of any types, often with a rest that makes none.
pub fn records_to_read(random: &mut Random) -> Vec<u8> {
    let mut area = Vec::new();
    for _ in 0..random.below(5) {
        let length = random.pick(&[0, 0, 1, 3, 4, 32, 255, 256, 300]);
        area.extend(records_area(&[Record { kind: random.byte(), pad: random.byte(), bytes: random.bytes(length) }]));
    }
    match random.below(4) {
        0 => area.truncate(random.below(area.len() + 1)),
        1 => {
            let rest = random.below(8);
            area.extend(random.bytes(rest));
        }
        _ => {}
    }
    area
}

/// Any bytes for the image check alone, of any length.
pub fn bytes_to_check(random: &mut Random) -> Vec<u8> {
    if random.percent(10) {
        let length = random.below(40);
        return random.bytes(length);
    }
    let room = 200 + random.below(800);
    let mut bytes = if random.percent(50) { right_image(random, room) } else { wrong_image(random, room) };
    match random.below(6) {
        0 => bytes.resize(room, 0xff),
        1 => bytes.truncate(random.below(bytes.len() + 1)),
        2 => bytes.push(random.byte()),
        3 => drop(bytes.pop()),
        _ => {}
    }
    bytes
}
