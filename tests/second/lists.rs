//! Lists of sound packets, from none to more than a frame holds.

use crate::lines::sound_line;
use crate::packet::Packet;
use crate::random::Random;
use crate::rules::{room, System, FORMER_LIMIT, MOST_PACKETS};

pub const BYTES: [u8; 5] = [0xFF, 0xE1, 0xE2, 0xE3, 0x00];
const DCS: [usize; 8] = [0, 1, 2, 3, 4, 5, 254, 255];

/// Packets, and a name for how they were chosen.
pub struct List {
    pub kind: String,
    pub packets: Vec<Packet>,
}

/// A list for laying in the packing. Whether it has room is left open.
pub fn list(random: &mut Random, system: &System, packing: u64) -> List {
    let blocks = system.blocks();
    let (kind, dcs) = match random.weighted(&[58, 13, 14, 8, 5, 2]) {
        0 => ("0 to 3 packets".to_string(), short(random)),
        1 => ("4 to 40 packets".to_string(), middle(random)),
        2 => {
            let first = random.between(1, 9);
            let total = near(random, room(&blocks[..first], packing));
            ("about a block's end".to_string(), dcs_of_total(random, total, packing))
        }
        3 => full(random, system, packing),
        4 => many(random, system, packing),
        _ => {
            let count = random.between(1, 8) + MOST_PACKETS;
            (format!("over {MOST_PACKETS} packets"), (0..count).map(|_| random.pick(&[0, 0, 0, 0, 0, 1, 2, 3])).collect())
        }
    };
    List { kind, packets: dcs.into_iter().map(|dc| packet(random, system, dc)).collect() }
}

fn short(random: &mut Random) -> Vec<usize> {
    (0..random.below(4)).map(|_| if random.chance(70) { random.pick(&DCS[..6]) } else { any_dc(random) }).collect()
}

fn middle(random: &mut Random) -> Vec<usize> {
    (0..random.between(4, 40)).map(|_| if random.chance(90) { random.below(20) } else { any_dc(random) }).collect()
}

/// From the former limit to the limit, mostly of DC 0, some of 1, 2 and 3: often as many as the frame holds of the smallest (780 or 936 in
/// packing 1, 1,062 or 1,275 in packing 2) or one more, and as many user bytes as are left then, or one more.
fn many(random: &mut Random, system: &System, packing: u64) -> (String, Vec<usize>) {
    let (room, least) = (room(&system.blocks(), packing), if packing == 1 { 2 } else { 7 });
    let (fitting, any, most) = (room / least, random.between(FORMER_LIMIT + 1, MOST_PACKETS), MOST_PACKETS);
    let count = random.pick(&[FORMER_LIMIT, FORMER_LIMIT + 1, any, any, fitting, fitting + 1, most - 1, most, most, most]).min(most);
    let (left, few) = (room.saturating_sub(least * count).min(count / 2), random.below(4));
    let mut dcs = vec![0; count];
    for _ in 0..random.pick(&[0, few, left, left + 1]) {
        let k = random.below(count);
        // The first user byte takes a pack more in packing 1, each takes a string byte in packing 2.
        dcs[k] = if packing == 1 { random.between(1, 3) } else { dcs[k] + 1 };
    }
    (if count == most { format!("{count} packets") } else { format!("{FORMER_LIMIT} packets and more") }, dcs)
}

fn any_dc(random: &mut Random) -> usize {
    if random.chance(50) {
        random.pick(&DCS)
    } else {
        random.below(256)
    }
}

fn near(random: &mut Random, total: usize) -> usize {
    match random.below(6) {
        0 => total - 1,
        1 => total + 1,
        _ => total,
    }
}

/// A whole frame: exactly full, one over it, or one short of it.
fn full(random: &mut Random, system: &System, packing: u64) -> (String, Vec<usize>) {
    let total = room(&system.blocks(), packing);
    let (name, total) = random.pick(&[("full", total), ("full", total), ("one over", total + 1), ("one short", total - 1)]);
    let unit = if packing == 1 { "packs" } else { "string bytes" };
    (format!("system {} {name}: {total} {unit}", system.number), dcs_of_total(random, total, packing))
}

/// The DCs of packets that take `total` packs in packing 1, `total` string bytes in packing 2. No more packets than the limit.
pub fn dcs_of_total(random: &mut Random, total: usize, packing: u64) -> Vec<usize> {
    let (least, most) = if packing == 1 { (2, 66) } else { (7, 262) };
    let fewest = (total + most - 1) / most;
    let greatest = (total / least).min(MOST_PACKETS);
    let count = match random.below(3) {
        0 => fewest,
        1 => greatest,
        _ => random.between(fewest, greatest),
    };
    let mut parts = shares(random, total - count * least, count, most - least);
    if packing == 1 {
        for part in parts.iter_mut().filter(|part| **part > 0) {
            let unused = random.pick(&[0, 0, 1, 2, 3]);
            *part = (*part * 4 - unused).min(255);
        }
    }
    parts
}

/// The DCs of `count` packets that have `words` words together, as even as can be.
pub fn dcs_of_words(count: usize, words: usize) -> Vec<usize> {
    let user = words - 7 * count;
    (0..count).map(|k| user / count + usize::from(k < user % count)).collect()
}

/// The same with DCs that are multiples of three, and no more words: of these a ten-bit element is the longest.
pub fn dcs_of_threes(count: usize, words: usize) -> Vec<usize> {
    let threes = (words - 7 * count) / 3;
    (0..count).map(|k| 3 * (threes / count + usize::from(k < threes % count))).collect()
}

/// `total` in `count` parts, none over `most`.
fn shares(random: &mut Random, total: usize, count: usize, most: usize) -> Vec<usize> {
    let mut parts: Vec<usize> = (0..count).map(|k| total / count + usize::from(k < total % count)).collect();
    for _ in 0..2 * count {
        let (from, to) = (random.below(count), random.below(count));
        if from != to {
            let moved = random.between(0, parts[from].min(most - parts[to]));
            parts[from] -= moved;
            parts[to] += moved;
        }
    }
    parts
}

/// A sound packet with DC user words.
pub fn packet(random: &mut Random, system: &System, dc: usize) -> Packet {
    let mut bytes = some_bytes(random, 2);
    bytes.push(dc as u8);
    let user = some_bytes(random, dc);
    bytes.extend(user);
    if random.chance(20) {
        end_in_ff(&mut bytes);
    }
    Packet { line: sound_line(random, system), flags: random.below(4) as u16, bytes }
}

/// Noise, one value throughout, or noise that is dense in FFh, E1h, E2h, E3h and 00h.
fn some_bytes(random: &mut Random, length: usize) -> Vec<u8> {
    let (one, dense) = (random.pick(&BYTES), random.pick(&[0, 50, 100]));
    if random.chance(25) {
        return vec![one; length];
    }
    (0..length).map(|_| if random.chance(dense) { random.pick(&BYTES) } else { random.byte() }).collect()
}

/// Changes the last user byte, or SDID where there is none, so that the CS byte is FFh.
fn end_in_ff(bytes: &mut [u8]) {
    let changed = if bytes.len() > 3 { bytes.len() - 1 } else { 1 };
    let sum = bytes.iter().fold(0u8, |sum, &byte| sum.wrapping_add(byte));
    bytes[changed] = bytes[changed].wrapping_add(0xFF_u8.wrapping_sub(sum));
}
