//! What may differ in DANC packets without harm, and faults that a reader or walker has to find.

use crate::lines::picture_line;
use crate::random::Random;
use crate::rules::System;

/// "Reserved bits are written 1 and disregarded on reading"; "a reader disregards line bits when LE is 0".
pub fn odd_but_sound(random: &mut Random, dancs: &mut [Vec<u8>]) {
    for danc in dancs {
        danc[2] = random.byte();
        danc[1] ^= random.byte() & 0x60;
        if danc[0] & 0x80 == 0 {
            danc[0] = random.byte() & 0x7F;
            danc[1] ^= random.byte() & 0x0F;
        }
    }
}

/// Puts one fault into the packets, and names it.
pub fn put_fault(random: &mut Random, dancs: &mut Vec<Vec<u8>>, system: &System) -> &'static str {
    if random.chance(10) || dancs.is_empty() {
        dancs.push(bytes_behind(random));
        return "bytes behind the last packet";
    }
    let k = random.index(dancs.len());
    let danc = &mut dancs[k];
    let whole = usize::from(danc.len() >= 7);
    match random.weighted(&[35 * whole, 20 * whole, 20 * whole, 10 * whole, 10, 35 * whole, 15 * whole, 20]) {
        0 => wrong_line(random, danc, system),
        1 => wrong_checksum(random, danc, system),
        2 => wrong_dc(random, danc, system),
        3 => {
            danc.truncate(random.between(1, danc.len() - 1));
            "packet cut"
        }
        4 => {
            danc.insert(random.below(danc.len()), random.pick(&[0x00, 0xFF, 0xE1]));
            "byte too many"
        }
        5 => {
            let line = picture_line(random, system);
            put_line(danc, line);
            "picture line"
        }
        6 => line_bit(random, danc),
        _ => {
            let byte = random.below(danc.len());
            danc[byte] ^= 1 << random.below(8);
            "bit"
        }
    }
}

fn bytes_behind(random: &mut Random) -> Vec<u8> {
    let length = random.between(1, 12);
    let only = random.pick(&[[0xFF, 0xFF], [0xFF, 0x00], [0x00, 0x00], [0x00, 0x01]]);
    (0..length).map(|_| random.pick(&only)).collect()
}

/// LE 1 and this line, with FI and YCF as they were.
fn put_line(danc: &mut [u8], line: u16) {
    danc[0] = 0x80 | (line & 0x7F) as u8;
    danc[1] = danc[1] & 0xF0 | (line >> 7) as u8;
}

/// LE 1 and line 0, the last, past the last, or 2047.
fn wrong_line(random: &mut Random, danc: &mut [u8], system: &System) -> &'static str {
    let last = system.last_line;
    put_line(danc, random.pick(&[0, 0, last, last + 1, last + 1, 1126, 1024, 2047]));
    "line"
}

/// One of the header's eleven line bits, or LE, which makes a line of what was disregarded.
fn line_bit(random: &mut Random, danc: &mut [u8]) -> &'static str {
    match random.below(12) {
        bit @ 0..=7 => danc[0] ^= 1 << bit,
        bit => danc[1] ^= 1 << (bit - 8),
    }
    "line bit"
}

fn wrong_checksum(random: &mut Random, danc: &mut [u8], system: &System) -> &'static str {
    let end = danc.len() - 1;
    let cs = danc[end];
    let bit = 1 << random.below(8);
    danc[end] = random.pick(&[cs.wrapping_add(1), cs.wrapping_sub(1), cs ^ bit, !cs, 0xFF, 0x00]);
    match random.below(10) {
        0 | 1 => {
            wrong_line(random, danc, system);
        }
        2 | 3 => put_line(danc, picture_line(random, system)),
        _ => {}
    }
    "CS"
}

/// Another DC in a packet of the same length, with CS mended or not.
fn wrong_dc(random: &mut Random, danc: &mut [u8], system: &System) -> &'static str {
    let dc = danc[5];
    let any = random.byte();
    let other = random.pick(&[dc.wrapping_add(1), dc.wrapping_sub(1), dc.wrapping_add(4), dc.wrapping_sub(4), 0, 255, any]);
    danc[5] = other;
    if random.chance(50) {
        let end = danc.len() - 1;
        danc[end] = danc[end].wrapping_add(other.wrapping_sub(dc));
    }
    if random.chance(20) {
        put_line(danc, picture_line(random, system));
    }
    "DC"
}
