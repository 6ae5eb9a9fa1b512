//! Padding and what else is disregarded, and faults in elements of either coding: in a structure, or in the whole.

use crate::element::{FRONT, HEAD, KEY};
use crate::element10::coding;
use crate::lines::picture_line;
use crate::random::Random;
use crate::rules::{System, MOST_PACKETS};

/// Where a structure's fields start, and its array.
const LINE: usize = 0;
const WRAPPING: usize = 2;
const CODING: usize = 3;
const SAMPLES: usize = 4;
const COUNT: usize = 6;
const ARRAY_ELEMENT: usize = 10;
const ARRAY: usize = FRONT;

fn two(bytes: &[u8], at: usize) -> u16 {
    u16::from_be_bytes([bytes[at], bytes[at + 1]])
}

fn put_two(bytes: &mut [u8], at: usize, number: u16) {
    bytes[at..at + 2].copy_from_slice(&number.to_be_bytes());
}

fn four(bytes: &[u8], at: usize) -> u32 {
    u32::from_be_bytes([bytes[at], bytes[at + 1], bytes[at + 2], bytes[at + 3]])
}

fn put_four(bytes: &mut [u8], at: usize, number: u32) {
    bytes[at..at + 4].copy_from_slice(&number.to_be_bytes());
}

/// DC, the low byte of the third sample: in ten bits it stands in bits 9 to 2 of two bytes.
fn put_dc(structure: &mut [u8], ten: bool, dc: u8) {
    if ten {
        let with_other_bits = two(structure, ARRAY + 2) & !0x3FC | (dc as u16) << 2;
        put_two(structure, ARRAY + 2, with_other_bits);
    } else {
        structure[ARRAY + 2] = dc;
    }
}

// Padding, and what ten bits leave unused.

/// Any values in the two low bits of each four bytes and in the samples that the last four leave unused: ST 436-1, 5.4.4, has the bits "should
/// be set to zero", which is no rule, and says nothing of the samples. The structure has no padding.
pub fn put_unused(random: &mut Random, structure: &mut [u8]) {
    let mut left = two(structure, SAMPLES) as usize;
    let (bits, samples) = (random.chance(70), random.chance(70));
    for at in (ARRAY..structure.len()).step_by(4) {
        // Of the last four bytes one sample or two may be there: the high 10 or 20 bits.
        let unused = if left < 3 && samples { u32::MAX >> (10 * left) } else { 0 };
        let mask = if bits { unused | 3 } else { unused & !3 };
        let noise = random.next() as u32;
        let any = random.pick(&[u32::MAX, noise]);
        let number = four(structure, at) & !mask | any & mask;
        put_four(structure, at, number);
        left = left.saturating_sub(3);
    }
}

/// Puts padding behind each structure's samples, and names how. ST 436-1, annex B: up to three bytes to some multiple of four, but also
/// none, and "large padding space"; it "should have a value of zero", which is no rule.
pub fn pad(random: &mut Random, structures: &mut [Vec<u8>]) -> &'static str {
    let (name, most) = match random.weighted(&[30, 25, 20, 20, 4, 1]) {
        _ if structures.is_empty() => return "without padding",
        0 => return "without padding",
        1 => ("padded to fours", 3),
        2 => ("a few bytes of padding", 3),
        3 => ("padding", 40),
        4 => ("long padding", 1_000),
        _ => ("long padding", 70_000),
    };
    let only = random.below(structures.len() + 1);
    let is_long = most > 40;
    for (k, structure) in structures.iter_mut().enumerate() {
        // Of many structures one has the long padding.
        let length = match most {
            3 if name == "padded to fours" => 3 - (structure.len() + 3) % 4,
            _ if is_long && k != only => 0,
            _ => random.between(0, most),
        };
        let padding = if random.chance(40) { vec![0x00; length] } else { random.background(length) };
        structure.extend(padding);
        let count = (structure.len() - ARRAY) as u32;
        put_four(structure, COUNT, count);
    }
    name
}

// Faults in a structure.

/// Puts one fault into one structure of a coding, and names it. Some leave it sound, as a line that is the last. `structures` is not empty.
pub fn put_structure_fault(random: &mut Random, structures: &mut [Vec<u8>], system: &System, ten: bool) -> &'static str {
    let k = random.index(structures.len());
    let length_of = |structures: &[Vec<u8>]| structures.iter().map(Vec::len).sum::<usize>();
    let (before, behind) = (HEAD + length_of(&structures[..k]), length_of(&structures[k + 1..]));
    let structure = &mut structures[k];
    // A fault before this one may have cut it.
    if structure.len() < ARRAY + (coding(ten).bytes)(coding(ten).beside_user) {
        return "structure cut";
    }
    match random.weighted(&[14, 8, 8, 16, 24, 8, 12, 6, 4, 22, if ten { 6 } else { 0 }]) {
        0 => {
            let (line, last) = (two(structure, LINE), system.last_line);
            put_two(
                structure,
                LINE,
                random.pick(&[0, 0, 1, last, last + 1, last + 1, 750, 751, 1125, 1126, 2048 + 9, line | 0x8000, 65_535]),
            );
            "line"
        }
        1 => {
            let wrong = random.pick(&[0x00, 0x01, 0x02, 0x03, 0x04, 0x05, 0x11, 0x12, 0x13, 0x14, 0x81, 0xFF]);
            put(structure, WRAPPING, wrong, "wrapping")
        }
        2 => {
            let wrong = random.pick(&[0, 1, 3, 4, 5, 6, 7, 8, 9, 10, 11, 12, 0x84, 0x85, 0x87, 0x88, 0xFF]);
            put(structure, CODING, wrong, "coding")
        }
        3 => wrong_samples(random, structure, ten),
        4 => wrong_count(random, structure, before, behind, ten),
        5 => {
            put_four(
                structure,
                ARRAY_ELEMENT,
                random.pick(&[0, 2, 3, 255, 256, 257, 1 << 16, 1 << 24, (1 << 16) + 1, (1 << 24) + 1, 1 << 31, u32::MAX]),
            );
            "array element length"
        }
        6 => {
            let (dc, any) = ((coding(ten).dc)(&structure[ARRAY..]) as u8, random.byte());
            let bit = dc ^ 1 << random.below(8);
            put_dc(structure, ten, random.pick(&[dc.wrapping_add(1), dc.wrapping_sub(1), 0, 255, any, bit]));
            "DC"
        }
        7 => {
            structure.truncate(random.between(0, structure.len() - 1));
            "structure cut"
        }
        8 => {
            structure.insert(random.below(structure.len()), random.pick(&[0x00, 0xFF, 0x01]));
            "byte too many"
        }
        9 => put_picture_line(random, structure, system),
        _ => cut_array(random, structure),
    }
}

/// Bytes that samples leave unused are not in the array, and the count says so: ten bits take four bytes for one sample too.
fn cut_array(random: &mut Random, structure: &mut Vec<u8>) -> &'static str {
    structure.truncate(structure.len() - random.between(1, 4));
    let count = (structure.len() - ARRAY) as u32;
    put_four(structure, COUNT, count);
    "array cut"
}

/// A picture line, or one bit of the line changed, which may make it one.
pub fn put_picture_line(random: &mut Random, structure: &mut [u8], system: &System) -> &'static str {
    let (line, bit, picture) = (two(structure, LINE), 1 << random.below(16), picture_line(random, system));
    put_two(structure, LINE, random.pick(&[picture, picture, picture, line ^ bit]));
    "picture line"
}

fn put(bytes: &mut [u8], at: usize, byte: u8, name: &'static str) -> &'static str {
    bytes[at] = byte;
    name
}

/// The ends of 3 to 258, in ten bits of 4 to 259, about the right count, right in 8 bits only; now and then with the DC that belongs to it.
fn wrong_samples(random: &mut Random, structure: &mut [u8], ten: bool) -> &'static str {
    let (samples, least) = (two(structure, SAMPLES), coding(ten).beside_user as u16);
    let most = least + 255;
    let about =
        random.pick(&[samples.wrapping_add(1), samples.wrapping_sub(1), samples.wrapping_add(256), samples ^ 0x100, samples | 0x8000]);
    let wrong =
        random.pick(&[0, 1, 2, least - 1, least, least + 1, most - 1, most, most + 1, most + 1, most + 2, 65_535, about, about, about]);
    put_two(structure, SAMPLES, wrong);
    if random.chance(50) {
        put_dc(structure, ten, wrong.wrapping_sub(least) as u8);
    }
    "sample count"
}

/// About what the samples take, about the element's end, and near 2^32: also such that the end of the array is right, or before it, in 32 bits.
fn wrong_count(random: &mut Random, structure: &mut [u8], before: usize, behind: usize, ten: bool) -> &'static str {
    let (samples, count) = (two(structure, SAMPLES) as usize, four(structure, COUNT));
    let taken = (coding(ten).bytes)(samples) as u32;
    // What an array to the element's end has, and the distance from the array back to the element's start.
    let to_end = (structure.len() - ARRAY + behind) as u32;
    let back = (before + ARRAY) as u32;
    let near = random.pick(&[
        u32::MAX,
        u32::MAX - 3,
        u32::MAX - 7,
        u32::MAX - 8,
        1 << 31,
        (1 << 31) - 1,
        0_u32.wrapping_sub(back),
        4_u32.wrapping_sub(back),
    ]);
    let about_end =
        random.pick(&[to_end, to_end + 1, to_end + 4, to_end + 5, to_end + 8, to_end.wrapping_sub(1), to_end.wrapping_sub(4)]);
    let one_off = [taken.wrapping_sub(1), taken + 1, count.wrapping_add(1), count.wrapping_sub(1)];
    let about = random.pick(&[one_off[0], taken, one_off[1], one_off[2], one_off[3], 0, 1, samples as u32, taken.wrapping_sub(4)]);
    let high = random.pick(&[1 << 16, 1 << 24, 1 << 31, 255 << 24]);
    put_four(structure, COUNT, random.pick(&[near, about_end, about_end, about, about, count.wrapping_add(high)]));
    "array count"
}

// Faults in the whole.

/// The length field, of the value that is there. It has three bytes.
pub fn mend_length(element: &mut [u8]) {
    if element.len() >= 20 {
        let length = (element.len() - 20) as u32;
        element[17..20].copy_from_slice(&length.to_be_bytes()[1..]);
    }
}

/// Puts one fault into an element, and names it. What changes the length mostly has the length field mended, so that the fault is found
/// behind it.
pub fn put_fault(random: &mut Random, element: &mut Vec<u8>) -> &'static str {
    if element.len() < HEAD {
        return "element cut";
    }
    let mend = random.chance(80);
    let name = match random.weighted(&[6, 4, 8, 14, 24, 16, 20, 8]) {
        0 => {
            let k = random.index(KEY.len());
            let any = random.byte();
            element[k] = random.pick(&[element[k] ^ 1, element[k] ^ 0x80, 0x00, 0x7F, any]);
            return "key";
        }
        1 => return put(element, 16, random.pick(&[0x00, 0x03, 0x60, 0x80, 0x82, 0x84, 0x93, 0xFF]), "form of the length"),
        2 => {
            wrong_length(random, element);
            return "length";
        }
        3 => {
            let (n, any, most) = (two(element, 20), random.number(), MOST_PACKETS as u16);
            put_two(
                element,
                20,
                random.pick(&[n.wrapping_add(1), n.wrapping_add(1), n.wrapping_sub(1), n ^ 0x100, 0, most, most + 1, 65_535, any]),
            );
            "N"
        }
        4 => {
            let any = random.below(element.len());
            let (head, last) = (random.below(40), random.below(300));
            element.truncate(random.pick(&[any, head, element.len().saturating_sub(1 + last), element.len() - 1]));
            "element cut"
        }
        5 => {
            let (any, again) = (random.between(1, 40), random.between(1, element.len() - HEAD + 1));
            let surplus = match random.below(3) {
                0 => vec![0x00; random.pick(&[1, 2, 3, 4, any])],
                1 => random.background(any),
                // What stands in the element already.
                _ => element[HEAD..].iter().copied().take(again).collect(),
            };
            element.extend(surplus);
            "surplus bytes"
        }
        6 => {
            let near = random.pick(&[60, usize::MAX]);
            let k = random.below(element.len().min(near));
            let (byte, bit, any) = (element[k], 1 << random.below(8), random.byte());
            element[k] = random.pick(&[byte ^ bit, byte.wrapping_add(1), byte.wrapping_sub(1), 0x00, 0xFF, any]);
            return "one byte";
        }
        _ => {
            let k = random.between(HEAD - 2, element.len() - 1);
            if random.chance(50) {
                element.remove(k);
            } else {
                element.insert(k, random.pick(&[0x00, 0x01, 0xFF]));
            }
            "byte too many or too few"
        }
    };
    if mend {
        mend_length(element);
    }
    name
}

/// The length of all ("Overall Length of Element"), of what is behind N, one off, and right in 8 or 16 bits only.
fn wrong_length(random: &mut Random, element: &mut [u8]) {
    let right = (element.len() - 20) as u32;
    let (bit, any) = (1 << random.below(24), random.number() as u32);
    let wrong = random.pick(&[
        right + 20,
        right.wrapping_sub(2),
        right + 1,
        right.wrapping_sub(1),
        right ^ bit,
        right + 16,
        right + 4,
        0,
        any,
        0xFF_FFFF,
    ]);
    element[17..20].copy_from_slice(&wrong.to_be_bytes()[1..]);
}
