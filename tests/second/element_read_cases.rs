//! Cases for reading an element: written by the rules, padded, over the limits, or as they come; and then damaged at every level. Those of the
//! ten-bit element have packets as they may be found.

use crate::cases::{how_many, system_and_fi, Call, Case, MXF_READ, MXF_READ10, NAMES, UNKNOWN};
use crate::element::{element, read_by, structure, wrapping, ELEMENT_SHEET_MAX, FRONT, HEAD, MOST_WORDS};
use crate::element10::{self, coding};
use crate::element_faults::{mend_length, pad, put_fault, put_picture_line, put_structure_fault, put_unused};
use crate::found::found;
use crate::lines::sound_line_but_0;
use crate::lists::{dcs_of_words, list, packet};
use crate::packet::Packet;
use crate::random::Random;
use crate::read_cases::buffer_near;
use crate::rules::{self, System, FORMER_LIMIT, MOST_PACKETS};

/// The most that a length in three bytes says.
const LONGEST_VALUE: usize = 0xFF_FFFF;

/// An element, and the length of the sheet that it was made from.
struct Draft {
    kind: String,
    element: Vec<u8>,
    numbers: usize,
}

pub fn make(random: &mut Random, ten: bool) -> Case {
    let (of_frame, fi) = system_and_fi(random);
    let mut system = of_frame.number;
    // The longest elements are rare: each is 16 MB.
    let mut draft = match random.weighted(&[3_200, 240, 200, 240, 120, 3]) {
        0 => written(random, &of_frame, ten),
        1 => many(random, &of_frame, ten),
        2 => words_near_the_limit(random, &of_frame, ten),
        3 => as_they_come(random, &of_frame, ten),
        4 => a_few_bytes(random),
        _ => longest(random, &of_frame, ten),
    };
    for _ in 0..random.pick(&[0, 0, 0, 0, 0, 0, 0, 1, 1, 1, 1, 2]) {
        draft.kind = format!("fault: {}", put_fault(random, &mut draft.element));
    }
    if random.chance(7) {
        draft.kind = "system unknown or another".to_string();
        let unknown = random.pick(&UNKNOWN);
        system = random.pick(&[1, 2, 3, unknown, unknown]);
    }
    let back = read_by(coding(ten), rules::system, system, fi, &draft.element, &vec![0; ELEMENT_SHEET_MAX]);
    let exact = if back.number == 0 { back.numbers as usize } else { draft.numbers };
    let buffer = buffer_near(random, exact, ELEMENT_SHEET_MAX);
    let name = NAMES[if ten { MXF_READ10 } else { MXF_READ }];
    Case { kind: format!("{name}, {}", draft.kind), call: Call::MxfRead { ten, system, fi, element: draft.element, buffer } }
}

/// Lines where there are none: an element has one for each packet.
fn with_lines(random: &mut Random, of_frame: &System, packets: &mut [Packet]) {
    for packet in packets.iter_mut().filter(|packet| packet.line == 0) {
        packet.line = sound_line_but_0(random, of_frame);
    }
}

/// The structures of packets, in ten bits as they may be found, and the length of their sheet. Now and then one has the other coding's form.
fn structures(random: &mut Random, of_frame: &System, packets: &[Packet], ten: bool) -> (Vec<Vec<u8>>, usize) {
    let words: usize = packets.iter().map(|packet| packet.bytes.len() + 4).sum();
    let mut structures: Vec<Vec<u8>> = packets.iter().map(|packet| any_structure(random, of_frame, packet, ten)).collect();
    if random.chance(2) && !packets.is_empty() {
        let k = random.index(packets.len());
        structures[k] = any_structure(random, of_frame, &packets[k], !ten);
    }
    (structures, 4 + 2 * packets.len() + words)
}

fn any_structure(random: &mut Random, of_frame: &System, packet: &Packet, ten: bool) -> Vec<u8> {
    if !ten {
        return structure(of_frame, packet);
    }
    let mut structure = element10::structure(of_frame, &found(random, packet));
    if random.chance(50) {
        put_unused(random, &mut structure);
    }
    structure
}

/// A list with padding or without, then perhaps with faults in its structures.
fn written(random: &mut Random, of_frame: &System, ten: bool) -> Draft {
    let packing = random.between(1, 2) as u64;
    let mut list = list(random, of_frame, packing);
    with_lines(random, of_frame, &mut list.packets);
    let (mut structures, numbers) = structures(random, of_frame, &list.packets, ten);
    let mut kind = format!("{}, {}", how_many(list.packets.len()), pad(random, &mut structures));
    if !structures.is_empty() {
        for _ in 0..random.pick(&[0, 0, 0, 0, 0, 0, 1, 1, 1, 1, 2, 3]) {
            kind = format!("fault: {}", put_structure_fault(random, &mut structures, of_frame, ten));
        }
    }
    Draft { kind, element: element(&structures), numbers }
}

/// As many packets as the limit, one more, and many more, as many as N can say. Often one of the last has a fault, or a picture line: both come
/// before 5.
fn many(random: &mut Random, of_frame: &System, ten: bool) -> Draft {
    let (most, over) = (MOST_PACKETS, MOST_PACKETS + 1);
    let count = random.pick(&[FORMER_LIMIT + 1, most - 1, most, most, most, over, over, over, 1_024, 2_048, 9_362]);
    let count = if random.chance(1) { 65_535 } else { count };
    let dcs = [0; 12].into_iter().chain([1, 1, 2, 3]);
    let mut packets: Vec<Packet> = dcs.map(|dc| packet(random, of_frame, dc)).collect();
    with_lines(random, of_frame, &mut packets);
    let packets: Vec<Packet> = (0..count).map(|k| packets[k % packets.len()].clone()).collect();
    let (mut structures, numbers) = structures(random, of_frame, &packets, ten);
    if random.chance(30) {
        put_structure_fault(random, &mut structures, of_frame, ten);
    }
    if random.chance(20) {
        let late = random.index(count.min(9));
        if let Some(structure) = structures.iter_mut().rev().nth(late).filter(|structure| structure.len() > 2) {
            put_picture_line(random, structure, of_frame);
        }
    }
    Draft { kind: format!("many, {}", how_many(count)), element: element(&structures), numbers }
}

/// About 65,535 words: so many packets, of so many words together. With 131,101 it is 29 words over a multiple of 65,536.
fn words_near_the_limit(random: &mut Random, of_frame: &System, ten: bool) -> Draft {
    let (count, words) = random.pick(&[
        (MOST_PACKETS, MOST_WORDS),
        (MOST_PACKETS, MOST_WORDS),
        (MOST_PACKETS, MOST_WORDS + 1),
        (FORMER_LIMIT, MOST_WORDS),
        (251, MOST_WORDS),
        (251, MOST_WORDS + 1),
        (251, MOST_WORDS - 1),
        (300, 262 * 300),
        (501, 131_101),
        (MOST_PACKETS, 262 * MOST_PACKETS),
        (MOST_PACKETS + 1, MOST_WORDS + 1),
    ]);
    let dcs = dcs_of_words(count, words);
    let mut packets: Vec<Packet> = dcs.into_iter().map(|dc| packet(random, of_frame, dc)).collect();
    with_lines(random, of_frame, &mut packets);
    let (mut structures, numbers) = structures(random, of_frame, &packets, ten);
    if random.chance(30) {
        pad(random, &mut structures);
    }
    if random.chance(30) {
        put_structure_fault(random, &mut structures, of_frame, ten);
    }
    Draft { kind: "about 65,535 words".to_string(), element: element(&structures), numbers }
}

/// Structures whose fields have few values, with arrays that may fit.
fn as_they_come(random: &mut Random, of_frame: &System, ten: bool) -> Draft {
    let mut structures = Vec::new();
    for _ in 0..random.below(5) {
        let sound = random.pick(&[70, 97]);
        let wrong = |random: &mut Random| !random.chance(sound);
        let (least, of) = (coding(ten).beside_user as u8, coding(ten));
        let samples = least + random.pick(&[0, 0, 1, 2, 3, 5]);
        let mut structure = vec![if wrong(random) { random.pick(&[0, 4, 8]) } else { 0 }, if wrong(random) { 0 } else { 9 }];
        structure.push(if wrong(random) { random.pick(&[0, 1, 4]) } else { wrapping(of_frame) });
        structure.push(if wrong(random) { random.pick(&[3, 4, 5, 6, 7, 8, 9, 10]) } else { random.pick(&[of.luma, of.colour]) });
        structure.extend([0, if wrong(random) { least - 1 } else { samples }]);
        let count = (of.bytes)(samples as usize) as u8 + random.pick(&[0, 0, 1, 3]);
        structure.extend([0, 0, 0, if wrong(random) { count.wrapping_add(random.pick(&[1, 2, 17, 255])) } else { count }]);
        structure.extend([0, 0, 0, if wrong(random) { 0 } else { 1 }]);
        let dc = if wrong(random) { samples } else { samples - least };
        // In ten bits DC stands above two unused bits, and other bits above it do not matter.
        structure.extend(if ten {
            vec![0, 0, random.pick(&[0, 4, 8, 12, 0xFC]), dc << 2 | random.below(4) as u8]
        } else {
            vec![0, 0, dc]
        });
        structure.resize(FRONT + count as usize, random.pick(&[0, 1, 4, 9]));
        structures.push(structure);
    }
    Draft { kind: "fields as they come".to_string(), element: element(&structures), numbers: 40 }
}

/// The empty element, its head cut, or a few bytes behind it.
fn a_few_bytes(random: &mut Random) -> Draft {
    let mut element = element(&[]);
    let few: Vec<u8> = (0..random.below(20)).map(|_| random.pick(&[0, 0, 1, 4, 5, 7, 8, 9])).collect();
    match random.below(4) {
        0 => {}
        1 => element.truncate(random.between(0, HEAD)),
        _ => {
            element.extend(few);
            element[21] = random.pick(&[0, 1, 1, 1, 2]);
        }
    }
    if random.chance(70) {
        mend_length(&mut element);
    }
    Draft { kind: "a few bytes".to_string(), element, numbers: 13 }
}

/// As long as the length can say, by padding; or one byte longer, or as long as the length says in 24 bits only.
fn longest(random: &mut Random, of_frame: &System, ten: bool) -> Draft {
    let mut packets = vec![packet(random, of_frame, 2)];
    with_lines(random, of_frame, &mut packets);
    let (mut structures, numbers) = structures(random, of_frame, &packets, ten);
    let short = element(&structures).len() - 20;
    let length = random.pick(&[LONGEST_VALUE, LONGEST_VALUE, LONGEST_VALUE + 1, LONGEST_VALUE + 1 + short]);
    structures[0].resize(length - 2, 0x00);
    let count = (length - 2 - FRONT) as u32;
    structures[0][6..10].copy_from_slice(&count.to_be_bytes());
    Draft { kind: "about the longest".to_string(), element: element(&structures), numbers }
}
