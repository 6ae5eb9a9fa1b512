//! Cases for writing an element: the sheets that laying is given too, with lines as an element needs them or not; for the ten-bit element also
//! with packets as they may be found.

use crate::cases::{how_many, system_and_fi, Call, Case, MXF_WRITE, MXF_WRITE10, NAMES};
use crate::element::{element, serves, structure, ELEMENT_MAX, HEAD, MOST_WORDS};
use crate::element10::{self, write_either, ELEMENT10_MAX};
use crate::found;
use crate::lines::sound_line_but_0;
use crate::lists::{dcs_of_threes, list, packet};
use crate::packet::{as_found, Packet};
use crate::random::Random;
use crate::rules::{system, System, MOST_PACKETS};
use crate::sheets::{few_numbers, near_the_limit, packets_near_the_limit, put_fault, Draft};

pub fn make(random: &mut Random, ten: bool) -> Case {
    let (system, fi) = system_and_fi(random);
    let (kind, sheet, made_from) = match random.weighted(&[3, 2, 95]) {
        0 => {
            let mut packets = if ten && random.chance(30) { longest(random, &system) } else { packets_near_the_limit(random, &system) };
            put_lines(random, &system, fi, &mut packets);
            let sheet = if random.chance(40) { Draft::of(&system, &packets).sheet() } else { near_the_limit(random, &system, &packets) };
            ("sheets near the limit of 16 bits".to_string(), sheet, packets)
        }
        1 => ("a few numbers".to_string(), few_numbers(random), Vec::new()),
        _ => of_list(random, &system, fi, ten),
    };
    let element = buffer(random, &sheet, fi, &system, &made_from, ten);
    let name = NAMES[if ten { MXF_WRITE10 } else { MXF_WRITE }];
    Case { kind: format!("{name}, {kind}"), call: Call::MxfWrite { ten, sheet, fi, element } }
}

/// The packets of the longest ten-bit element.
fn longest(random: &mut Random, system: &System) -> Vec<Packet> {
    dcs_of_threes(MOST_PACKETS, MOST_WORDS).into_iter().map(|dc| packet(random, system, dc)).collect()
}

/// A list's sheet with none or up to two faults, and the list.
fn of_list(random: &mut Random, system: &System, fi: bool, ten: bool) -> (String, Vec<u16>, Vec<Packet>) {
    let packing = random.between(1, 2) as u64;
    let mut list = list(random, system, packing);
    let mut kind = how_many(list.packets.len());
    if let Some(name) = put_lines(random, system, fi, &mut list.packets) {
        kind = name.to_string();
    }
    let mut draft = Draft::of(system, &list.packets);
    if let Some(name) = if ten { found::spoil_sheet(random, &mut draft) } else { None } {
        kind = format!("{kind}, {name}");
    }
    let faults = random.pick(&[0, 0, 0, 0, 0, 0, 1, 1, 1, 2]);
    for _ in 0..faults {
        let of_ten = ten && random.chance(50);
        let name = if of_ten { found::put_fault(random, &mut draft) } else { put_fault(random, &mut draft, system) };
        kind = format!("fault: {name}");
    }
    if faults > 1 {
        kind = format!("{faults} faults");
    }
    (kind, draft.sheet(), list.packets)
}

/// Gives lines to all packets, to those that are served, to all but some of these, or to none that has none. Now and then all packets, or
/// none, are of the call's FI. A name where some packet has no line.
fn put_lines(random: &mut Random, system: &System, fi: bool, packets: &mut [Packet]) -> Option<&'static str> {
    match random.below(10) {
        0 => packets.iter_mut().for_each(|packet| packet.flags = packet.flags & 2 | u16::from(fi)),
        1 => packets.iter_mut().for_each(|packet| packet.flags = packet.flags & 2 | u16::from(!fi)),
        _ => {}
    }
    let mode = random.weighted(&[55, 20, 15, 10]);
    for packet in packets.iter_mut().filter(|packet| packet.line == 0 && (mode != 1 || serves(system, fi, packet.flags)) && mode != 3) {
        packet.line = sound_line_but_0(random, system);
    }
    if mode == 2 && !packets.is_empty() {
        for _ in 0..random.between(1, 2) {
            let k = random.index(packets.len());
            packets[k].line = 0;
        }
    }
    packets.iter().any(|packet| packet.line == 0).then_some(if mode == 1 { "no line where none is needed" } else { "a line missing" })
}

/// Buffers: exact, one byte or more too short or too long, of the head alone, or as long as for packets that are not served too.
fn buffer(random: &mut Random, sheet: &[u16], fi: bool, of: &System, made_from: &[Packet], ten: bool) -> Vec<u8> {
    let written = write_either(ten, system, sheet, fi, &[0; ELEMENT10_MAX]);
    let structure = |packet| if ten { element10::structure(of, &as_found(packet)) } else { structure(of, packet) };
    let all = element(&made_from.iter().map(structure).collect::<Vec<_>>()).len();
    let most = if ten { ELEMENT10_MAX } else { ELEMENT_MAX };
    let exact = if written.number == 0 { written.bytes as usize } else { all };
    let longer = exact + random.between(1, 20);
    let length = match random.weighted(&[40, 14, 15, 8, 5, 6, 6, 4, 2]) {
        0 => exact,
        1 => exact - 1,
        2 => longer,
        3 => random.below(exact),
        4 => 0,
        5 => random.pick(&[HEAD - 1, HEAD, HEAD + 1]),
        6 => all,
        7 => most,
        _ => random.pick(&[most - 1, exact + 65_536]),
    };
    random.background(length)
}
