//! Cases for reading: areas laid by force, over bytes that must not matter, and then damaged at every level.

use crate::cases::{any_system, wrong_length, Call, Case, UNKNOWN};
use crate::lists::{dcs_of_total, list, packet};
use crate::pack_faults::{put_long_fault, put_small_fault};
use crate::packet::{danc, sheet, Packet};
use crate::random::Random;
use crate::rules::{area_with, long_packs, packs_of_five, read, room, system, System, SHEET_MAX};
use crate::string_faults::{odd_but_sound, put_fault};

/// Which of the ways to make a frame takes the smallest packets.
const SMALLEST: usize = 4;

/// The packs of an area, before they are written, and the length of the sheet that they were made from.
struct Frame {
    kind: String,
    packs: Vec<Vec<u8>>,
    numbers: usize,
}

pub fn make(random: &mut Random) -> Case {
    let way = random.weighted(&[75, 6, 5, 5, 5, 4]);
    let of_frame = if way == SMALLEST { often_system_2(random) } else { any_system(random) };
    let mut system = of_frame.number;
    let blocks = of_frame.blocks();
    let mut frame = match way {
        0 => laid(random, &of_frame),
        1 => surplus_fill(random, &of_frame, &blocks),
        2 => random_packs(random),
        3 => random_string(random, &blocks),
        SMALLEST => smallest(random, &of_frame, &blocks),
        _ => nothing(random),
    };
    let user = user_bytes(&frame.packs, &blocks);
    let background = random.background(of_frame.area_bytes());
    let mut area = area_with(&background, &blocks, &user);
    if random.chance(15) {
        frame.kind = "read, one byte damaged".to_string();
        damage_byte(random, &mut area, &blocks.concat(), frame.packs.concat().len());
    }
    if random.chance(5) {
        frame.kind = "read, system or length wrong".to_string();
        if random.chance(50) {
            let unknown = random.pick(&UNKNOWN);
            system = random.pick(&[1, 2, 3, unknown]);
        }
        if random.chance(50) {
            area.resize(wrong_length(random, of_frame.area_bytes()), 0xFF);
        }
    }
    let buffer = buffer(random, system, &area, frame.numbers);
    Case { kind: frame.kind, call: Call::Read { system, area, buffer } }
}

/// The packs' bytes, each pack of a long packing cut or filled to its block.
fn user_bytes(packs: &[Vec<u8>], blocks: &[Vec<usize>]) -> Vec<u8> {
    if packs.iter().all(|pack| pack.len() == 5) {
        return packs.concat();
    }
    let mut user = Vec::new();
    for (pack, block) in packs.iter().zip(blocks) {
        let mut pack = pack.clone();
        pack.resize(block.len(), 0xFF);
        user.extend(pack);
    }
    user
}

/// A list in either packing, with reserved and invalid bits as they come, then perhaps damaged in its string or in its packs.
fn laid(random: &mut Random, of_frame: &System) -> Frame {
    let blocks = of_frame.blocks();
    let packing = random.between(1, 2) as u64;
    let list = list(random, of_frame, packing);
    let mut dancs: Vec<Vec<u8>> = list.packets.iter().map(danc).collect();
    let mut kind = format!("read, {}", list.kind);
    if random.chance(50) {
        odd_but_sound(random, &mut dancs);
    }
    for _ in 0..random.pick(&[0, 0, 0, 0, 0, 1, 1, 2]) {
        kind = format!("read, fault: {}", put_fault(random, &mut dancs, of_frame));
    }
    if drop_what_has_no_room(&mut dancs, room(&blocks, packing), packing) {
        kind = "read, a list less the packets without room".to_string();
    }
    let mut packs = if packing == 1 { packs_of_five(&dancs) } else { long_packs(&dancs.concat(), &blocks) };
    if random.chance(50) {
        odd_packs(random, &mut packs);
    }
    for _ in 0..random.pick(&[0, 0, 0, 0, 0, 0, 0, 0, 1, 1, 2]) {
        let name = if packing == 1 {
            put_small_fault(random, &mut packs, room(&blocks, 1))
        } else {
            put_long_fault(random, &mut packs, &blocks)
        };
        kind = format!("read, packs: {name}");
    }
    Frame { kind, packs, numbers: sheet(of_frame.number, &list.packets).len() }
}

/// Packs of 5 also cannot hold what a fault has made shorter than a header and a byte. Whether there was no room for some packet.
fn drop_what_has_no_room(dancs: &mut Vec<Vec<u8>>, room: usize, packing: u64) -> bool {
    if packing == 1 {
        dancs.retain(|danc| danc.len() > 3);
    }
    let mut used = 0;
    let fits = |danc: &&Vec<u8>| {
        // A starter has three of the bytes, each carrier up to four.
        used += if packing == 1 { 1 + danc.len() / 4 } else { danc.len() };
        used <= room
    };
    let fitting = dancs.iter().take_while(fits).count();
    let over = fitting < dancs.len();
    dancs.truncate(fitting);
    over
}

/// "Reserved bits are written 1 and disregarded on reading": byte 1 of a starter, bits 7 to 1 of a long pack's byte 1, and its byte 2.
fn odd_packs(random: &mut Random, packs: &mut [Vec<u8>]) {
    for pack in packs {
        match pack[0] {
            0xE1 => pack[1] = random.byte(),
            0xE3 => {
                pack[1] ^= random.byte() & 0xFE;
                pack[2] = random.byte();
            }
            _ => {}
        }
    }
}

/// A sound string, then packs of fill that should not be: 1 to 300 bytes and more, often about the 262 that read as a packet. Now and
/// then the fill's 262nd byte is FEh, so that its CS is right.
fn surplus_fill(random: &mut Random, of_frame: &System, blocks: &[Vec<usize>]) -> Frame {
    let (first, more) = (random.between(1, 6), random.between(1, 6));
    let behind = room(&blocks[first..first + more], 2);
    let unused = match random.below(3) {
        0 => 0,
        1 => random.pick(&[260, 261, 262, 263]).max(behind) - behind,
        _ => random.below(72),
    };
    let total = room(&blocks[..first], 2).saturating_sub(unused).max(7);
    let packets: Vec<Packet> = dcs_of_total(random, total, 2).into_iter().map(|dc| packet(random, of_frame, dc)).collect();
    let mut string = packets.iter().map(danc).collect::<Vec<_>>().concat();
    string.resize(room(&blocks[..first + more], 2), 0xFF);
    if random.chance(20) && string.len() >= total + 262 {
        string[total + 261] = 0xFE;
    }
    let kind = "read, surplus packs of fill".to_string();
    Frame { kind, packs: long_packs(&string, blocks), numbers: sheet(of_frame.number, &packets).len() }
}

/// Starters, carriers and fill as they come, with DCs that may fit.
fn random_packs(random: &mut Random) -> Frame {
    let mut packs = vec![vec![0xE1, 0xFF, 0x00, 0x60, 0xFF]];
    for _ in 0..random.below(9) {
        let head = random.pick(&[0xE1, 0xE2, 0xE2, 0xE2, 0xE2, 0xE2, 0xFF]);
        let few = random.pick(&[0, 1, 2, 4, 5, 0xFF]);
        packs.push(match random.below(3) {
            0 => vec![head; 5],
            1 => vec![head, 0x00, 0x00, few, few],
            _ => vec![head, few, random.pick(&[0, 0xFF]), random.pick(&[0, 1, 4]), random.byte()],
        });
    }
    Frame { kind: "read, packs as they come".to_string(), packs, numbers: 40 }
}

/// Long packs with END and string bytes as they come, of few values.
fn random_string(random: &mut Random, blocks: &[Vec<usize>]) -> Frame {
    let few = random.pick(&[[0xFF, 0x00, 0x01, 0xFF], [0xFF; 4], [0x00; 4], [0x00, 0x00, 0x00, 0x07]]);
    let count = random.between(1, 6);
    let mut string: Vec<u8> = (0..room(&blocks[..count], 2)).map(|_| random.pick(&few)).collect();
    if random.chance(30) {
        let from = random.below(string.len());
        string[from..].fill(0xFF);
    }
    let mut packs = long_packs(&string, blocks);
    if random.chance(30) {
        let k = random.below(packs.len());
        packs[k][1] ^= 1;
    }
    Frame { kind: "read, string as it comes".to_string(), packs, numbers: 100 }
}

/// In packing 2 system 2 alone has room for as many packets as the limit: there 5 comes.
fn often_system_2(random: &mut Random) -> System {
    system(random.pick(&[1, 2, 2, 2, 3])).expect("1 to 3 are systems")
}

/// Frames full, or nearly, of the smallest packets: 780 or 936 in packing 1, 1,062 in systems 1 and 3 in packing 2, where 5 cannot come, and
/// in system 2 as many as the limit. Behind those are three bytes, of which some may be user bytes of the packets instead; where the others
/// are not all fill, it is 5. Often a packet is damaged, mostly a late one.
fn smallest(random: &mut Random, of_frame: &System, blocks: &[Vec<usize>]) -> Frame {
    let packing = if random.chance(25) { 1 } else { 2 };
    let room = room(blocks, packing);
    let count = room / if packing == 1 { 2 } else { 7 } - random.pick(&[0, 0, 0, 0, 0, 1, 2]);
    let mut dcs = vec![0; count];
    if packing == 2 {
        for _ in 0..random.below(4) {
            dcs[random.index(count)] += 1;
        }
    }
    let packets: Vec<Packet> = dcs.into_iter().map(|dc| packet(random, of_frame, dc)).collect();
    let mut dancs: Vec<Vec<u8>> = packets.iter().map(danc).collect();
    let mut kind = format!("read, the smallest packets, system {} packing {packing}", of_frame.number);
    if random.chance(35) {
        let mut late = dancs.split_off(random.pick(&[0, count * 9 / 10, count * 9 / 10]));
        kind = format!("read, the smallest packets, fault: {}", put_fault(random, &mut late, of_frame));
        dancs.extend(late);
    }
    let numbers = sheet(of_frame.number, &packets).len();
    if packing == 1 {
        drop_what_has_no_room(&mut dancs, room, 1);
        return Frame { kind, packs: packs_of_five(&dancs), numbers };
    }
    let mut string = dancs.concat();
    let behind = bytes_behind(random, room.saturating_sub(string.len()));
    string.extend(behind);
    string.truncate(room);
    let mut packs = long_packs(&string, blocks);
    if random.chance(10) {
        kind = format!("read, the smallest packets, packs: {}", put_long_fault(random, &mut packs, blocks));
    }
    Frame { kind, packs, numbers }
}

/// What stands behind the last packet: fill, fill but for one byte, or as it comes.
fn bytes_behind(random: &mut Random, length: usize) -> Vec<u8> {
    let mut behind = vec![0xFF; length];
    match random.below(4) {
        0 => {}
        1 => behind = random.background(length),
        _ if length > 0 => behind[random.below(length)] = random.pick(&[0x00, 0x7F, 0x80, 0xFE]),
        _ => {}
    }
    behind
}

/// All fill, or one pack's head and then fill.
fn nothing(random: &mut Random) -> Frame {
    let mut first = vec![0xFF; 75];
    if random.chance(50) {
        first[0] = random.pick(&[0xE1, 0xE2, 0xE3, 0xE3, 0xE3, 0x00, 0xFE]);
        first[1] = random.pick(&[0xFF, 0xFE, 0xFE, 0x00]);
    }
    if random.chance(20) {
        first[random.between(1, 74)] = random.byte();
    }
    Frame { kind: "read, all fill or nearly".to_string(), packs: vec![first], numbers: 4 }
}

/// One bit or one byte of the user bytes: mostly among those used and the first of the fill, or the last of all.
fn damage_byte(random: &mut Random, area: &mut [u8], places: &[usize], used: usize) {
    let k = match random.below(8) {
        0 => places.len() - 1 - random.below(5),
        1 => random.below(places.len()),
        2 => used + random.below(80),
        _ => random.below(used + 8),
    };
    let at = places[k.min(places.len() - 1)];
    area[at] = match random.below(3) {
        0 => random.pick(&[0xFF, 0xE1, 0xE2, 0xE3, 0x00, 0xFE]),
        _ => area[at] ^ 1 << random.below(8),
    };
}

fn buffer(random: &mut Random, system: u64, area: &[u8], made_from: usize) -> Vec<u16> {
    let back = read(system, area, &[0; SHEET_MAX]);
    buffer_near(random, if back.number == 0 { back.numbers as usize } else { made_from }, SHEET_MAX)
}

/// Buffers of noise for a sheet: exact, one or more numbers too short or too long, very short, or with room for every sheet.
pub fn buffer_near(random: &mut Random, exact: usize, most: usize) -> Vec<u16> {
    let longer = exact + random.between(1, 20);
    let length = match random.weighted(&[45, 12, 18, 5, 3, 5, 4, 8]) {
        0 => exact,
        1 => exact - 1,
        2 => longer,
        3 => random.below(exact),
        4 => 0,
        5 => random.pick(&[3, 4, 5]),
        6 => random.below(200),
        _ => most,
    };
    (0..length).map(|_| random.number()).collect()
}
