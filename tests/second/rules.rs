//! Laying, reading and walking by document 01, written a second time and as plainly as it goes. Quotations are from document 01, and from
//! request A3 where that is named.

use crate::lines::{Row, ROW_1080, ROW_720, ROW_OF_ANY_LINE};
use crate::packet::{danc, found_in_front, from_danc, packet_in_front, sheet, Fault, Found, Packet};

/// What laying gives back, and the area after it.
pub struct Laid {
    pub number: u64,
    pub place: u64,
    pub word: u64,
    pub packs: u64,
    pub bytes: u64,
    pub area: Vec<u8>,
}

/// What reading gives back, and the sheet buffer after it.
pub struct ReadBack {
    pub number: u64,
    pub place: u64,
    pub packing: u64,
    pub packets: u64,
    pub numbers: u64,
    pub buffer: Vec<u16>,
}

/// What a step of the walker gives back.
pub struct Step {
    pub number: u64,
    pub place: u64,
    pub length: u64,
}

/// A refusal's number and place.
pub type Refusal = (u64, u64);

pub fn refuse_if(fault: bool, number: u64, place: usize) -> Result<(), Refusal> {
    if fault {
        Err((number, place as u64))
    } else {
        Ok(())
    }
}

/// A refusal of a sheet. Request A2: "Laying and the lister pass the word on after the place".
pub struct SheetRefusal {
    pub number: u64,
    pub place: u64,
    pub word: u64,
}

impl From<Refusal> for SheetRefusal {
    /// "for refusals other than 7 to 10 it is 0"
    fn from((number, place): Refusal) -> SheetRefusal {
        SheetRefusal { number, place, word: 0 }
    }
}

/// "Each system carries its figures under its own name."
pub struct System {
    pub number: u64,
    pub sequences: usize,
    pub last_line: u16,
    pub row: Row,
}

/// The system of a number, by one rule or another.
pub type Systems = fn(u64) -> Option<System>;

/// The table of "Three systems", with request A3's lines.
pub fn system(number: u64) -> Option<System> {
    match number {
        1 => Some(System { number, sequences: 10, last_line: 1125, row: ROW_1080 }),
        2 => Some(System { number, sequences: 12, last_line: 1125, row: ROW_1080 }),
        3 => Some(System { number, sequences: 10, last_line: 750, row: ROW_720 }),
        _ => None,
    }
}

/// The same as it was before request A3. What is refused with 20 is answered by it as if 20 were not tested.
pub fn system_before_a3(number: u64) -> Option<System> {
    system(number).map(|system| System { row: ROW_OF_ANY_LINE, ..system })
}

impl System {
    /// "The area holds only VAUX blocks of 80 bytes", 3 to a sequence, in 4 channels.
    pub fn area_bytes(&self) -> usize {
        80 * 3 * 4 * self.sequences
    }

    /// The places of each block's user bytes, in laying order: "by sequence, within it by block, within it by channel".
    pub fn blocks(&self) -> Vec<Vec<usize>> {
        let mut blocks = Vec::new();
        for q in 0..self.sequences {
            for j in 0..3 {
                for i in 0..4 {
                    // "Block j (0 to 2) of sequence q of channel i (0 to 3) starts at 80 x (3 x (n x i + q) + j)."
                    let start = 80 * (3 * (self.sequences * i + q) + j);
                    // "User bytes are 3 to 77 (75 bytes), but 3 to 47 in block 2 of an even sequence and 33 to 77 in block 0 of an odd
                    // one (45 bytes)"
                    let user = match (q % 2, j) {
                        (0, 2) => 3..=47,
                        (1, 0) => 33..=77,
                        _ => 3..=77,
                    };
                    blocks.push(user.map(|byte| start + byte).collect());
                }
            }
        }
        blocks
    }
}

/// Request A6: "Raise the limit to 1,275, the most that 8,928 bytes can hold." Document 01 had 512 wherever the limit stands.
pub const MOST_PACKETS: usize = 1_275;
/// The limit before request A6: "Sheets of 512 or fewer keep the same bytes; the old program refuses a larger one with 5." Cases stand on
/// both sides of it.
pub const FORMER_LIMIT: usize = 512;

/// The string capacity of system 2, the most that a frame has.
pub const LONGEST_STRING: usize = 8_928;
/// Room for the sheet of every frame, VANC_SHEET_MAX of vanc.h: as many packets as there may be, in the longest string.
pub const SHEET_MAX: usize = 4 + 2 * MOST_PACKETS + LONGEST_STRING;

// Laying.

pub fn lay(sheet: &[u16], packing: u64, area: &[u8]) -> Laid {
    lay_by(system, sheet, packing, area)
}

/// "On refusal the later figures are 0 and the area [..] is unchanged."
pub fn lay_by(systems: Systems, sheet: &[u16], packing: u64, area: &[u8]) -> Laid {
    laying(systems, sheet, packing, area).unwrap_or_else(|refusal| {
        let SheetRefusal { number, place, word } = refusal;
        Laid { number, place, word, packs: 0, bytes: 0, area: area.to_vec() }
    })
}

/// "Laying tests 1 to 6 in table order. Then packet by packet: 7; 8 on DID, SDID and DC; 9; 8 on the user words; 10. Then 11, 12." Request A3
/// has 20 behind 6.
fn laying(systems: Systems, sheet: &[u16], packing: u64, area: &[u8]) -> Result<Laid, SheetRefusal> {
    refuse_if(packing != 1 && packing != 2, 1, 0)?;
    let (sections, system) = sections_and_system(systems, sheet)?;
    refuse_if(area.len() != system.area_bytes(), 4, 0)?;
    let dancs: Vec<Vec<u8>> = packets_of_sections(&sections, &system)?.iter().map(danc).collect();
    let (blocks, string) = (system.blocks(), dancs.concat());
    // "12: over the packs (packing 1) or string bytes (packing 2)"
    let used = if packing == 1 { packs_of_five(&dancs).len() } else { string.len() };
    refuse_if(used > room(&blocks, packing), 12, 0)?;
    let packs = if packing == 1 { packs_of_five(&dancs) } else { long_packs(&string, &blocks) };
    Ok(Laid {
        number: 0,
        place: 0,
        word: 0,
        packs: packs.len() as u64,
        bytes: string.len() as u64,
        area: area_with(area, &blocks, &packs.concat()),
    })
}

/// The system and the packets of a sheet. "The lister [..] makes the tests 2, 3, 5 to 11". Request A3 has 20 among them.
pub fn listed(systems: Systems, sheet: &[u16]) -> Result<(System, Vec<Packet>), SheetRefusal> {
    let (sections, system) = sections_and_system(systems, sheet)?;
    let packets = packets_of_sections(&sections, &system)?;
    Ok((system, packets))
}

/// The same with packets as they are found. Request A13: "ten-bit export takes them as found and tests as A1".
pub fn listed_as_found(systems: Systems, sheet: &[u16]) -> Result<(System, Vec<Found>), SheetRefusal> {
    let (sections, system) = sections_and_system(systems, sheet)?;
    let located = located(&sections, &system, |left| found_in_front(left).map(|words| (words.len() + 3, words)))?;
    Ok((system, located.into_iter().map(|((line, flags), words)| Found { line, flags, words }).collect()))
}

/// The tests 2 and 3.
fn sections_and_system(systems: Systems, sheet: &[u16]) -> Result<(Sections<'_>, System), SheetRefusal> {
    let sections = sections(sheet).ok_or((2, 0))?;
    let system = systems(sections.system as u64).ok_or((3, 0))?;
    Ok((sections, system))
}

/// The packets, by the tests 5 to 11 and 20.
fn packets_of_sections(sections: &Sections, system: &System) -> Result<Vec<Packet>, SheetRefusal> {
    // Beside DID to the last user byte a packet has the flag's three words and CS.
    let located = located(sections, system, |left| packet_in_front(left).map(|bytes| (bytes.len() + 4, bytes)))?;
    Ok(located.into_iter().map(|((line, flags), bytes)| Packet { line, flags, bytes }).collect())
}

/// Each packet's line and flags, and what `in_front` keeps of its words: that gives the length of the packet that some words begin with, and
/// what is kept, or its fault. The tests 5 to 11, and 20. Request A3: "laying and the lister test it after 6 on all locations".
fn located<P>(
    sections: &Sections,
    system: &System,
    in_front: impl Fn(&[u16]) -> Result<(usize, P), Fault>,
) -> Result<Vec<((u16, u16), P)>, SheetRefusal> {
    let locations: Vec<(u16, u16)> = sections.locations.chunks(2).map(|pair| (pair[0], pair[1])).collect();
    refuse_if(locations.len() > MOST_PACKETS, 5, 0)?;
    for (k, &(line, flags)) in locations.iter().enumerate() {
        refuse_if(line > system.last_line || flags > 3, 6, k)?;
    }
    for (k, &(line, _)) in locations.iter().enumerate() {
        refuse_if(!system.allows(line), 20, k)?;
    }
    let mut packets = Vec::new();
    let mut left = sections.words;
    while !left.is_empty() {
        let place = packets.len() as u64;
        let (length, packet) = in_front(left).map_err(|fault| SheetRefusal { number: fault.number, place, word: fault.word })?;
        left = &left[length..];
        packets.push(packet);
    }
    refuse_if(packets.len() != locations.len(), 11, 0)?;
    Ok(locations.into_iter().zip(packets).collect())
}

/// A sheet's system and the numbers of sections B and C, without their counts.
struct Sections<'a> {
    system: u16,
    locations: &'a [u16],
    words: &'a [u16],
}

/// None for "section A's count is not 1, the sheet ends early, or numbers follow section C".
fn sections(sheet: &[u16]) -> Option<Sections<'_>> {
    if *sheet.first()? != 1 {
        return None;
    }
    let system = *sheet.get(1)?;
    let from_b = &sheet[2..];
    let p = *from_b.first()? as usize;
    let locations = from_b.get(1..1 + 2 * p)?;
    let from_c = &from_b[1 + 2 * p..];
    let w = *from_c.first()? as usize;
    let words = from_c.get(1..1 + w)?;
    if from_c.len() > 1 + w {
        return None;
    }
    Some(Sections { system, locations, words })
}

/// The frame's packs in packing 1, its string bytes in packing 2: "User bytes split into 15 or 9 packs", "72 or 42 string bytes".
pub fn room(blocks: &[Vec<usize>], packing: u64) -> usize {
    blocks.iter().map(|block| if packing == 1 { block.len() / 5 } else { block.len() - 3 }).sum()
}

/// "A starter pack is E1h, a reserved byte, and the three header bytes. A carrier is E2h and four further bytes; the last carrier's
/// unused bytes are FFh." - "Packets follow each other in the next pack, across blocks."
pub fn packs_of_five(dancs: &[Vec<u8>]) -> Vec<Vec<u8>> {
    let mut packs = Vec::new();
    for danc in dancs {
        packs.push(vec![0xE1, 0xFF, danc[0], danc[1], danc[2]]);
        for four in danc[3..].chunks(4) {
            let mut carrier = vec![0xE2];
            carrier.extend(four);
            carrier.resize(5, 0xFF);
            packs.push(carrier);
        }
    }
    packs
}

/// "One pack of 75 or 45 bytes per block: E3h; a byte with END in bit 0, the others reserved; a third byte not used for the string,
/// treated as reserved [..]; then 72 or 42 string bytes. END is 1, but 0 in the pack that holds the string's last byte. The unused end of
/// that pack is FFh." The string has room in the blocks.
pub fn long_packs(string: &[u8], blocks: &[Vec<usize>]) -> Vec<Vec<u8>> {
    let mut packs = Vec::new();
    let mut left = string;
    for block in blocks {
        if left.is_empty() {
            break;
        }
        let here = left.len().min(block.len() - 3);
        let end = if here == left.len() { 0xFE } else { 0xFF };
        let mut pack = vec![0xE3, end, 0xFF];
        pack.extend(&left[..here]);
        pack.resize(block.len(), 0xFF);
        packs.push(pack);
        left = &left[here..];
    }
    packs
}

/// The area with `user` as its first user bytes. "All other user bytes are FFh."
pub fn area_with(area: &[u8], blocks: &[Vec<usize>], user: &[u8]) -> Vec<u8> {
    let mut area = area.to_vec();
    for (k, &place) in blocks.concat().iter().enumerate() {
        area[place] = *user.get(k).unwrap_or(&0xFF);
    }
    area
}

// Reading.

pub fn read(system_number: u64, area: &[u8], buffer: &[u16]) -> ReadBack {
    read_by(system, system_number, area, buffer)
}

/// "On refusal the later figures are 0 and [..] the sheet buffer, is unchanged. On success the sheet buffer past the sheet is unchanged."
pub fn read_by(systems: Systems, system_number: u64, area: &[u8], buffer: &[u16]) -> ReadBack {
    let mut back = ReadBack { number: 0, place: 0, packing: 0, packets: 0, numbers: 0, buffer: buffer.to_vec() };
    match reading(systems, system_number, area, buffer.len()) {
        Err((number, place)) => (back.number, back.place) = (number, place),
        Ok((packing, packets)) => {
            let sheet = sheet(system_number, &packets);
            back.buffer[..sheet.len()].copy_from_slice(&sheet);
            back.packing = packing;
            back.packets = packets.len() as u64;
            back.numbers = sheet.len() as u64;
        }
    }
    back
}

/// The packing found and the packets. "Reading tests 3, 4, 13, then packet by packet 5 (only a 513th), 14, 15, 16, then 17." Request A6
/// has 1,275 for 512, "and so does 5's place on reading"; request A3 has 20 "after each packet's 16".
fn reading(systems: Systems, system_number: u64, area: &[u8], room: usize) -> Result<(u64, Vec<Packet>), Refusal> {
    let system = systems(system_number).ok_or((3, 0))?;
    refuse_if(area.len() != system.area_bytes(), 4, 0)?;
    let blocks: Vec<Vec<u8>> = system.blocks().iter().map(|block| block.iter().map(|&place| area[place]).collect()).collect();
    let (packing, packets) = match blocks[0][0] {
        // "The first user byte in laying order is FFh and so is every other."
        0xFF => {
            refuse_if(!is_fill(&blocks.concat()), 13, 0)?;
            (0, Vec::new())
        }
        0xE1 => (1, packets_of_starters(&starters(&blocks.concat()).ok_or((13, 0))?, &system)?),
        0xE3 => (2, packets_of_string(&string_of_long_packs(&blocks).ok_or((13, 0))?, &system)?),
        _ => return Err((13, 0)),
    };
    // "17: the sheet is longer than its buffer"
    refuse_if(sheet(system_number, &packets).len() > room, 17, 0)?;
    Ok((packing, packets))
}

fn is_fill(bytes: &[u8]) -> bool {
    bytes.iter().all(|&byte| byte == 0xFF)
}

/// For each starter its header bytes and all bytes of its carriers. None (for 13) unless "every pack is a starter, a carrier or five FFh,
/// each starter has a carrier after it, and nothing but fill follows fill".
fn starters(user: &[u8]) -> Option<Vec<Vec<u8>>> {
    let packs: Vec<&[u8]> = user.chunks(5).collect();
    let mut starters: Vec<Vec<u8>> = Vec::new();
    for (k, pack) in packs.iter().enumerate() {
        let after_fill = k > 0 && is_fill(packs[k - 1]);
        match pack[0] {
            0xE1 if !after_fill && packs.get(k + 1).map_or(false, |next| next[0] == 0xE2) => {
                starters.push(pack[2..].to_vec());
            }
            0xE2 if !after_fill => starters.last_mut()?.extend(&pack[1..]),
            _ if is_fill(pack) => {}
            _ => return None,
        }
    }
    Some(starters)
}

/// "14, packing 1: a starter's carriers are not exactly as many as its DC needs, or the unused bytes are not FFh."
fn packets_of_starters(starters: &[Vec<u8>], system: &System) -> Result<Vec<Packet>, Refusal> {
    let mut packets = Vec::new();
    for (k, bytes) in starters.iter().enumerate() {
        // "5: reading: after 512 packets, not the end", with the limit of request A6
        refuse_if(k == MOST_PACKETS, 5, MOST_PACKETS)?;
        // Seven bytes and the user bytes: three in the starter, four in each carrier.
        let length = bytes[5] as usize + 7;
        let carriers = length / 4; // the other length - 3 bytes by fours, rounded up
        refuse_if(bytes.len() != 3 + 4 * carriers || !is_fill(&bytes[length..]), 14, k)?;
        packets.push(from_danc(&bytes[..length], system).map_err(|number| (number, k as u64))?);
    }
    Ok(packets)
}

/// The string bytes of all packs, and which of them is the last pack's first.
struct LongString {
    bytes: Vec<u8>,
    last_pack: usize,
}

/// None (for 13) unless "the packs run from the first block without a gap, only the last has END 0, and every later user byte is FFh".
fn string_of_long_packs(blocks: &[Vec<u8>]) -> Option<LongString> {
    let mut bytes = Vec::new();
    for (k, block) in blocks.iter().enumerate() {
        if block[0] != 0xE3 {
            return None;
        }
        let last_pack = bytes.len();
        bytes.extend(&block[3..]);
        if block[1] & 1 == 0 {
            return is_fill(&blocks[k + 1..].concat()).then_some(LongString { bytes, last_pack });
        }
    }
    None
}

/// "Packing 2: the string bytes of all packs are walked. At a packet boundary past the first string byte of the last pack, if all that
/// remains is FFh or nothing remains, the walk ends; otherwise 14 is given if fewer than 7 or fewer than DC + 7 bytes remain."
fn packets_of_string(string: &LongString, system: &System) -> Result<Vec<Packet>, Refusal> {
    let mut packets = Vec::new();
    let mut place = 0;
    while !(place > string.last_pack && is_fill(&string.bytes[place..])) {
        let k = packets.len();
        // "5: reading: after 512 packets, not the end", with the limit of request A6
        refuse_if(k == MOST_PACKETS, 5, MOST_PACKETS)?;
        let danc = first_danc(&string.bytes[place..]).ok_or((14, k as u64))?;
        packets.push(from_danc(danc, system).map_err(|number| (number, k as u64))?);
        place += danc.len();
    }
    Ok(packets)
}

/// The DC + 7 bytes at the front. None (for 14) if "fewer than 7 or fewer than DC + 7 bytes remain".
fn first_danc(string: &[u8]) -> Option<&[u8]> {
    if string.len() < 7 {
        return None;
    }
    string.get(..string[5] as usize + 7)
}

// Walking.

/// "Each step gives the next packet's place and length, the string's end, or 14, 15 or 16, tested in that order, for that packet." - "an
/// unknown system is 3 at place 0, even with nothing to walk." - "a place past the string's end answers the end." Request A3: the walker
/// tests 20 "after each packet's 16".
pub fn walk_by(systems: Systems, system_number: u64, string: &[u8], place: u64) -> Step {
    let system = match systems(system_number) {
        Some(system) => system,
        None => return Step { number: 3, place: 0, length: 0 },
    };
    if place >= string.len() as u64 {
        return Step { number: 0, place, length: 0 };
    }
    // "a refusal carries the place where that packet starts"
    let danc = match first_danc(&string[place as usize..]) {
        Some(danc) => danc,
        None => return Step { number: 14, place, length: 0 },
    };
    match from_danc(danc, &system) {
        Ok(_) => Step { number: 0, place, length: danc.len() as u64 },
        Err(number) => Step { number, place, length: 0 },
    }
}
