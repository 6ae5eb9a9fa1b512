//! Ways to make a call smaller or plainer. Each takes the run of `count` parts from `start` on; the run may reach past the last part.

use std::ops::Range;

use crate::cases::Call;
use crate::element::{self, ELEMENT_SHEET_MAX};
use crate::element10::{self, ELEMENT10_MAX};
use crate::packet;
use crate::rules::{area_with, lay, long_packs, read, system, SHEET_MAX};

/// A measure of how much a call is given that matters: numbers of the sheet, user bytes up to the fill, bytes of the string or element.
pub fn size(call: &Call) -> usize {
    match call {
        Call::Lay { sheet, .. } | Call::MxfWrite { sheet, .. } => sheet.len(),
        Call::Read { .. } => 5 * area_packs(call),
        Call::Walk { string, .. } => string.len(),
        Call::MxfRead { element, .. } => element.len(),
        Call::TestPacket { words } => words.len(),
    }
}

pub fn run(start: usize, count: usize, of: usize) -> Range<usize> {
    start.min(of)..(start + count).min(of)
}

pub fn without<T: Clone>(from: &[T], start: usize, count: usize) -> Vec<T> {
    let mut left = from.to_vec();
    left.drain(run(start, count, from.len()));
    left
}

// Sheets.

/// The sheet that is laid or written to an element, or that an area or element gives.
fn sheet(call: &Call) -> Option<Vec<u16>> {
    match call {
        Call::Lay { sheet, .. } | Call::MxfWrite { sheet, .. } => Some(sheet.clone()),
        Call::Read { system, area, .. } => {
            let back = read(*system, area, &[0; SHEET_MAX]);
            (back.packets > 0).then(|| back.buffer[..back.numbers as usize].to_vec())
        }
        Call::MxfRead { ten, system: number, fi, element, .. } => {
            let back = element::read_by(element10::coding(*ten), system, *number, *fi, element, &[0; ELEMENT_SHEET_MAX]);
            (back.packets > 0).then(|| back.buffer[..back.numbers as usize].to_vec())
        }
        Call::Walk { .. } | Call::TestPacket { .. } => None,
    }
}

/// The call with another sheet to lay or to write, or with an area that gives this sheet and has the packing that it had, or with an
/// element that gives this sheet, without padding.
fn with_sheet(call: &Call, sheet: Vec<u16>) -> Option<Call> {
    match call {
        Call::Lay { packing, area, .. } => Some(Call::Lay { sheet, packing: *packing, area: area.clone() }),
        Call::MxfWrite { ten, fi, element, .. } => Some(Call::MxfWrite { ten: *ten, sheet, fi: *fi, element: element.clone() }),
        Call::Read { system, area, .. } => {
            let packing = read(*system, area, &[0; SHEET_MAX]).packing;
            let laid = lay(&sheet, packing, area);
            if laid.number != 0 {
                return None;
            }
            with_area(call, laid.area)
        }
        Call::MxfRead { ten, system: number, fi, buffer, .. } => {
            let written = element10::write_either(*ten, system, &sheet, *fi, &[0; ELEMENT10_MAX]);
            if written.number != 0 {
                return None;
            }
            let element = written.element[..written.bytes as usize].to_vec();
            Some(Call::MxfRead { ten: *ten, system: *number, fi: *fi, element, buffer: buffer.clone() })
        }
        Call::Walk { .. } | Call::TestPacket { .. } => None,
    }
}

/// A sheet whose counts agree with its length, in parts. Words that do not make a packet stand as a last one.
struct Parts {
    head: [u16; 2],
    locations: Vec<[u16; 2]>,
    packets: Vec<Vec<u16>>,
}

fn parts(call: &Call) -> Option<Parts> {
    let sheet = sheet(call)?;
    let count = *sheet.get(2)? as usize;
    let words = sheet.get(4 + 2 * count..)?;
    if sheet[3 + 2 * count] as usize != words.len() {
        return None;
    }
    let mut packets = Vec::new();
    let mut left = words;
    while !left.is_empty() {
        let length = left.get(5).map_or(left.len(), |dc| (dc & 0xFF) as usize + 7).min(left.len());
        packets.push(left[..length].to_vec());
        left = &left[length..];
    }
    let locations = sheet[3..3 + 2 * count].chunks(2).map(|pair| [pair[0], pair[1]]).collect();
    Some(Parts { head: [sheet[0], sheet[1]], locations, packets })
}

/// The call with its sheet made anew.
fn with_parts(call: &Call, parts: Parts) -> Option<Call> {
    let words = parts.packets.concat();
    let mut sheet = parts.head.to_vec();
    sheet.push(parts.locations.len() as u16);
    sheet.extend(parts.locations.concat());
    sheet.push(words.len() as u16);
    sheet.extend(words);
    with_sheet(call, sheet)
}

pub fn packets(call: &Call) -> usize {
    parts(call).map_or(0, |parts| parts.packets.len())
}

pub fn without_packets(call: &Call, start: usize, count: usize) -> Option<Call> {
    let parts = parts(call)?;
    let locations = without(&parts.locations, start, count);
    with_parts(call, Parts { locations, packets: without(&parts.packets, start, count), ..parts })
}

/// Words of a sheet that is given: those of an area or element do not make sound packets when some are missing.
pub fn words(call: &Call) -> usize {
    match call {
        Call::Lay { .. } | Call::MxfWrite { .. } => parts(call).map_or(0, |parts| parts.packets.concat().len()),
        _ => 0,
    }
}

pub fn without_words(call: &Call, start: usize, count: usize) -> Option<Call> {
    let parts = parts(call)?;
    let packets = vec![without(&parts.packets.concat(), start, count)];
    with_parts(call, Parts { packets, ..parts })
}

pub fn locations(call: &Call) -> usize {
    match call {
        Call::Lay { .. } | Call::MxfWrite { .. } => parts(call).map_or(0, |parts| parts.locations.len()),
        _ => 0,
    }
}

pub fn without_locations(call: &Call, start: usize, count: usize) -> Option<Call> {
    let parts = parts(call)?;
    with_parts(call, Parts { locations: without(&parts.locations, start, count), ..parts })
}

pub fn location_numbers(call: &Call) -> usize {
    parts(call).map_or(0, |parts| 2 * parts.locations.len())
}

/// All numbers of a sheet that is given, whatever its counts say.
pub fn numbers(call: &Call) -> usize {
    match call {
        Call::Lay { sheet, .. } | Call::MxfWrite { sheet, .. } => sheet.len(),
        _ => 0,
    }
}

pub fn without_numbers(call: &Call, start: usize, count: usize) -> Option<Call> {
    let sheet = match call {
        Call::Lay { sheet, .. } | Call::MxfWrite { sheet, .. } => sheet,
        _ => return None,
    };
    with_sheet(call, without(sheet, start, count))
}

/// The lines and flags in the run become 0.
pub fn with_locations_of_0(call: &Call, start: usize, count: usize) -> Option<Call> {
    let mut parts = parts(call)?;
    let mut numbers = parts.locations.concat();
    let run = run(start, count, numbers.len());
    numbers[run].fill(0);
    parts.locations = numbers.chunks(2).map(|pair| [pair[0], pair[1]]).collect();
    with_parts(call, parts)
}

/// The packets in the run, sound ones put in their place: the same DID and SDID, and as many user bytes as `keep` says of DC.
fn with_user_words(call: &Call, start: usize, count: usize, keep: fn(usize) -> usize) -> Option<Call> {
    let mut parts = parts(call)?;
    let run = run(start, count, parts.packets.len());
    for words in parts.packets[run].iter_mut().filter(|words| words.len() >= 7) {
        let dc = keep((words[5] & 0xFF) as usize).min(words.len() - 7);
        let mut bytes = vec![words[3] as u8, words[4] as u8, dc as u8];
        bytes.extend(words[6..6 + dc].iter().map(|&word| word as u8));
        *words = packet::words(&packet::Packet { line: 0, flags: 0, bytes });
    }
    with_parts(call, parts)
}

pub fn with_user_words_halved(call: &Call, start: usize, count: usize) -> Option<Call> {
    with_user_words(call, start, count, |dc| dc / 2)
}

pub fn with_one_user_word_less(call: &Call, start: usize, count: usize) -> Option<Call> {
    with_user_words(call, start, count, |dc| dc.saturating_sub(1))
}

/// The packets in the run become DID 45h, SDID 01h and user bytes 00h, with the same DC.
pub fn with_plain_packets(call: &Call, start: usize, count: usize) -> Option<Call> {
    let mut parts = parts(call)?;
    let run = run(start, count, parts.packets.len());
    for words in parts.packets[run].iter_mut().filter(|words| words.len() >= 7) {
        let dc = words.len() - 7;
        let mut bytes = vec![0x45, 0x01, dc as u8];
        bytes.resize(3 + dc, 0x00);
        *words = packet::words(&packet::Packet { line: 0, flags: 0, bytes });
    }
    with_parts(call, parts)
}

// Areas.

/// The area that a call lays into or reads.
fn area(call: &Call) -> &[u8] {
    match call {
        Call::Lay { area, .. } | Call::Read { area, .. } => area,
        _ => &[],
    }
}

fn with_area(call: &Call, area: Vec<u8>) -> Option<Call> {
    match call {
        Call::Lay { sheet, packing, .. } => Some(Call::Lay { sheet: sheet.clone(), packing: *packing, area }),
        Call::Read { system, buffer, .. } => Some(Call::Read { system: *system, area, buffer: buffer.clone() }),
        _ => None,
    }
}

pub fn area_bytes(call: &Call) -> usize {
    area(call).len()
}

pub fn with_fill(call: &Call, start: usize, count: usize) -> Option<Call> {
    let mut area = area(call).to_vec();
    let run = run(start, count, area.len());
    area[run].fill(0xFF);
    with_area(call, area)
}

/// The places of the user bytes by block, of an area that is read and has its system's length.
fn blocks(call: &Call) -> Option<Vec<Vec<usize>>> {
    let (number, area) = match call {
        Call::Read { system, area, .. } => (system, area),
        _ => return None,
    };
    system(*number).filter(|system| system.area_bytes() == area.len()).map(|system| system.blocks())
}

/// The packs of 5 up to the last that is not fill.
fn packs(call: &Call) -> Vec<Vec<u8>> {
    let places = blocks(call).unwrap_or_default().concat();
    let user: Vec<u8> = places.iter().map(|&place| area(call)[place]).collect();
    let used = user.iter().rposition(|&byte| byte != 0xFF).map_or(0, |last| last / 5 + 1);
    user.chunks(5).take(used).map(<[u8]>::to_vec).collect()
}

pub fn area_packs(call: &Call) -> usize {
    packs(call).len()
}

/// Later packs of 5 move up, and fill follows them.
pub fn without_packs(call: &Call, start: usize, count: usize) -> Option<Call> {
    with_area(call, area_with(area(call), &blocks(call)?, &without(&packs(call), start, count).concat()))
}

/// The packs of 5, each starter and what stands behind it together.
pub fn by_starter(call: &Call) -> Vec<Vec<u8>> {
    let mut groups: Vec<Vec<u8>> = Vec::new();
    for pack in packs(call) {
        match groups.last_mut() {
            Some(group) if pack[0] != 0xE1 => group.extend(pack),
            _ => groups.push(pack),
        }
    }
    groups
}

pub fn starters(call: &Call) -> usize {
    by_starter(call).len()
}

pub fn without_starters(call: &Call, start: usize, count: usize) -> Option<Call> {
    with_area(call, area_with(area(call), &blocks(call)?, &without(&by_starter(call), start, count).concat()))
}

/// The string bytes of the long packs that stand first.
fn string(call: &Call) -> Option<Vec<u8>> {
    let blocks = blocks(call)?;
    let long = blocks.iter().take_while(|block| area(call)[block[0]] == 0xE3);
    Some(long.flat_map(|block| &block[3..]).map(|&place| area(call)[place]).collect())
}

/// The call with long packs that hold this string.
fn with_string(call: &Call, string: &[u8]) -> Option<Call> {
    let blocks = blocks(call)?;
    with_area(call, area_with(area(call), &blocks, &long_packs(string, &blocks).concat()))
}

pub fn string_bytes(call: &Call) -> usize {
    string(call).map_or(0, |string| string.len())
}

pub fn without_string_bytes(call: &Call, start: usize, count: usize) -> Option<Call> {
    with_string(call, &without(&string(call)?, start, count))
}

/// The string of an area, cut where its DCs say that packets end.
pub fn by_packet(call: &Call) -> Option<Vec<Vec<u8>>> {
    let string = string(call)?;
    let mut left = &string[..];
    let mut packets = Vec::new();
    while !left.is_empty() {
        let length = left.get(5).map_or(left.len(), |&dc| dc as usize + 7).min(left.len());
        packets.push(left[..length].to_vec());
        left = &left[length..];
    }
    Some(packets)
}

pub fn string_packets(call: &Call) -> usize {
    by_packet(call).map_or(0, |packets| packets.len())
}

pub fn without_string_packets(call: &Call, start: usize, count: usize) -> Option<Call> {
    with_string(call, &without(&by_packet(call)?, start, count).concat())
}

// Sheet buffers.

fn buffer(call: &Call) -> &[u16] {
    match call {
        Call::Read { buffer, .. } | Call::MxfRead { buffer, .. } => buffer,
        _ => &[],
    }
}

pub fn buffer_numbers(call: &Call) -> usize {
    buffer(call).len()
}

fn with_buffer(call: &Call, new: Vec<u16>) -> Option<Call> {
    let mut call = call.clone();
    match &mut call {
        Call::Read { buffer, .. } | Call::MxfRead { buffer, .. } => *buffer = new,
        _ => return None,
    }
    Some(call)
}

pub fn without_buffer_numbers(call: &Call, start: usize, count: usize) -> Option<Call> {
    with_buffer(call, without(buffer(call), start, count))
}

pub fn with_zeros_in_buffer(call: &Call, start: usize, count: usize) -> Option<Call> {
    let mut buffer = buffer(call).to_vec();
    let run = run(start, count, buffer.len());
    buffer[run].fill(0);
    with_buffer(call, buffer)
}

// Strings.

pub fn walked_bytes(call: &Call) -> usize {
    match call {
        Call::Walk { string, .. } => string.len(),
        _ => 0,
    }
}

/// The place stays with its byte, where that stays.
pub fn without_walked_bytes(call: &Call, start: usize, count: usize) -> Option<Call> {
    let (system, string, place) = match call {
        Call::Walk { system, string, place } => (system, string, place),
        _ => return None,
    };
    let before = run(start, count, string.len()).len() as u64;
    let place = if *place >= start as u64 + before { place - before } else { *place };
    Some(Call::Walk { system: *system, string: without(string, start, count), place })
}

pub fn with_zeros_in_string(call: &Call, start: usize, count: usize) -> Option<Call> {
    let (system, string, place) = match call {
        Call::Walk { system, string, place } => (system, string, place),
        _ => return None,
    };
    let mut string = string.clone();
    let run = run(start, count, string.len());
    string[run].fill(0);
    Some(Call::Walk { system: *system, string, place: *place })
}

// Systems, packings, places and FI.

/// The plainer values of packing or system, and of the place.
const PLAIN: [u64; 4] = [1, 2, 3, 0];

pub fn settings(call: &Call) -> usize {
    match call {
        Call::Walk { .. } => PLAIN.len() + 2,
        Call::MxfWrite { .. } | Call::MxfRead { .. } => PLAIN.len() + 1,
        Call::TestPacket { .. } => 0,
        _ => PLAIN.len(),
    }
}

/// One setting after another, and only where it is plainer than what stands there.
pub fn with_plain_setting(call: &Call, which: usize, count: usize) -> Option<Call> {
    if count != 1 {
        return None;
    }
    let rank = |value: u64| PLAIN.iter().position(|&plain| plain == value).unwrap_or(PLAIN.len());
    let plainer = |value: u64| if which < rank(value) { PLAIN.get(which).copied() } else { None };
    let mut call = call.clone();
    match &mut call {
        Call::Walk { place, .. } if which == PLAIN.len() => *place /= 2,
        Call::Walk { place, .. } if which > PLAIN.len() => *place = place.saturating_sub(1),
        Call::MxfWrite { fi, .. } | Call::MxfRead { fi, .. } if which == PLAIN.len() => *fi = false,
        Call::MxfWrite { .. } | Call::TestPacket { .. } => return None,
        Call::Lay { packing: value, .. }
        | Call::Read { system: value, .. }
        | Call::Walk { system: value, .. }
        | Call::MxfRead { system: value, .. } => {
            *value = plainer(*value)?;
        }
    }
    Some(call)
}
