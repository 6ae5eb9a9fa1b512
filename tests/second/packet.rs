//! The ten-bit packet and its test, sound or as found, its DANC bytes and the sheet. Quotations are from document 01 and the requests A2, A3 and
//! A13.

use crate::rules::System;

/// A packet and its location. `bytes` are the low eight bits of DID, SDID or DBN, DC and the user words.
#[derive(Clone)]
pub struct Packet {
    pub line: u16,
    pub flags: u16,
    pub bytes: Vec<u8>,
}

/// A packet as it is found, and its location: all of its words from DID to CS, each of ten bits.
#[derive(Clone)]
pub struct Found {
    pub line: u16,
    pub flags: u16,
    pub words: Vec<u16>,
}

/// The words in front of DID.
const FLAG: [u16; 3] = [0x000, 0x3FF, 0x3FF];

/// "bit 9 is the inverse of bit 8"
pub fn with_bit_9(nine_bits: u16) -> u16 {
    if nine_bits & 0x100 == 0 {
        nine_bits | 0x200
    } else {
        nine_bits
    }
}

/// "bit 8 makes the count of ones in bits 8 to 0 even, and bit 9 is the inverse of bit 8"
pub fn parity_word(byte: u8) -> u16 {
    let bit_8 = byte.count_ones() as u16 % 2;
    with_bit_9(bit_8 << 8 | byte as u16)
}

/// "CS holds in bits 8 to 0 the sum, modulo 512, of the low nine bits of DID through the last user word; its bit 9 is the inverse of
/// its bit 8."
pub fn checksum_word(bytes: &[u8]) -> u16 {
    let mut sum = 0;
    for &byte in bytes {
        sum = (sum + (parity_word(byte) & 0x1FF)) % 512;
    }
    with_bit_9(sum)
}

/// "Ten-bit words: 000h, 3FFh, 3FFh; DID; SDID or DBN; DC; DC user words (0 to 255); CS."
pub fn words(packet: &Packet) -> Vec<u16> {
    let mut words = FLAG.to_vec();
    words.extend(packet.bytes.iter().map(|&byte| parity_word(byte)));
    words.push(checksum_word(&packet.bytes));
    words
}

/// The first fault of a packet: its number, 7 to 10, and "which of its words, from 0, is the first at fault".
pub struct Fault {
    pub number: u64,
    pub word: u64,
}

fn fault(number: u64, word: usize) -> Fault {
    Fault { number, word: word as u64 }
}

/// "8: a word from DID to the last user word is not its low byte with right bits above"
fn has_parity(word: u16) -> bool {
    word == parity_word(word as u8)
}

/// Request A13: "gives 8 only for a word over 3FFh". A sheet's numbers have 16 bits.
fn has_ten_bits(word: u16) -> bool {
    word <= 0x3FF
}

/// 8 for the first of the words from `first` up to `end` that is not right.
fn all_right(words: &[u16], first: usize, end: usize, is_right: fn(u16) -> bool) -> Result<(), Fault> {
    let wrong = words[first..end].iter().position(|&word| !is_right(word));
    wrong.map_or(Ok(()), |k| Err(fault(8, first + k)))
}

/// "7: fewer than 7 words left, or no 000h 3FFh 3FFh" - "For 7 it is the first wrong flag word, else the first missing word"
fn begins(words: &[u16]) -> Result<(), Fault> {
    let wrong_flag = words.iter().zip(FLAG).position(|(&word, right)| word != right);
    if wrong_flag.is_some() || words.len() < 7 {
        return Err(fault(7, wrong_flag.unwrap_or(words.len())));
    }
    Ok(())
}

/// DC. "9: fewer than DC + 7 words left" - "for 9 the first missing" - "DC's low byte still gives the length"
fn whole(words: &[u16]) -> Result<usize, Fault> {
    let dc = (words[5] & 0xFF) as usize;
    if words.len() < dc + 7 {
        return Err(fault(9, words.len()));
    }
    Ok(dc)
}

/// DID to the last user byte of the packet that the words begin with, or its first fault: "7; 8 on DID, SDID and DC; 9; 8 on the user words;
/// 10". What stands behind CS is not its.
pub fn packet_in_front(words: &[u16]) -> Result<Vec<u8>, Fault> {
    begins(words)?;
    all_right(words, 3, 6, has_parity)?;
    let dc = whole(words)?;
    all_right(words, 6, 6 + dc, has_parity)?;
    let bytes: Vec<u8> = words[3..6 + dc].iter().map(|&word| word as u8).collect();
    // "10: CS wrong"
    if words[6 + dc] != checksum_word(&bytes) {
        return Err(fault(10, 6 + dc));
    }
    Ok(bytes)
}

/// DID to CS of the packet that the words begin with, taken as found, or its first fault. Request A13: "ten-bit export takes them as found and
/// tests as A1, but gives 8 only for a word over 3FFh, CS too, and never 10".
pub fn found_in_front(words: &[u16]) -> Result<Vec<u16>, Fault> {
    begins(words)?;
    all_right(words, 3, 6, has_ten_bits)?;
    let dc = whole(words)?;
    all_right(words, 6, 7 + dc, has_ten_bits)?;
    Ok(words[3..7 + dc].to_vec())
}

/// What the test of a packet gives back.
pub struct Judged {
    pub number: u64,
    pub word: u64,
    pub kind: u64,
}

/// "on success whether the packet is Type 1 (DID 80h or above) or Type 2"
pub fn test_packet(words: &[u16]) -> Judged {
    match packet_in_front(words) {
        Ok(bytes) => Judged { number: 0, word: 0, kind: if bytes[0] >= 0x80 { 1 } else { 2 } },
        Err(fault) => Judged { number: fault.number, word: fault.word, kind: 0 },
    }
}

/// "Header byte 0: LE in bit 7, line bits 6 to 0 below it. Header byte 1: FI in bit 7, reserved bits 6 and 5, YCF in bit 4, line bits
/// 10 to 7 in bits 3 to 0. Header byte 2: reserved." - "With no line, LE and all line bits are written 0". "Reserved bits are written 1".
fn header(line: u16, flags: u16) -> [u8; 3] {
    let le = if line == 0 { 0x00 } else { 0x80 };
    let fi = if flags & 1 == 0 { 0x00 } else { 0x80 };
    let ycf = if flags & 2 == 0 { 0x00 } else { 0x10 };
    [le | (line % 128) as u8, fi | 0x60 | ycf | (line / 128) as u8, 0xFF]
}

/// "Three header bytes stand in place of the flag, then the low eight bits of each word, CS included."
pub fn danc(packet: &Packet) -> Vec<u8> {
    let mut bytes = header(packet.line, packet.flags).to_vec();
    bytes.extend(&packet.bytes);
    bytes.push(checksum_word(&packet.bytes) as u8);
    bytes
}

/// The packet of DANC bytes, or 15, 16 or 20. `danc` holds exactly DC + 7 bytes.
pub fn from_danc(danc: &[u8], system: &System) -> Result<Packet, u64> {
    let (bytes, checksum) = (&danc[3..danc.len() - 1], danc[danc.len() - 1]);
    // "15: stored CS byte is not the sum's low byte"
    if checksum != checksum_word(bytes) as u8 {
        return Err(15);
    }
    // "a reader disregards line bits when LE is 0"
    let mut line = 0;
    if danc[0] & 0x80 != 0 {
        line = (danc[1] % 16) as u16 * 128 + (danc[0] % 128) as u16;
        // "16: LE is 1 and the line is 0 or past the last"
        if line == 0 || line > system.last_line {
            return Err(16);
        }
        // "20 [..] a line in the frame that isn't allowed", "after each packet's 16"
        if !system.allows(line) {
            return Err(20);
        }
    }
    let (fi, ycf) = (danc[1] >> 7, danc[1] >> 4 & 1);
    Ok(Packet { line, flags: (fi + 2 * ycf) as u16, bytes: bytes.to_vec() })
}

/// "A: the count 1, then the system. B: the count P of locations, then P pairs: line [..] and flags [..]. C: the count W of words, then
/// W words: packets back to back."
pub fn sheet(system: u64, packets: &[Packet]) -> Vec<u16> {
    let found: Vec<Found> = packets.iter().map(as_found).collect();
    sheet_as_found(system, &found)
}

/// The same of packets as they are found: the flag in front of each.
pub fn sheet_as_found(system: u64, packets: &[Found]) -> Vec<u16> {
    let mut sheet = vec![1, system as u16, packets.len() as u16];
    for packet in packets {
        sheet.extend([packet.line, packet.flags]);
    }
    let words: Vec<u16> = packets.iter().flat_map(|packet| FLAG.into_iter().chain(packet.words.iter().copied())).collect();
    sheet.push(words.len() as u16);
    sheet.extend(words);
    sheet
}

/// A sound packet with all its words.
pub fn as_found(packet: &Packet) -> Found {
    Found { line: packet.line, flags: packet.flags, words: words(packet)[3..].to_vec() }
}
