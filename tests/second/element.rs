//! The MXF element of request A1, written and read a second time and as plainly as it goes; and of the ten-bit element what it has in common
//! with it (the rest is in element10.rs). Quotations are from request A1, and from ST 436-1 where that is named.

use crate::packet::{as_found, sheet_as_found, Found, Packet};
use crate::rules::{listed, refuse_if, system, Refusal, SheetRefusal, System, Systems, MOST_PACKETS};

/// What writing an element gives back, and the element buffer after it.
pub struct Written {
    pub number: u64,
    pub place: u64,
    pub word: u64,
    pub packets: u64,
    pub bytes: u64,
    pub element: Vec<u8>,
}

/// What reading an element gives back, and the sheet buffer after it.
pub struct ElementRead {
    pub number: u64,
    pub place: u64,
    pub packets: u64,
    pub numbers: u64,
    pub buffer: Vec<u16>,
}

/// ST 436-1, table 6.
pub const KEY: [u8; 16] = [0x06, 0x0E, 0x2B, 0x34, 0x01, 0x02, 0x01, 0x01, 0x0D, 0x01, 0x03, 0x01, 0x17, 0x01, 0x02, 0x01];
/// ST 436-1, table 5: "83.xx.xx.xxh", a length in three bytes.
pub const LONG_FORM: u8 = 0x83;
/// Key, length and N.
pub const HEAD: usize = 22;
/// Line, wrapping, coding, sample count, array count and array element length: a structure without its array.
pub const FRONT: usize = 14;
/// ST 436-1, table 7: "The Payload Array Element Length shall be 1."
const ARRAY_ELEMENT: u32 = 1;
/// The most that section C's count can say.
pub const MOST_WORDS: usize = 65_535;
/// Room for the element of every sheet, VANC_ELEMENT_MAX of vanc.h: a packet's structure has ten bytes more than the packet has words.
pub const ELEMENT_MAX: usize = HEAD + MOST_WORDS + 10 * MOST_PACKETS;
/// Room for the sheet of every element, VANC_ELEMENT_SHEET_MAX of vanc.h.
pub const ELEMENT_SHEET_MAX: usize = 4 + 2 * MOST_PACKETS + MOST_WORDS;

/// What sets the elements of one sample coding apart.
pub struct Coding {
    /// Their numbers in ST 436-1, table 7.
    pub luma: u8,
    pub colour: u8,
    /// How many samples a packet has beside its user words.
    pub beside_user: usize,
    /// How many bytes so many samples take.
    pub bytes: fn(usize) -> usize,
    /// DC, of an array of at least `beside_user` samples.
    pub dc: fn(&[u8]) -> usize,
    /// The words from DID to CS, of an array without padding and the number of its samples.
    pub words: fn(&[u8], usize) -> Vec<u16>,
}

/// "Coding is 8-bit; samples run from DID to the last user word, without CS": table 7's "8-bit luma samples" and "8-bit color difference
/// samples".
pub const EIGHT: Coding = Coding {
    luma: 4,
    colour: 5,
    beside_user: 3,
    bytes: |samples| samples,
    dc: |array| array[2] as usize,
    words: |array, _| as_found(&Packet { line: 0, flags: 0, bytes: array.to_vec() }).words,
};

/// "Wrapping is VANC frame for 1080, VANC progressive frame for 720, no other."
pub fn wrapping(system: &System) -> u8 {
    match system.number {
        3 => 0x04,
        _ => 0x01,
    }
}

/// "For 720/60p one call serves one FI value and passes over packets of the other." For 1080 the call's FI has no effect.
pub fn serves(system: &System, fi: bool, flags: u16) -> bool {
    system.number != 3 || (flags & 1 == 1) == fi
}

// Writing.

pub fn write(sheet: &[u16], fi: bool, buffer: &[u8]) -> Written {
    write_by(system, sheet, fi, buffer)
}

pub fn write_by(systems: Systems, sheet: &[u16], fi: bool, buffer: &[u8]) -> Written {
    let exported = listed(systems, sheet).and_then(|(system, packets)| {
        let structures = packets.iter().map(|packet| (packet.line, packet.flags, structure(&system, packet)));
        export(&system, fi, structures, buffer.len())
    });
    written(exported, buffer)
}

/// On refusal the later figures are 0: "target unchanged". On success the buffer past the element is unchanged.
pub fn written(exported: Result<(usize, Vec<u8>), SheetRefusal>, buffer: &[u8]) -> Written {
    let mut written = Written { number: 0, place: 0, word: 0, packets: 0, bytes: 0, element: buffer.to_vec() };
    match exported {
        Err(refusal) => (written.number, written.place, written.word) = (refusal.number, refusal.place, refusal.word),
        Ok((packets, element)) => {
            written.element[..element.len()].copy_from_slice(&element);
            written.packets = packets as u64;
            written.bytes = element.len() as u64;
        }
    }
    written
}

/// How many packets are served, and the element; of each packet in the sheet its line, its flags and its structure are given. "On export the
/// lister's, 18, with the packet, for one served without a line, 17".
pub fn export(
    system: &System,
    fi: bool,
    packets: impl Iterator<Item = (u16, u16, Vec<u8>)>,
    room: usize,
) -> Result<(usize, Vec<u8>), SheetRefusal> {
    let mut served = Vec::new();
    // The packet's number counts those that are passed over.
    for (k, (line, flags, structure)) in packets.enumerate() {
        if serves(system, fi, flags) {
            refuse_if(line == 0, 18, k)?;
            served.push(structure);
        }
    }
    let element = element(&served);
    refuse_if(element.len() > room, 17, 0)?;
    Ok((served.len(), element))
}

/// ST 436-1, tables 5 and 7: key, length, N and the structures. "The value of the length property shall be the length of the ANC Element
/// Value."
pub fn element(structures: &[Vec<u8>]) -> Vec<u8> {
    let mut value = (structures.len() as u16).to_be_bytes().to_vec();
    value.extend(structures.concat());
    let mut element = KEY.to_vec();
    element.push(LONG_FORM);
    element.extend(&(value.len() as u32).to_be_bytes()[1..]);
    element.extend(value);
    element
}

pub fn structure(system: &System, packet: &Packet) -> Vec<u8> {
    let mut bytes = front(&EIGHT, system, packet.line, packet.flags, packet.bytes.len());
    bytes.extend(&packet.bytes);
    bytes
}

/// ST 436-1, table 7: line, wrapping, coding, sample count, and of the array its count and its element length. No padding is written.
pub fn front(coding: &Coding, system: &System, line: u16, flags: u16, samples: usize) -> Vec<u8> {
    let mut bytes = line.to_be_bytes().to_vec();
    bytes.push(wrapping(system));
    // "The legend of figure 6 in 001 decides which YCF value is luma": YCF = 1 is the Y signal.
    bytes.push(if flags & 2 == 2 { coding.luma } else { coding.colour });
    bytes.extend((samples as u16).to_be_bytes());
    bytes.extend(((coding.bytes)(samples) as u32).to_be_bytes());
    bytes.extend(ARRAY_ELEMENT.to_be_bytes());
    bytes
}

// Reading.

#[cfg(test)]
pub fn read(system_number: u64, fi: bool, element: &[u8], buffer: &[u16]) -> ElementRead {
    read_by(&EIGHT, system, system_number, fi, element, buffer)
}

/// On refusal the later figures are 0: "target unchanged". On success the buffer past the sheet is unchanged.
pub fn read_by(coding: &Coding, systems: Systems, system_number: u64, fi: bool, element: &[u8], buffer: &[u16]) -> ElementRead {
    let mut back = ElementRead { number: 0, place: 0, packets: 0, numbers: 0, buffer: buffer.to_vec() };
    match reading(coding, systems, system_number, fi, element, buffer.len()) {
        Err((number, place)) => (back.number, back.place) = (number, place),
        Ok(packets) => {
            let sheet = sheet_as_found(system_number, &packets);
            back.buffer[..sheet.len()].copy_from_slice(&sheet);
            back.packets = packets.len() as u64;
            back.numbers = sheet.len() as u64;
        }
    }
    back
}

/// The packets. "On reading 3, 19 an element not of this form or a line outside the frame, with the position of the first byte at fault,
/// 5, 17 (W over 65,535 too)". Request A3: "MXF reading after 19", which is looked for in the whole element.
fn reading(coding: &Coding, systems: Systems, system_number: u64, fi: bool, element: &[u8], room: usize) -> Result<Vec<Found>, Refusal> {
    let system = systems(system_number).ok_or((3, 0))?;
    let packets = packets_of_element(coding, &system, fi, element)?;
    for (k, packet) in packets.iter().enumerate() {
        refuse_if(!system.allows(packet.line), 20, k)?;
    }
    refuse_if(packets.len() > MOST_PACKETS, 5, MOST_PACKETS)?;
    // Each packet has the flag's three words beside those from DID to CS.
    let words: usize = packets.iter().map(|packet| packet.words.len() + 3).sum();
    refuse_if(words > MOST_WORDS || 4 + 2 * packets.len() + words > room, 17, 0)?;
    Ok(packets)
}

/// An element that is read from the left, field by field.
struct Fields<'a> {
    element: &'a [u8],
    at: usize,
}

impl Fields<'_> {
    /// The next field, high byte first, where it is sound. A wrong field is named by its first byte, missing bytes by the element's
    /// length.
    fn next(&mut self, bytes: usize, is_sound: impl Fn(usize) -> bool) -> Result<usize, Refusal> {
        let field = self.element.get(self.at..self.at + bytes).ok_or((19, self.element.len() as u64))?;
        let number = field.iter().fold(0, |number, &byte| number * 256 + byte as usize);
        refuse_if(!is_sound(number), 19, self.at)?;
        self.at += bytes;
        Ok(number)
    }
}

/// The tests of 19 over the whole element, whatever N is. "FI is the call's, 0 for 1080."
fn packets_of_element(coding: &Coding, system: &System, fi: bool, element: &[u8]) -> Result<Vec<Found>, Refusal> {
    let mut fields = Fields { element, at: 0 };
    for byte in KEY {
        fields.next(1, |found| found == byte as usize)?;
    }
    fields.next(1, |found| found == LONG_FORM as usize)?;
    fields.next(3, |length| 20 + length == element.len())?;
    let fi = if system.number == 3 && fi { 1 } else { 0 };
    let mut packets = Vec::new();
    for _ in 0..fields.next(2, |_| true)? {
        packets.push(next_packet(coding, &mut fields, system, fi)?);
    }
    refuse_if(fields.at < element.len(), 19, fields.at)?;
    Ok(packets)
}

/// The packet of the next structure.
fn next_packet(of: &Coding, fields: &mut Fields, system: &System, fi: u16) -> Result<Found, Refusal> {
    let (luma, colour) = (of.luma as usize, of.colour as usize);
    let line = fields.next(2, |line| line >= 1 && line <= system.last_line as usize)?;
    fields.next(1, |found| found == wrapping(system) as usize)?;
    let coding = fields.next(1, |coding| coding == luma || coding == colour)?;
    // DID, SDID, DC, up to 255 user words, and in ten bits CS.
    let samples = fields.next(2, |samples| samples >= of.beside_user && samples <= of.beside_user + 255)?;
    // "The array count (n) is the number of payload data bytes in the array including any padding bytes." Behind the count's four bytes
    // stand the four of the element length, and then the array.
    let (left, bytes) = (fields.element.len() - fields.at, (of.bytes)(samples));
    let count = fields.next(4, |count| count >= bytes && 8 + count <= left)?;
    fields.next(4, |length| length == ARRAY_ELEMENT as usize)?;
    let array = &fields.element[fields.at..fields.at + count];
    // DC is the third sample, which starts in the array's third byte in either coding.
    refuse_if((of.dc)(array) != samples - of.beside_user, 19, fields.at + 2)?;
    fields.at += count;
    let ycf = if coding == luma { 2 } else { 0 };
    Ok(Found { line: line as u16, flags: fi + ycf, words: (of.words)(&array[..bytes], samples) })
}
