//! The ten-bit element of request A13, written and read a second time: what it has of its own, beside what element.rs says of both. Quotations
//! are from ST 436-1, and from request A13 where that is named.

#[cfg(test)]
use crate::element::ElementRead;
use crate::element::{self, export, front, written, Coding, Written, FRONT, HEAD, MOST_WORDS};
use crate::packet::Found;
#[cfg(test)]
use crate::rules::system;
use crate::rules::{listed_as_found, System, Systems, MOST_PACKETS};

/// "For 10-bit samples, the first source sample word captured shall be the ANC packets DID and the last source sample word captured shall be
/// the check-sum": table 7's "10-bit luma samples" and "10-bit color difference samples".
pub const TEN: Coding = Coding { luma: 7, colour: 8, beside_user: 4, bytes: array_bytes, dc, words };

/// Room for the ten-bit element of every sheet, VANC_ELEMENT10_MAX of vanc.h. An array grows by four bytes with each third user word, so the
/// longest element has as many packets as there may be, and three user words for each further four bytes.
pub const ELEMENT10_MAX: usize = HEAD + MOST_PACKETS * (FRONT + 8) + 4 * ((MOST_WORDS - 7 * MOST_PACKETS) / 3);

/// "4 bytes representing 3 source samples"
fn array_bytes(samples: usize) -> usize {
    4 * ((samples + 2) / 3)
}

/// How far a sample is from the low end of its four bytes: the first of three is the highest. "coded using the high-order 30-bits (bits 2 to 31)
/// of a 32-bit (4 byte) Payload Array data word"
fn shift(place: usize) -> usize {
    22 - 10 * place
}

/// The samples' bytes, high byte first; the low two bits and samples that are not there are 0.
fn array(samples: &[u16]) -> Vec<u8> {
    let mut bytes = Vec::new();
    for three in samples.chunks(3) {
        let number = three.iter().enumerate().fold(0, |number, (place, &sample)| number | (sample as u32) << shift(place));
        bytes.extend(number.to_be_bytes());
    }
    bytes
}

/// The samples of an array without padding. The low two bits and samples past the last are disregarded.
fn words(array: &[u8], samples: usize) -> Vec<u16> {
    let numbers = array.chunks(4).map(|four| u32::from_be_bytes([four[0], four[1], four[2], four[3]]));
    let all = numbers.flat_map(|number| (0..3).map(move |place| (number >> shift(place) & 0x3FF) as u16));
    all.take(samples).collect()
}

/// Request A13: "DC's low byte still gives the length". It is bits 9 to 2 of the array's third and fourth byte.
fn dc(array: &[u8]) -> usize {
    (words(&array[..4], 3)[2] & 0xFF) as usize
}

/// Request A13: "As-found packets go through MXF ten-bit coding unchanged, DID to CS".
pub fn structure(system: &System, packet: &Found) -> Vec<u8> {
    let mut bytes = front(&TEN, system, packet.line, packet.flags, packet.words.len());
    bytes.extend(array(&packet.words));
    bytes
}

#[cfg(test)]
pub fn write(sheet: &[u16], fi: bool, buffer: &[u8]) -> Written {
    write_by(system, sheet, fi, buffer)
}

pub fn write_by(systems: Systems, sheet: &[u16], fi: bool, buffer: &[u8]) -> Written {
    let exported = listed_as_found(systems, sheet).and_then(|(system, packets)| {
        let structures = packets.iter().map(|packet| (packet.line, packet.flags, structure(&system, packet)));
        export(&system, fi, structures, buffer.len())
    });
    written(exported, buffer)
}

#[cfg(test)]
pub fn read(system_number: u64, fi: bool, element: &[u8], buffer: &[u16]) -> ElementRead {
    element::read_by(&TEN, system, system_number, fi, element, buffer)
}

// Either coding, as a case has it.

pub fn coding(ten: bool) -> &'static Coding {
    if ten {
        &TEN
    } else {
        &element::EIGHT
    }
}

pub fn write_either(ten: bool, systems: Systems, sheet: &[u16], fi: bool, buffer: &[u8]) -> Written {
    if ten {
        write_by(systems, sheet, fi, buffer)
    } else {
        element::write_by(systems, sheet, fi, buffer)
    }
}
