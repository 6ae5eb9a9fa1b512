//! What the cases of elements have to meet for request A13: damage that is written and read as found, the tests that A1's export makes and this
//! one does not, what a reader disregards, and every field that 19 can name.

use crate::cases::{Call, MXF_READ, MXF_READ10, MXF_WRITE10};
use crate::element::{self, ELEMENT_MAX, FRONT, HEAD};
use crate::element10::{ELEMENT10_MAX, TEN};
use crate::packet::{checksum_word, parity_word};
use crate::smaller_element::structure_length;

/// The words that 8 names.
const WORDS: [&str; 5] = ["DID", "SDID", "DC", "a user word", "CS"];
/// Of each number of the ten-bit export, what A1's export says of the same sheet: damage comes first there.
const BESIDE: [(u64, &[u64]); 7] =
    [(0, &[0, 8, 10]), (7, &[8, 10]), (8, &[8, 10]), (9, &[8, 10]), (11, &[8, 10]), (17, &[8, 10]), (18, &[8, 10])];
/// Fields of a structure by their places, and the others that 19 names.
const FIELDS: [(usize, &str); 7] = [
    (0, "line"),
    (2, "wrapping"),
    (3, "coding"),
    (4, "sample count"),
    (6, "array count"),
    (10, "array element length"),
    (FRONT + 2, "DC"),
];
const OTHER_FIELDS: [&str; 6] = ["key", "form of the length", "length", "missing bytes", "surplus bytes", "coding of the other call"];
/// What a sound ten-bit element may have.
const DISREGARDED: [&str; 3] = ["low bits that are not 0", "unused samples that are not 0", "padding that is not 0"];
const DAMAGE: [&str; 3] = ["DC without parity", "a word without parity", "a wrong CS"];
const LONGEST: &str = "the longest element";
const CUT_USER_WORD: &str = "9, and a user word over 3FFh";
const CUT_AT_DC: &str = "8 at DC, and it asks for more words than are left";

fn beside(number: u64, in_eight_bits: u64) -> String {
    format!("{number} where A1's export says {in_eight_bits}")
}

fn in_system(system: u64, fi: bool) -> String {
    format!("done, system {system}, FI {}", u8::from(fi))
}

/// What has to be met in a call.
pub fn wanted(call: usize) -> Vec<String> {
    let systems = [1, 2, 3].into_iter().flat_map(|system| [false, true].map(|fi| in_system(system, fi)));
    let fields = FIELDS.iter().map(|(_, name)| name).chain(&OTHER_FIELDS).map(|name| format!("19 at {name}"));
    let names = |names: &[&str]| names.iter().map(|name| name.to_string()).collect::<Vec<_>>();
    match call {
        MXF_WRITE10 => {
            let words = WORDS.map(|name| format!("8 at {name}"));
            let beside = BESIDE.iter().flat_map(|(number, others)| others.iter().map(|other| beside(*number, *other)));
            systems.chain(words).chain(beside).chain(names(&[LONGEST, CUT_USER_WORD, CUT_AT_DC])).collect()
        }
        MXF_READ10 => systems.chain(fields).chain(names(&DISREGARDED)).chain(names(&DAMAGE)).collect(),
        MXF_READ => fields.collect(),
        _ => Vec::new(),
    }
}

/// What a call meets. `fields` are those of the right answer.
pub fn met(call: &Call, fields: &[u64; 5]) -> Vec<String> {
    match call {
        Call::MxfWrite { ten: true, sheet, fi, .. } => of_sheet(sheet, *fi, fields),
        Call::MxfRead { ten, element, .. } if fields[0] == 19 => vec![format!("19 at {}", field(element, *ten, fields[1] as usize))],
        Call::MxfRead { ten: true, system, fi, element, .. } if fields[0] == 0 && fields[2] > 0 => {
            let mut all = of_structures(element);
            all.push(in_system(*system, *fi));
            all
        }
        _ => Vec::new(),
    }
}

// Export.

fn of_sheet(sheet: &[u16], fi: bool, fields: &[u64; 5]) -> Vec<String> {
    let [number, place, word, packets, bytes] = *fields;
    let mut all = vec![beside(number, element::write(sheet, fi, &[0; ELEMENT_MAX]).number)];
    if packets > 0 {
        all.push(in_system(sheet[1] as u64, fi));
    }
    if bytes as usize == ELEMENT10_MAX {
        all.push(LONGEST.to_string());
    }
    if number == 8 || number == 9 {
        let packet = from_packet(sheet, place);
        let dc = (packet[5] & 0xFF) as usize;
        if number == 8 {
            let at = if word as usize == dc + 6 { 4 } else { (word as usize).saturating_sub(3).min(3) };
            all.push(format!("8 at {}", WORDS[at]));
        }
        if number == 8 && word == 5 && packet.len() < dc + 7 {
            all.push(CUT_AT_DC.to_string());
        }
        if number == 9 && packet[6..].iter().any(|&word| word > 0x3FF) {
            all.push(CUT_USER_WORD.to_string());
        }
    }
    all
}

/// The words from a packet on, where those before it are whole.
fn from_packet(sheet: &[u16], place: u64) -> &[u16] {
    let mut left = &sheet[4 + 2 * sheet[2] as usize..];
    for _ in 0..place {
        left = &left[(left[5] & 0xFF) as usize + 7..];
    }
    left
}

// Reading.

/// The field that 19 names by this place.
fn field(element: &[u8], ten: bool, place: usize) -> &'static str {
    match place {
        _ if place == element.len() => "missing bytes",
        0..=15 => "key",
        16 => "form of the length",
        17 => "length",
        _ => structure_field(element, ten, place),
    }
}

/// The same behind the head. What stands before the structure at fault is sound, and no structure ends before its DC.
fn structure_field(element: &[u8], ten: bool, place: usize) -> &'static str {
    let mut at = HEAD;
    let mut left = match element.get(HEAD - 2..HEAD) {
        Some(n) => u16::from_be_bytes([n[0], n[1]]),
        None => return "no field",
    };
    while left > 0 && place > at + FRONT + 2 {
        at += structure_length(&element[at..]);
        left -= 1;
    }
    let others = if ten { 4..=5 } else { 7..=8 };
    match FIELDS.iter().find(|(start, _)| at + start == place) {
        _ if left == 0 => "surplus bytes",
        Some((_, "coding")) if element.get(place).map_or(false, |coding| others.contains(coding)) => "coding of the other call",
        Some((_, name)) => name,
        None => "no field",
    }
}

/// What the structures of a sound ten-bit element have that is disregarded, and what damage its packets have.
fn of_structures(element: &[u8]) -> Vec<String> {
    let mut has = [false; 6];
    let mut left = &element[HEAD..];
    while !left.is_empty() {
        let structure = &left[..structure_length(left)];
        let samples = u16::from_be_bytes([structure[4], structure[5]]) as usize;
        let (array, padding) = structure[FRONT..].split_at((TEN.bytes)(samples));
        let of_structure = [disregarded(array, samples, padding), damage(&(TEN.words)(array, samples))].concat();
        has.iter_mut().zip(of_structure).for_each(|(all, one)| *all |= one);
        left = &left[structure.len()..];
    }
    DISREGARDED.iter().chain(&DAMAGE).zip(has).filter(|(_, has)| *has).map(|(name, _)| name.to_string()).collect()
}

fn disregarded(array: &[u8], samples: usize, padding: &[u8]) -> [bool; 3] {
    let last = array.len() - 4;
    let last = u32::from_be_bytes([array[last], array[last + 1], array[last + 2], array[last + 3]]);
    // Two samples or one are not there.
    let unused = match samples % 3 {
        1 => 0x3F_FFFC,
        2 => 0xFFC,
        _ => 0,
    };
    [array.chunks(4).any(|four| four[3] & 3 != 0), last & unused != 0, padding.iter().any(|&byte| byte != 0)]
}

/// Of the words from DID to CS.
fn damage(words: &[u16]) -> [bool; 3] {
    let has_parity = |word: u16| word == parity_word(word as u8);
    let (cs, others) = words.split_last().expect("a packet has a CS");
    let bytes: Vec<u8> = others.iter().map(|&word| word as u8).collect();
    [!has_parity(words[2]), others.iter().any(|&word| !has_parity(word)), *cs != checksum_word(&bytes)]
}
