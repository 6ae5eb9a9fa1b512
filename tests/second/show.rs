//! Calls and answers as people read them.

use std::fmt::UpperHex;

use crate::cases::{Answer, Call, CALLS, NAMES};
use crate::smaller_element::structure_length;
use crate::tally::NUMBERS;

const FIELDS: [&[&str]; CALLS] = [
    &["number", "place", "word", "packs", "bytes"],
    &["number", "place", "packing", "packets", "numbers"],
    &["number", "place", "length"],
    &["number", "place", "word", "packets", "bytes"],
    &["number", "place", "packets", "numbers"],
    &["number", "word", "kind"],
    &["number", "place", "word", "packets", "bytes"],
    &["number", "place", "packets", "numbers"],
];

/// What a call is given, each part in at most `most` rows.
pub fn show_call(call: &Call, most: usize) {
    match call {
        Call::Lay { sheet, packing, area } => {
            println!("  lay, packing {packing}");
            println!("  sheet of {} numbers, hex:", sheet.len());
            show_rows(&sheet_rows(sheet), most);
            println!("  area of {} bytes; those that are not FFh, by offset:", area.len());
            show_rows(&area_rows(area), most);
        }
        Call::Read { system, area, buffer } => {
            println!("  read, system {system}");
            println!("  area of {} bytes; those that are not FFh, by offset:", area.len());
            show_rows(&area_rows(area), most);
            show_buffer(buffer, most);
        }
        Call::Walk { system, string, place } => {
            println!("  walk, system {system}, place {place}");
            println!("  string of {} bytes, hex:", string.len());
            show_rows(&string.chunks(32).map(hex_bytes).collect::<Vec<_>>(), most);
        }
        Call::MxfWrite { sheet, fi, element, .. } => {
            println!("  {}, FI {}", NAMES[call.which()], u8::from(*fi));
            println!("  sheet of {} numbers, hex:", sheet.len());
            show_rows(&sheet_rows(sheet), most);
            println!("  element buffer of {} bytes, hex:", element.len());
            show_rows(&element.chunks(32).map(hex_bytes).collect::<Vec<_>>(), most);
        }
        Call::MxfRead { system, fi, element, buffer, .. } => {
            println!("  {}, system {system}, FI {}", NAMES[call.which()], u8::from(*fi));
            println!("  element of {} bytes, hex, by offset:", element.len());
            show_rows(&element_rows(element), most);
            show_buffer(buffer, most);
        }
        Call::TestPacket { words } => {
            println!("  test packet, {} words, hex:", words.len());
            show_rows(&packet_rows(words), most);
        }
    }
}

fn show_buffer(buffer: &[u16], most: usize) {
    println!("  sheet buffer of {} numbers, hex:", buffer.len());
    show_rows(&buffer.chunks(32).map(hex_numbers).collect::<Vec<_>>(), most);
}

fn show_rows(rows: &[String], most: usize) {
    for row in rows.iter().take(most) {
        println!("    {row}");
    }
    if rows.len() > most {
        println!("    .. {} rows more: --case shows all", rows.len() - most);
    }
}

fn hex_bytes(bytes: &[u8]) -> String {
    bytes.iter().map(|byte| format!("{byte:02X}")).collect::<Vec<_>>().join(" ")
}

fn hex_numbers(numbers: &[u16]) -> String {
    hex_runs(numbers, 1)
}

/// Numbers or bytes in hex of so many digits or more, more than three equal ones in a row as one and how many.
fn hex_runs<T: PartialEq + UpperHex>(numbers: &[T], digits: usize) -> String {
    let mut shown = Vec::new();
    let mut left = numbers;
    while let Some(first) = left.first() {
        let equal = left.iter().take_while(|&number| number == first).count();
        if equal > 3 {
            shown.push(format!("{first:0digits$X} ({equal} times)"));
        } else {
            shown.extend(vec![format!("{first:0digits$X}"); equal]);
        }
        left = &left[equal..];
    }
    shown.join(" ")
}

/// The sheet in rows: section A, section B, section C's count, and a row for each packet.
fn sheet_rows(sheet: &[u16]) -> Vec<String> {
    let section_b = sheet.len().min(2);
    let count = sheet.get(2).map_or(0, |&count| count as usize);
    let section_c = (3 + 2 * count).min(sheet.len());
    let words = &sheet[(section_c + 1).min(sheet.len())..];
    let mut rows = vec![
        format!("A: {}", hex_numbers(&sheet[..section_b])),
        format!("B: {}", hex_numbers(&sheet[section_b..section_c])),
        format!("C: {}", hex_numbers(&sheet[section_c..sheet.len() - words.len()])),
    ];
    rows.extend(packet_rows(words));
    rows
}

/// A row for each packet, as far as the DCs lead.
fn packet_rows(words: &[u16]) -> Vec<String> {
    let mut left = words;
    let mut rows = Vec::new();
    while !left.is_empty() {
        let length = left.get(5).map_or(left.len(), |dc| (dc & 0xFF) as usize + 7).min(left.len());
        rows.push(format!("   {}", hex_numbers(&left[..length])));
        left = &left[length..];
    }
    rows
}

/// The bytes that are not FFh, in runs, by their offset.
fn area_rows(area: &[u8]) -> Vec<String> {
    let mut rows = Vec::new();
    let mut at = 0;
    while at < area.len() {
        let run = area[at..].iter().take(80 - at % 80).take_while(|&&byte| byte != 0xFF).count();
        if run > 0 {
            rows.push(format!("{at:>6} (block at {:>5}, byte {:>2}): {}", at - at % 80, at % 80, hex_bytes(&area[at..at + run])));
        }
        at += run.max(1);
    }
    rows
}

/// The element in rows: key, length, N, and a row for each structure, as far as the array counts lead.
fn element_rows(element: &[u8]) -> Vec<String> {
    let mut rows = Vec::new();
    let mut at = 0;
    for length in [16, 4, 2] {
        rows.push((at, length));
        at += length;
    }
    while at < element.len() {
        let length = structure_length(&element[at..]);
        rows.push((at, length));
        at += length;
    }
    let starts_inside = |&(at, _): &(usize, usize)| at < element.len();
    rows.retain(starts_inside);
    rows.into_iter().map(|(at, length)| format!("{at:>6}: {}", hex_runs(&element[at..(at + length).min(element.len())], 2))).collect()
}

pub fn show_answer(title: &str, call: &Call, answer: &Option<Answer>) {
    let answer = match answer {
        Some(answer) => answer,
        None => return println!("  {title}: none, the answering program ended"),
    };
    let fields: Vec<String> = FIELDS[call.which()].iter().zip(answer.fields).map(|(name, value)| format!("{name} {value}")).collect();
    println!("  {title}: {}", fields.join(", "));
    if answer.changed != 0 {
        println!("    changed beyond what was lent for writing (bits of answer.c): {}", answer.changed);
    }
}

/// Where the lent buffers differ after the call, the first of it.
pub fn show_difference(expected: &Answer, given: &Answer) {
    let bytes = expected.bytes.iter().zip(&given.bytes).map(|(&a, &b)| (a as u16, b as u16));
    let numbers = expected.buffer.iter().zip(&given.buffer).map(|(&a, &b)| (a, b));
    let pairs: Vec<(u16, u16)> = bytes.chain(numbers).collect();
    match pairs.iter().position(|(a, b)| a != b) {
        Some(at) => {
            let count = pairs.iter().filter(|(a, b)| a != b).count();
            println!(
                "  buffers after the call differ in {count} places, first at {at}: expected {:X}h, given {:X}h",
                pairs[at].0, pairs[at].1
            );
        }
        None => println!("  buffers after the call are equal"),
    }
}

/// How often each number was met in each call, and which cannot be.
pub fn show_numbers(met: &[[u64; NUMBERS]; CALLS], cannot: impl Fn(usize, usize) -> bool) {
    let row = |first: &str, cells: Vec<String>| {
        let cells: Vec<String> = cells.iter().map(|cell| format!("{cell:>11}")).collect();
        println!("{first:>8} {}", cells.join(" "));
    };
    row("number", NAMES.iter().map(|name| name.to_string()).collect());
    for number in 0..NUMBERS {
        let cell =
            |call: usize| if cannot(call, number) && met[call][number] == 0 { "-".to_string() } else { met[call][number].to_string() };
        row(&number.to_string(), (0..CALLS).map(cell).collect());
    }
}
