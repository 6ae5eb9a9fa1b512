//! Faults beside a picture line: what a call would answer without test 20, or answers before it.

use crate::cases::{Call, LAY, MXF_READ, MXF_READ10, MXF_WRITE, MXF_WRITE10, READ, WALK};
use crate::element::HEAD;
use crate::rules::{system, System};
use crate::smaller::{by_packet, by_starter};
use crate::smaller_element::structure_length;

/// Of each call the numbers that have to be met where 20 is given and they would be without it; 0 where nothing else is wrong.
const BEHIND_20: [(usize, &[u64]); 7] = [
    (LAY, &[0, 7, 8, 9, 10, 11, 12]),
    (READ, &[0, 5, 14, 15, 16, 17]),
    (WALK, &[0]),
    (MXF_WRITE, &[0, 7, 8, 9, 10, 11, 17, 18]),
    (MXF_READ, &[0, 5, 17]),
    (MXF_WRITE10, &[0, 7, 8, 9, 11, 17, 18]),
    (MXF_READ10, &[0, 5, 17]),
];

/// Of each call the numbers that have to be met before 20, and where the picture line is: `BEFORE`, `THERE` and `BEHIND` for a place that is a
/// packet or a location, else `SOMEWHERE`. A line cannot be 16 and 20 at once.
const BEFORE_20: [(usize, u64, &[&str]); 14] = [
    (LAY, 4, &[SOMEWHERE]),
    (LAY, 5, &[SOMEWHERE]),
    (LAY, 6, &[BEFORE, THERE, BEHIND]),
    (READ, 14, &[THERE, BEHIND]),
    (READ, 15, &[THERE, BEHIND]),
    (READ, 16, &[BEHIND]),
    (WALK, 14, &[THERE]),
    (WALK, 15, &[THERE]),
    (MXF_WRITE, 5, &[SOMEWHERE]),
    (MXF_WRITE, 6, &[BEFORE, THERE, BEHIND]),
    (MXF_READ, 19, &[SOMEWHERE]),
    (MXF_WRITE10, 5, &[SOMEWHERE]),
    (MXF_WRITE10, 6, &[BEFORE, THERE, BEHIND]),
    (MXF_READ10, 19, &[SOMEWHERE]),
];

const BEFORE: &str = "before it";
const THERE: &str = "there";
const BEHIND: &str = "behind it";
const SOMEWHERE: &str = "somewhere";

fn without_20(number: u64) -> String {
    match number {
        0 => "20 alone".to_string(),
        _ => format!("20 and not {number}"),
    }
}

fn beside_20(number: u64, at: &str) -> String {
    format!("{number}, a picture line {at}")
}

/// The pairs that have to be met in a call.
pub fn pairs(call: usize) -> Vec<String> {
    let behind = BEHIND_20.iter().filter(|(of, _)| *of == call).flat_map(|(_, numbers)| numbers.iter());
    let before = BEFORE_20.iter().filter(|(of, _, _)| *of == call);
    let before = before.flat_map(|(_, number, all)| all.iter().map(move |at| beside_20(*number, at)));
    behind.map(|&number| without_20(number)).chain(before).collect()
}

/// The pair that a call has, where one of its packets stands on a picture line. `fields` are those of the right answer.
pub fn pair(call: &Call, fields: &[u64; 5]) -> Option<String> {
    let (number, place) = (fields[0], fields[1]);
    if number == 20 {
        return Some(without_20(call.expected_before_a3().fields[0]));
    }
    let (system, lines) = lines(call)?;
    let first = lines.iter().position(|&line| system.is_picture_line(line))? as u64;
    let on_place = lines.get(place as usize).map_or(false, |&line| system.is_picture_line(line));
    Some(match (number, call) {
        (14 | 15, Call::Walk { .. }) => beside_20(number, THERE),
        (6 | 14 | 15 | 16, _) if on_place => beside_20(number, THERE),
        (6 | 14 | 15 | 16, _) => beside_20(number, if first < place { BEFORE } else { BEHIND }),
        _ => beside_20(number, SOMEWHERE),
    })
}

/// The system of a call that is refused, and the lines of its packets, 0 for none, as far as packets can be told apart.
fn lines(call: &Call) -> Option<(System, Vec<u16>)> {
    let (number, lines) = match call {
        Call::Lay { sheet, .. } | Call::MxfWrite { sheet, .. } => {
            let locations = sheet.get(3..3 + 2 * *sheet.get(2)? as usize)?;
            (sheet[1] as u64, locations.chunks(2).map(|pair| pair[0]).collect())
        }
        Call::Read { system, .. } => {
            let long = by_packet(call)?;
            let of_long = long.iter().map(|danc| line_of_header(danc));
            // Behind a starter's first byte and its reserved byte stands the header.
            let of_starters = |packs: Vec<u8>| line_of_header(&packs[2..]);
            (*system, if long.is_empty() { by_starter(call).into_iter().map(of_starters).collect() } else { of_long.collect() })
        }
        Call::Walk { system, string, place } => (*system, vec![line_of_header(string.get(*place as usize..)?)]),
        Call::MxfRead { system, element, .. } => (*system, lines_of_element(element.get(HEAD..)?)),
        Call::TestPacket { .. } => return None,
    };
    Some((system(number)?, lines))
}

/// LE is 1, and the line bits; else 0.
fn line_of_header(header: &[u8]) -> u16 {
    match header {
        [first, second, ..] if first & 0x80 != 0 => (second % 16) as u16 * 128 + (first % 128) as u16,
        _ => 0,
    }
}

fn lines_of_element(mut left: &[u8]) -> Vec<u16> {
    let mut lines = Vec::new();
    while left.len() > 1 {
        lines.push(u16::from_be_bytes([left[0], left[1]]));
        left = &left[structure_length(left)..];
    }
    lines
}
