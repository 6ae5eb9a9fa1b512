//! Cases for one step of the walker: strings sound, cut and damaged, from all sorts of places.

use crate::cases::{any_system, Call, Case, UNKNOWN};
use crate::lists::list;
use crate::packet::danc;
use crate::random::Random;
use crate::string_faults::{odd_but_sound, put_fault};

pub fn make(random: &mut Random) -> Case {
    let of_frame = any_system(random);
    let mut system = of_frame.number;
    let mut dancs: Vec<Vec<u8>> = list(random, &of_frame, 2).packets.iter().map(danc).collect();
    let mut kind = "walk, a sound string".to_string();
    if random.chance(50) {
        odd_but_sound(random, &mut dancs);
    }
    if random.chance(2) && !dancs.is_empty() {
        kind = "walk, a string over 65,535 bytes".to_string();
        let times = 70_000 / dancs.concat().len() + 1;
        dancs = vec![dancs; times].concat();
    }
    for _ in 0..random.pick(&[0, 0, 1, 1, 1, 2]) {
        kind = format!("walk, fault: {}", put_fault(random, &mut dancs, &of_frame));
    }
    let starts = starts(&dancs);
    let mut string = dancs.concat();
    let place = place(random, &starts, string.len());
    if random.chance(20) {
        kind = "walk, the string cut".to_string();
        cut(random, &mut string, place);
    }
    if random.chance(3) {
        kind = "walk, noise".to_string();
        string = random.background(string.len());
    }
    if random.chance(5) {
        kind = "walk, system unknown".to_string();
        system = random.pick(&UNKNOWN);
        string.truncate(random.pick(&[0, 0, usize::MAX]));
    }
    Case { kind, call: Call::Walk { system, string, place } }
}

/// Where the packets start, and the end.
fn starts(dancs: &[Vec<u8>]) -> Vec<usize> {
    let mut starts = vec![0];
    for danc in dancs {
        starts.push(starts[starts.len() - 1] + danc.len());
    }
    starts
}

/// A packet's start, often the last one's, the end, inside a packet, past the end, or far beyond what a string has.
fn place(random: &mut Random, starts: &[usize], end: usize) -> u64 {
    match random.weighted(&[60, 10, 7, 8, 6, 20, 9]) {
        0 => starts[random.index(starts.len())] as u64,
        1 => 0,
        2 => end as u64,
        3 => random.below(end + 1) as u64,
        4 => (end + random.between(1, 300)) as u64,
        5 => starts[starts.len().saturating_sub(2)] as u64,
        _ => {
            let start = starts[random.index(starts.len())] as u64;
            random.pick(&[u64::MAX, u64::MAX - 1, u64::MAX - 6, u64::MAX - 261, 1 << 63, (1 << 32) + start, 65_536 + start])
        }
    }
}

/// Ends the string near the place: before the seven bytes that every packet has, before the packet's last byte, or anywhere.
fn cut(random: &mut Random, string: &mut Vec<u8>, place: u64) {
    let place = place.min(string.len() as u64) as usize;
    let length = string.get(place + 5).map_or(7, |&dc| dc as usize + 7);
    let keep = match random.below(4) {
        0 => place + random.between(0, 8),
        1 => place + length - 1,
        2 => place + length,
        _ => random.below(string.len() + 1),
    };
    string.truncate(keep);
}
