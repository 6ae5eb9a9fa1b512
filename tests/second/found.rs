//! Damage that the ten-bit element carries (request A13: "As-found packets go through MXF ten-bit coding unchanged, DID to CS"), and damage that
//! it refuses: words over 3FFh.

use crate::packet::{as_found, Found, Packet};
use crate::random::Random;
use crate::sheets::Draft;

/// A packet as it may be found: sound, or with damage that leaves each word its ten bits and DC its low byte.
pub fn found(random: &mut Random, packet: &Packet) -> Found {
    let mut found = as_found(packet);
    spoil(random, &mut found.words);
    found
}

/// Puts such damage into the words from DID to CS, and names it.
pub fn spoil(random: &mut Random, words: &mut [u16]) -> &'static str {
    let (upper, noise) = (random.pick(&[0x100, 0x200, 0x300]), random.number() & 0x3FF);
    let (cs, any) = (words.len() - 1, random.index(words.len()));
    match random.weighted(&[25, 20, 15, 10, 15, 10, 5]) {
        0 => return "sound",
        1 => words.iter_mut().for_each(|word| *word = *word & 0xFF | (random.below(4) as u16) << 8),
        2 => words[any] ^= upper,
        3 => words[2] ^= upper,
        4 => words[cs] = random.pick(&[words[cs] ^ upper, words[cs] ^ 1, 0x000, 0x3FF, noise]),
        5 => replace(words, |_| random.number() & 0x3FF),
        _ => {
            let one = random.pick(&[0x000, 0x3FF, 0x3FC, 0x155, 0x2AA]);
            replace(words, |_| one);
        }
    }
    "as found"
}

/// Other words, all but DC's low byte.
fn replace(words: &mut [u16], mut other: impl FnMut(usize) -> u16) {
    let dc = words[2] & 0xFF;
    words.iter_mut().enumerate().for_each(|(k, word)| *word = other(k));
    words[2] = words[2] & 0x300 | dc;
}

/// Damages packets of a sheet so that they are still written: all, some, or one. A name where it does.
pub fn spoil_sheet(random: &mut Random, draft: &mut Draft) -> Option<&'static str> {
    let share = random.pick(&[0, 10, 50, 100]);
    let mut names = Vec::new();
    for words in draft.packets.iter_mut() {
        if random.chance(share) {
            names.push(spoil(random, &mut words[3..]));
        }
    }
    names.into_iter().find(|&name| name != "sound")
}

/// Puts a fault into a sheet that the ten-bit export is to find, or is to find only behind another, and names it.
pub fn put_fault(random: &mut Random, draft: &mut Draft) -> &'static str {
    let packets = draft.packets.len();
    if packets == 0 {
        return "no packet to damage";
    }
    let k = random.index(packets);
    let words = &mut draft.packets[k];
    // A fault before this one may have cut it.
    if words.len() < 7 {
        return "last packet cut";
    }
    match random.weighted(&[40, 15, 10, 10, 15, 10]) {
        0 => {
            put_over(random, words);
            "a word over 3FFh"
        }
        1 => {
            put_over(random, words);
            put_over(random, words);
            "two words over 3FFh"
        }
        2 => {
            put_over(random, words);
            words[random.below(3)] ^= random.pick(&[1, 0x3FF, 0x400]);
            "a word over 3FFh, and no flag"
        }
        3 => {
            // In another packet, before it or behind.
            put_over(random, words);
            let other = &mut draft.packets[random.index(packets)];
            if let Some(word) = other.get_mut(1) {
                *word = random.pick(&[0x3FE, 0x7FF, 0x000]);
            }
            "a word over 3FFh, and elsewhere no flag"
        }
        4 => wrong_dc(random, words),
        _ => cut(random, draft),
    }
}

/// A word from DID to CS gets more than ten bits. There are seven words or more.
fn put_over(random: &mut Random, words: &mut [u16]) {
    let end = words.len() - 1;
    let any = random.between(3, end);
    let at = random.pick(&[3, 4, 5, end - 1, end, end, any, any]).max(3);
    let noise = random.number() & 0xFC00 | 0x400;
    let over = random.pick(&[0x400, 0x800, 0x8000, 0xFC00, noise]);
    words[at] = random.pick(&[words[at] | over, words[at] | over, over, 0xFFFF]);
}

/// Another low byte of DC, with any bits above it: of ten bits, or over 3FFh, which comes before 9.
fn wrong_dc(random: &mut Random, words: &mut [u16]) -> &'static str {
    let (dc, any) = (words[5] as u8, random.byte());
    let low = random.pick(&[dc.wrapping_add(1), dc.wrapping_sub(1), 0, 255, any]);
    let above = random.pick(&[0x000, 0x100, 0x200, 0x300, 0x300, 0x400, 0xFC00]);
    words[5] = above | low as u16;
    "DC, with any bits above"
}

/// Ends section C inside the last packet, of which a word is over 3FFh: one of the first three comes before 9, a user word does not.
fn cut(random: &mut Random, draft: &mut Draft) -> &'static str {
    if let Some(words) = draft.packets.last_mut().filter(|words| words.len() > 7) {
        words.truncate(random.between(6, words.len() - 1));
        let (last, any) = (words.len() - 1, random.between(3, words.len() - 1));
        words[random.pick(&[3, 4, 5, last, any])] |= 0x400;
    }
    "a word over 3FFh, and cut"
}
