//! Cases for the test of a packet: sound, with words behind it, cut, with one or more faults, and lists of a few words.

use crate::cases::{any_system, Call, Case};
use crate::lists::packet;
use crate::packet::{parity_word, words};
use crate::random::Random;
use crate::sheets::{change_checksum, change_dc, change_word};

pub fn make(random: &mut Random) -> Case {
    let (kind, words) = if random.chance(12) { ("a few words", few_words(random)) } else { of_packet(random) };
    Case { kind: format!("test packet, {kind}"), call: Call::TestPacket { words } }
}

/// Up to eight words, each as a packet has it there, or another.
fn few_words(random: &mut Random) -> Vec<u16> {
    let right = [0x000, 0x3FF, 0x3FF, 0x145, 0x101, 0x101, 0x2B8, 0x1FF];
    let (mut words, percent) = (right[..random.below(9)].to_vec(), random.pick(&[0, 10, 40]));
    for word in &mut words {
        let noise = random.number();
        if random.chance(percent) {
            *word = random.pick(&[0, 1, 0x3FF, 0x3FE, 0x400, 0x7FF, 0xFFFF, *word ^ 0x100, *word | 0x1000, noise & 0x3FF, noise]);
        }
    }
    words
}

/// A packet with none or up to three faults, then as it is, with words behind it, or cut.
fn of_packet(random: &mut Random) -> (&'static str, Vec<u16>) {
    let (few, any) = (random.below(6), random.below(256));
    let dc = random.pick(&[few, few, few, any, 254, 255]);
    let system = any_system(random);
    let mut packet = packet(random, &system, dc);
    if random.chance(30) {
        // On both sides of what makes the type.
        packet.bytes[0] = random.pick(&[0x00, 0x7F, 0x80, 0xFF]);
    }
    let mut words = words(&packet);
    let faults = random.pick(&[0, 0, 0, 1, 1, 1, 1, 2, 2, 3]);
    let mut kind = "a sound packet";
    for _ in 0..faults {
        kind = put_fault(random, &mut words);
    }
    if faults > 1 {
        kind = "2 or 3 faults";
    }
    match (random.weighted(&[50, 25, 25]), faults) {
        (0, _) => {}
        (1, _) => {
            put_behind(random, &mut words);
            kind = if faults == 0 { "words behind a sound packet" } else { kind };
        }
        (_, 0) => kind = cut(random, &mut words),
        _ => {
            cut(random, &mut words);
            kind = "faults, and cut";
        }
    }
    (kind, words)
}

/// Puts one fault into a whole packet, and names it. Some leave it sound, as a word that becomes what it was.
fn put_fault(random: &mut Random, words: &mut [u16]) -> &'static str {
    match random.weighted(&[20, 20, 15, 10, 35]) {
        0 => {
            let k = random.below(3);
            words[k] = random.pick(&[0, 1, 0x3FF, 0x3FE, 0x7FF, 0xFFFF]);
            "fault: flag"
        }
        1 => {
            let (any, noise) = (random.between(3, words.len() - 1), random.number());
            let k = random.pick(&[any, any, words.len() - 2]);
            words[k] = random.pick(&[words[k] ^ 0x100, words[k] ^ 0x300, words[k] | 0x400, parity_word(noise as u8), noise, 0x3FF]);
            "fault: a word from DID on"
        }
        2 => {
            change_checksum(random, words);
            "fault: CS"
        }
        3 => {
            change_dc(random, words);
            "fault: DC"
        }
        _ => {
            change_word(random, words);
            "fault: word"
        }
    }
}

/// One word or a whole packet behind this one: it is not looked at, unless DC was made longer.
fn put_behind(random: &mut Random, behind: &mut Vec<u16>) {
    let dc = random.below(5);
    let system = any_system(random);
    let next = words(&packet(random, &system, dc));
    let (noise, length) = (random.number(), random.between(1, next.len()));
    match random.below(3) {
        0 => behind.push(random.pick(&[0, 0x3FF, noise])),
        1 => behind.extend(&next[..length]),
        _ => behind.extend(next),
    }
}

/// Cut anywhere: often before CS, before the first user word, or in the words that every packet has.
fn cut(random: &mut Random, words: &mut Vec<u16>) -> &'static str {
    let (any, few) = (random.below(words.len()), random.below(7));
    words.truncate(random.pick(&[any, any, few, words.len() - 1, 7, 8]).min(words.len() - 1));
    "a packet cut"
}
