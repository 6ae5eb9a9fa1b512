//! Sheets for laying and for elements: sound, near the limit of 16 bits, of a few numbers, and with one or more faults.

use crate::element::MOST_WORDS;
use crate::lines::picture_line;
use crate::lists::{dcs_of_words, packet};
use crate::packet::{parity_word, with_bit_9, words, Packet};
use crate::random::Random;
use crate::rules::{System, FORMER_LIMIT, MOST_PACKETS};

/// A sheet in its parts, so that several faults can be put into one.
pub struct Draft {
    count_a: u16,
    pub system: u16,
    count_p_off: u16,
    locations: Vec<[u16; 2]>,
    count_w_off: u16,
    pub packets: Vec<Vec<u16>>,
    behind: Vec<u16>,
    cut: usize,
}

impl Draft {
    pub fn of(system: &System, packets: &[Packet]) -> Draft {
        Draft {
            count_a: 1,
            system: system.number as u16,
            count_p_off: 0,
            locations: packets.iter().map(|packet| [packet.line, packet.flags]).collect(),
            count_w_off: 0,
            packets: packets.iter().map(words).collect(),
            behind: Vec::new(),
            cut: 0,
        }
    }

    pub fn sheet(self) -> Vec<u16> {
        let words = self.packets.concat();
        let mut sheet = vec![self.count_a, self.system];
        sheet.push((self.locations.len() as u16).wrapping_add(self.count_p_off));
        sheet.extend(self.locations.concat());
        sheet.push((words.len() as u16).wrapping_add(self.count_w_off));
        sheet.extend(words);
        sheet.extend(self.behind);
        sheet.truncate(sheet.len().saturating_sub(self.cut));
        sheet
    }
}

/// Puts one fault into the sheet, and names it. Some leave it sound, as a count that is off by 0.
pub fn put_fault(random: &mut Random, draft: &mut Draft, system: &System) -> &'static str {
    match random.weighted(&[3, 5, 5, 5, 5, 3, 5, 10, 20, 12, 8, 6, 6, 6, 5, 18]) {
        0 => put(&mut draft.count_a, random.pick(&[0, 2, 3, 256, 257, 65_535]), "count A"),
        1 => put(&mut draft.system, random.pick(&[0, 1, 2, 3, 4, 255, 257, 65_535]), "system"),
        2 => put(&mut draft.count_p_off, count_off(random), "count P"),
        3 => put(&mut draft.count_w_off, count_off(random), "count W"),
        4 => put(&mut draft.cut, random.pick(&[1, 2, 3, 7, 9, 65_535]), "sheet cut"),
        5 => cut_anywhere(random, draft),
        6 => put(&mut draft.behind, (0..random.between(1, 4)).map(|_| random.pick(&[0, 1, 0x3FF])).collect(), "sheet too long"),
        7 => wrong_location(random, draft, system),
        8 => wrong_word(random, draft),
        9 => wrong_checksum(random, draft),
        10 => wrong_dc(random, draft),
        11 => cut_packet(random, draft),
        12 => words_added(random, draft, system),
        13 => locations_differ(random, draft),
        14 => longest_packet(random, draft, system),
        _ => picture_lines(random, draft, system),
    }
}

fn put<T>(at: &mut T, value: T, name: &'static str) -> &'static str {
    *at = value;
    name
}

/// One or two more or less, any, or such that twice the count is the same in 16 bits.
fn count_off(random: &mut Random) -> u16 {
    let any = random.number();
    random.pick(&[1, 2, 7, 65_535, 65_534, 32_768, any])
}

fn cut_anywhere(random: &mut Random, draft: &mut Draft) -> &'static str {
    let section_c = 3 + 2 * draft.locations.len();
    let length = section_c + 1 + draft.packets.concat().len();
    let any = random.below(length);
    let keep = random.pick(&[0, 1, 2, 3, section_c, section_c + 1, any]);
    put(&mut draft.cut, length - keep, "sheet cut")
}

fn wrong_location(random: &mut Random, draft: &mut Draft, system: &System) -> &'static str {
    if !draft.locations.is_empty() {
        let k = random.index(draft.locations.len());
        let last = system.last_line;
        if random.chance(60) {
            draft.locations[k][0] = random.pick(&[last + 1, last + 1, last + 2, 1126, 1125, 751, 2047, 2048, 2049, 32_769, 65_535]);
        } else {
            draft.locations[k][1] = random.pick(&[4, 4, 5, 7, 8, 128, 255, 256, 257, 32_768, 65_535]);
            let any = random.below(draft.locations.len());
            draft.locations[any][0] = random.pick(&[0, last, last + 1]);
        }
    }
    "location"
}

/// Picture lines at one location, at a few, or at all; now and then flags out of range there or elsewhere.
fn picture_lines(random: &mut Random, draft: &mut Draft, system: &System) -> &'static str {
    let count = draft.locations.len();
    if count > 0 {
        for _ in 0..random.pick(&[1, 1, 1, 2, 3]) {
            let k = random.index(count);
            draft.locations[k][0] = picture_line(random, system);
        }
        if random.chance(10) {
            draft.locations.iter_mut().for_each(|location| location[0] = picture_line(random, system));
        }
        if random.chance(15) {
            draft.locations[random.index(count)][1] = 4;
        }
    }
    "picture line"
}

/// The packet that a fault goes to: often the first or the last.
fn chosen<'a>(random: &mut Random, draft: &'a mut Draft) -> Option<&'a mut Vec<u16>> {
    if draft.packets.is_empty() {
        return None;
    }
    let k = random.index(draft.packets.len());
    Some(&mut draft.packets[k])
}

fn wrong_word(random: &mut Random, draft: &mut Draft) -> &'static str {
    in_packet(random, draft, change_word);
    "word"
}

fn wrong_checksum(random: &mut Random, draft: &mut Draft) -> &'static str {
    in_packet(random, draft, change_checksum);
    "CS"
}

fn wrong_dc(random: &mut Random, draft: &mut Draft) -> &'static str {
    in_packet(random, draft, change_dc);
    "DC"
}

/// Puts a fault into the words of a packet. One that was cut before has none of its own.
fn in_packet(random: &mut Random, draft: &mut Draft, change: fn(&mut Random, &mut [u16])) {
    if let Some(words) = chosen(random, draft).filter(|words| words.len() >= 7) {
        change(random, words);
    }
}

/// Changes one of a packet's words: any, and often one of the first or last. There are seven or more.
pub fn change_word(random: &mut Random, words: &mut [u16]) {
    let end = words.len() - 1;
    let any = random.below(end + 1);
    let k = random.pick(&[0, 1, 2, 3, 4, 5, 6, end - 1, end, any, any, any]);
    let word = words[k];
    let (noise, bit) = (random.number(), 1 << random.below(8));
    words[k] = random.pick(&[
        word ^ 0x100,
        word ^ 0x200,
        word ^ 0x300,
        word | 0x400,
        word | 0x8000,
        word | noise & 0xFC00,
        word ^ bit,
        word ^ 3,
        word & 0xFF,
        noise & 0x3FF,
        noise,
        0,
        0x3FF,
        0x3FC,
    ]);
}

/// Changes CS. Also the "errors that look right": "Giving CS the parity of its own byte" and "Summing bytes".
pub fn change_checksum(random: &mut Random, words: &mut [u16]) {
    let end = words.len() - 1;
    let cs = words[end];
    let of_bytes = words[3..end].iter().fold(0_u16, |sum, word| sum.wrapping_add(word & 0xFF));
    words[end] = random.pick(&[
        parity_word(cs as u8),
        with_bit_9(of_bytes & 0x1FF),
        with_bit_9(of_bytes & 0xFF),
        cs ^ 0x100,
        cs ^ 0x200,
        cs ^ 0x300,
        cs ^ 0x400,
        with_bit_9(cs.wrapping_add(1) & 0x1FF),
        0,
    ]);
}

/// Another DC, with right parity; now and then a wrong word besides.
pub fn change_dc(random: &mut Random, words: &mut [u16]) {
    let (dc, any) = (words[5] as u8, random.byte());
    let other = random.pick(&[dc.wrapping_add(1), dc.wrapping_sub(1), 0, 255, any]);
    words[5] = parity_word(other);
    if random.chance(30) {
        let any = random.below(words.len());
        words[any] ^= 0x100;
    }
}

/// Ends section C inside the last packet, with the count right; now and then with a further fault before the cut.
fn cut_packet(random: &mut Random, draft: &mut Draft) -> &'static str {
    let words = match draft.packets.last_mut() {
        Some(words) => words,
        None => return "last packet cut",
    };
    let any = random.below(words.len() + 1);
    words.truncate(random.pick(&[words.len().saturating_sub(1), 6, 7, 3, 1, any]));
    if random.chance(30) && words.len() > 3 {
        let any = random.between(3, words.len() - 1);
        words[any] ^= 0x100;
    }
    "last packet cut"
}

/// The longest packet in place of the last, at fault in one of its last words: a word that is named may take more than eight bits.
fn longest_packet(random: &mut Random, draft: &mut Draft, system: &System) -> &'static str {
    let mut longest = words(&packet(random, system, 255));
    match random.below(3) {
        0 => longest.truncate(random.pick(&[261, 261, 260, 256])),
        1 => longest[random.pick(&[260, 260, 259, 256])] ^= random.pick(&[0x100, 0x300, 0x400]),
        _ => change_checksum(random, &mut longest),
    }
    if let Some(last) = draft.packets.last_mut() {
        *last = longest;
    }
    "the longest packet"
}

/// Words behind the last packet, with the count right: the start of a packet, or a whole one without a location.
fn words_added(random: &mut Random, draft: &mut Draft, system: &System) -> &'static str {
    let dc = random.below(5);
    let mut added = words(&packet(random, system, dc));
    if random.chance(60) {
        added.truncate(random.between(1, 8));
    }
    draft.packets.push(added);
    "words added"
}

fn locations_differ(random: &mut Random, draft: &mut Draft) -> &'static str {
    match random.below(3) {
        0 => drop(draft.locations.pop()),
        1 => draft.locations.push([random.pick(&[0, 9, 65_535]), random.pick(&[0, 3, 4])]),
        _ => draft.locations.clear(),
    }
    "locations and packets differ"
}

/// Packets of about 65,535 words, exactly as many, or of more than a sheet can count: so many packets, of so many words together.
pub fn packets_near_the_limit(random: &mut Random, system: &System) -> Vec<Packet> {
    let (count, words) = random.pick(&[
        (9_362, 7 * 9_362),
        (MOST_PACKETS, MOST_WORDS + 1),
        (MOST_PACKETS, MOST_WORDS - MOST_PACKETS),
        (MOST_PACKETS, MOST_WORDS),
        (FORMER_LIMIT + 1, MOST_WORDS),
        (250, 250 * 262),
        (251, MOST_WORDS),
        (2_048, 7 * 2_048),
        (3, 3 * 9),
    ]);
    dcs_of_words(count, words).into_iter().map(|dc| packet(random, system, dc)).collect()
}

/// Sheets of up to 65,535 locations and 65,535 words, and lengths that are right in 16 bits only.
pub fn near_the_limit(random: &mut Random, system: &System, packets: &[Packet]) -> Vec<u16> {
    let mut draft = Draft::of(system, packets);
    match random.below(5) {
        0 => draft.locations.truncate(random.pick(&[FORMER_LIMIT, MOST_PACKETS - 1, MOST_PACKETS, MOST_PACKETS + 1])),
        1 => draft.locations.resize(random.pick(&[MOST_PACKETS, MOST_PACKETS + 1, MOST_PACKETS + 2, 32_768, 65_535]), [9, 0]),
        2 => draft.behind = vec![0; 65_536],
        3 => draft.count_p_off = 32_768,
        _ => {}
    }
    if random.chance(40) {
        put_fault(random, &mut draft, system);
    }
    draft.sheet()
}

/// Sheets of a few numbers, such as a count may be.
pub fn few_numbers(random: &mut Random) -> Vec<u16> {
    let over = MOST_PACKETS as u16 + 1;
    (0..random.below(8)).map(|k| if k == 0 { 1 } else { random.pick(&[0, 0, 0, 1, 1, 2, 3, over, 65_535]) }).collect()
}
