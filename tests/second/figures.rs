//! The worked figures of document 01 against these rules, and of its rulings what has figures; the words of request A2, the lines of request
//! A3, the packet limit of request A6, and the header's sizes. Then elements in full, and elements of other programs.

use crate::element::{self, ELEMENT_MAX, ELEMENT_SHEET_MAX, MOST_WORDS};
use crate::lists::dcs_of_words;
use crate::packet::{checksum_word, danc, sheet, test_packet, words, Packet};
use crate::rules::{
    area_with, lay, long_packs, packs_of_five, read, room, system, walk_by, ReadBack, Step, FORMER_LIMIT, LONGEST_STRING, MOST_PACKETS,
    SHEET_MAX,
};

fn packet(line: u16, flags: u16, user: &[u8]) -> Packet {
    let mut bytes = vec![0x45, 0x01, user.len() as u8];
    bytes.extend(user);
    Packet { line, flags, bytes }
}

fn of_lengths(dcs: &[usize]) -> Vec<Packet> {
    dcs.iter().map(|&dc| packet(9, 0, &vec![0x80; dc])).collect()
}

fn walk(number: u64, string: &[u8], place: u64) -> Step {
    walk_by(system, number, string, place)
}

/// The number that laying a list gives in a system and packing.
fn number(system: u64, packing: u64, packets: &[Packet]) -> u64 {
    let bytes = if system == 2 { 11_520 } else { 9_600 };
    lay(&sheet(system, packets), packing, &vec![0x55; bytes]).number
}

#[test]
fn packet_p() {
    let p = packet(9, 0, &[0x10, 0x80]);
    assert_eq!(words(&p), [0x000, 0x3FF, 0x3FF, 0x145, 0x101, 0x102, 0x110, 0x180, 0x1D8]);
    assert_eq!(danc(&p), [0x89, 0x60, 0xFF, 0x45, 0x01, 0x02, 0x10, 0x80, 0xD8]);
    let sheet = sheet(1, &[p]);
    let five = lay(&sheet, 1, &[0x55; 9_600]);
    assert_eq!(five.area[3..19], *b"\xE1\xFF\x89\x60\xFF\xE2\x45\x01\x02\x10\xE2\x80\xD8\xFF\xFF\xFF");
    assert_eq!((five.packs, five.bytes), (3, 9));
    let long = lay(&sheet, 2, &[0x55; 9_600]);
    assert_eq!(long.area[..9], *b"\x55\x55\x55\xE3\xFE\xFF\x89\x60\xFF");
    for area in [five.area, long.area] {
        let back = read(1, &area, &[7; 20]);
        assert_eq!((back.number, back.packets, back.numbers as usize), (0, 1, sheet.len()));
        assert_eq!(back.buffer[..sheet.len()], sheet[..]);
        assert_eq!(back.buffer[sheet.len()..], [7; 5][..20 - sheet.len()]);
    }
}

#[test]
fn single_words() {
    assert_eq!(words(&packet(9, 0, &[]))[3..], [0x145, 0x101, 0x200, 0x246]);
    assert_eq!(words(&packet(9, 0, &[0xB8]))[3..], [0x145, 0x101, 0x101, 0x2B8, 0x1FF]);
    assert_eq!(danc(&packet(561, 3, &[]))[..3], [0xB1, 0xF4, 0xFF]);
    assert_eq!(danc(&packet(1125, 0, &[]))[..3], [0xE5, 0x68, 0xFF]);
    assert_eq!(danc(&packet(0, 0, &[]))[..3], [0x00, 0x60, 0xFF]);
    assert_eq!(danc(&packet(127, 0, &[]))[..3], [0xFF, 0x60, 0xFF]);
}

/// The allowed lines of a frame, without line 0.
fn lines(number: u64) -> Vec<u16> {
    let system = system(number).unwrap();
    (1..=system.last_line).filter(|&line| system.allows(line)).collect()
}

/// Request A3: "for 1080 interlace lines 1124, 1125, 1 to 20 and 561 to 583, without 7, 8, 569 and 570; for 720 lines 746 to 750 and 1 to 25,
/// without 7 and 8".
#[test]
fn allowed_lines() {
    let runs = |runs: &[(u16, u16)]| runs.iter().flat_map(|&(first, last)| first..=last).collect::<Vec<u16>>();
    let of_1080 = runs(&[(1, 6), (9, 20), (561, 568), (571, 583), (1124, 1125)]);
    assert_eq!((lines(1), lines(2), lines(3)), (of_1080.clone(), of_1080, runs(&[(1, 6), (9, 25), (746, 750)])));
    for (number, count) in [(1, 41), (2, 41), (3, 28)] {
        assert_eq!((lines(number).len(), system(number).unwrap().allows(0)), (count, true));
    }
    // "Line 127 becomes refused; 561 and no line stay."
    assert_eq!([127, 561, 0].map(|line| number(1, 1, &[packet(line, 0, &[])])), [20, 0, 0]);
    assert_eq!([127, 561, 0].map(|line| number(3, 2, &[packet(line, 0, &[])])), [20, 20, 0]);
}

/// RP 291-2, table 3a, "VANC interval word rate (Y+CBCR) (MWord/sec)": the allowed lines, each with the words of Y and of C, at the frames'
/// rate, where a "*" divides the rate by 1.001. In thousands of words, rounded as there.
#[test]
fn word_rates() {
    for (number, words_of_a_line, frames, divisor, rate) in
        [(2, 2 * 1_920, 25, 1.0, 3_936.0), (1, 2 * 1_920, 30, 1.001, 4_718.0), (3, 2 * 1_280, 60, 1.001, 4_297.0)]
    {
        let words = (lines(number).len() * words_of_a_line * frames) as f64 / divisor;
        assert_eq!((words / 1_000.0).round(), rate, "system {number}");
    }
}

/// "20 [..] laying and the lister test it after 6 on all locations": and before 7 to 12, 18 and 17.
#[test]
fn order_of_20_on_a_sheet() {
    let lines = |lines: &[u16]| sheet(1, &lines.iter().map(|&line| packet(line, 0, &[1, 2])).collect::<Vec<_>>());
    let both = |sheet: &[u16]| {
        let (laid, written) = (lay(sheet, 1, &[0; 9_600]), element::write(sheet, false, &[0; 200]));
        assert_eq!((laid.number, laid.place, laid.word), (written.number, written.place, written.word));
        (laid.number, laid.place, laid.word)
    };
    assert_eq!((both(&lines(&[9, 9, 127])), both(&lines(&[9, 300, 127]))), ((20, 2, 0), (20, 1, 0)));
    assert_eq!((both(&lines(&[300, 9, 1126])), both(&lines(&[1126, 9, 300]))), ((6, 2, 0), (6, 0, 0)));
    // Flags of location 2, a line past the last and a picture line; then its flags with its own picture line.
    assert_eq!((both(&with(&lines(&[300, 9, 9]), &[(8, 4)])), both(&with(&lines(&[9, 9, 300]), &[(8, 4)]))), ((6, 2, 0), (6, 2, 0)));
    // A flag word, DID, a user word and CS of the first packet, whose words begin at 10.
    for at in [10, 13, 16, 18] {
        assert_eq!(both(&with(&lines(&[9, 9, 300]), &[(at, 0x155)])), (20, 2, 0));
    }
    // 9: the last packet cut; 11: a location too many.
    let cut = lines(&[9, 9, 300]);
    assert_eq!(both(&with(&cut[..cut.len() - 1], &[(9, 26)])), (20, 2, 0));
    assert_eq!(both(&[&[1, 1, 2, 9, 0, 300, 0], &lines(&[9])[5..]].concat()), (20, 1, 0));
    // 12: 780 packets of two packs each are the most in packing 1.
    let full = [of_lengths(&[0; 780]), vec![packet(300, 0, &[])]].concat();
    assert_eq!((number(1, 1, &full), number(1, 1, &of_lengths(&[0; 781]))), (20, 12));
    // 1, 4 and 5 come before: an area of another system, no such packing, and a packet over the limit.
    assert_eq!((lay(&lines(&[300]), 1, &[0; 11_520]).number, lay(&lines(&[300]), 3, &[]).number), (4, 1));
    let over = sheet(2, &[of_lengths(&[0; MOST_PACKETS]), vec![packet(300, 0, &[])]].concat());
    assert_eq!((lay(&over, 2, &[0; 11_520]).number, element::write(&over, false, &[]).number), (5, 5));
    // 18: the first packet has no line; 17: there is no room.
    assert_eq!(
        (element::write(&lines(&[0, 300]), false, &[0; 99]).number, element::write(&lines(&[9, 300]), false, &[]).number),
        (20, 20)
    );
}

/// "reading and the walker after each packet's 16": packet by packet, so that what comes first in the string is named.
#[test]
fn order_of_20_on_reading() {
    // Of three packets each is sound (0), or has the fault of a number. Their areas are laid by force.
    let of_faults = |faults: [u64; 3], packing: u64| {
        let dancs: Vec<Vec<u8>> = faults.iter().map(|&fault| danc_with_fault(fault)).collect();
        let blocks = system(1).unwrap().blocks();
        let packs = if packing == 1 { packs_of_five(&dancs) } else { long_packs(&dancs.concat(), &blocks) };
        let back = read(1, &area_with(&[0; 9_600], &blocks, &packs.concat()), &[7; 60]);
        (back.number, back.place)
    };
    for packing in [1, 2] {
        assert_eq!((of_faults([0, 0, 0], packing), of_faults([0, 20, 20], packing)), ((0, 0), (20, 1)));
        for other in [15, 16] {
            assert_eq!((of_faults([20, other, 0], packing), of_faults([other, 20, 0], packing)), ((20, 0), (other, 0)));
            assert_eq!((of_faults([0, 20, other], packing), of_faults([0, other, 20], packing)), ((20, 1), (other, 1)));
        }
        // 15 and 20 on one packet.
        assert_eq!(of_faults([0, 35, 20], packing), (15, 1));
    }
    // 14: the last packet is cut, and where it is not the last 15 follows from the bytes behind.
    assert_eq!((of_faults([20, 0, 14], 2), of_faults([0, 14, 20], 2)), ((20, 0), (15, 1)));
    // 14 and 20 on one packet, in packs of 5: DC asks for more carriers.
    assert_eq!((of_faults([0, 34, 20], 1), of_faults([20, 34, 0], 1)), ((14, 1), (20, 0)));
    // 17 comes behind: there is no room at all.
    let string = [danc_with_fault(0), danc_with_fault(20)].concat();
    let blocks = system(3).unwrap().blocks();
    let area = area_with(&[0; 9_600], &blocks, &long_packs(&string, &blocks).concat());
    assert_eq!((read(3, &area, &[]).number, read(3, &area, &[]).place), (20, 1));
    assert_eq!((walk(1, &string, 0).length, walk(1, &string, 9).number, walk(1, &string, 9).place), (9, 20, 9));
    let both = danc_with_fault(35);
    assert_eq!((walk(1, &both, 0).number, walk(1, &both[..8], 0).number), (15, 14));
}

/// The DANC bytes of packet p on line 9, with a fault: 14 is cut by a byte, 34 has a DC of one carrier more and 35 a wrong CS, both of them on
/// picture line 127.
fn danc_with_fault(fault: u64) -> Vec<u8> {
    let mut bytes = danc(&packet(if [20, 34, 35].contains(&fault) { 127 } else { 9 }, 0, &[0x10, 0x80]));
    match fault {
        14 => drop(bytes.pop()),
        15 | 35 => bytes[8] ^= 1,
        16 => bytes[..2].copy_from_slice(&[0x80, 0x60]),
        34 => bytes[5] += 4,
        _ => {}
    }
    bytes
}

/// "MXF reading after 19": 19 of the whole element comes first, then 20 of its packets, then 5 and 17.
#[test]
fn order_of_20_on_elements() {
    let of_lines = |lines: &[u16]| {
        let packets = lines.iter().map(|&line| packet(line, 0, &[]));
        element::element(&packets.map(|packet| element::structure(&system(1).unwrap(), &packet)).collect::<Vec<_>>())
    };
    assert_eq!((refusal(1, &of_lines(&[9, 561, 1125])), refusal(1, &of_lines(&[9, 300, 127]))), ((0, 0), (20, 1)));
    // A structure of DC 0 has 17 bytes: line 0 and a line past the last are 19 at its first byte, also behind a picture line.
    assert_eq!((refusal(1, &of_lines(&[300, 9, 0])), refusal(1, &of_lines(&[300, 1126]))), ((19, 56), (19, 39)));
    let mut surplus = of_lines(&[300]);
    surplus.push(0x00);
    surplus[19] += 1;
    assert_eq!((refusal(1, &surplus), refusal(1, &surplus[..30]), refusal(4, &of_lines(&[300]))), ((19, 39), (19, 17), (3, 0)));
    let most = vec![9; MOST_PACKETS];
    assert_eq!(refusal(1, &of_lines(&[&most[..], &[300]].concat())), (20, MOST_PACKETS as u64));
    assert_eq!(refusal(1, &of_lines(&[&most[..], &[9, 300]].concat())), (20, MOST_PACKETS as u64 + 1));
    assert_eq!(refusal(1, &of_lines(&[&most[..], &[9]].concat())), (5, MOST_PACKETS as u64));
    let back = element::read(1, false, &of_lines(&[9, 300]), &[7; 3]);
    assert_eq!((back.number, back.place, back.packets, back.numbers, back.buffer), (20, 1, 0, 0, vec![7; 3]));
}

/// Number, word and kind of the packet that these words begin with.
fn judged(words: &[u16]) -> (u64, u64, u64) {
    let judged = test_packet(words);
    (judged.number, judged.word, judged.kind)
}

/// Words with some of them replaced.
fn with(words: &[u16], changes: &[(usize, u16)]) -> Vec<u16> {
    let mut words = words.to_vec();
    changes.iter().for_each(|&(at, word)| words[at] = word);
    words
}

/// "on success whether the packet is Type 1 (DID 80h or above) or Type 2", whatever stands behind it.
#[test]
fn types_of_packets() {
    for (did, kind) in [(0x00, 2), (0x45, 2), (0x7F, 2), (0x80, 1), (0x81, 1), (0xFF, 1)] {
        for user in [vec![], vec![0x10, 0x80], vec![0xFF; 255]] {
            let mut packet = packet(9, 0, &user);
            packet.bytes[0] = did;
            for behind in [vec![], vec![0x000], vec![0xFFFF; 9], words(&packet)] {
                assert_eq!(judged(&[words(&packet), behind].concat()), (0, 0, kind));
            }
        }
    }
}

/// "For 7 it is the first wrong flag word, else the first missing word": in words that are few, a wrong one comes first.
#[test]
fn words_of_the_flag() {
    let p = words(&packet(9, 0, &[0x10, 0x80]));
    for left in 0..7 {
        assert_eq!(judged(&p[..left]), (7, left as u64, 0));
        for at in 0..left.min(3) {
            assert_eq!(judged(&with(&p[..left], &[(at, p[at] ^ 1)])), (7, at as u64, 0));
        }
    }
    assert_eq!((judged(&[]), judged(&[5]), judged(&[0, 1]), judged(&[0, 0x3FF])), ((7, 0, 0), (7, 0, 0), (7, 1, 0), (7, 2, 0)));
    assert_eq!(judged(&with(&p[..8], &[(2, 0x3FE)])), (7, 2, 0));
    assert_eq!(judged(&with(&p, &[(1, 0x7FF), (2, 0), (3, 0)])), (7, 1, 0));
    assert_eq!(judged(&with(&p, &[(0, 0x3FF), (1, 0)])), (7, 0, 0));
}

/// "7; 8 on DID, SDID and DC; 9; 8 on the user words; 10": each fault with its word, and the first of two in this order.
#[test]
fn words_from_did_on() {
    let p = words(&packet(9, 0, &[0x10, 0x80]));
    for at in 3..8 {
        for word in [p[at] ^ 0x100, p[at] ^ 0x200, p[at] ^ 0x01, p[at] | 0x400, 0xFFFF] {
            assert_eq!(judged(&with(&p, &[(at, word)])), (8, at as u64, 0));
            assert_eq!(judged(&with(&p, &[(at, word), (8, 0)])), (8, at as u64, 0));
        }
    }
    assert_eq!(judged(&with(&p, &[(8, 0x2D8)])), (10, 8, 0));
    assert_eq!((judged(&p[..7]), judged(&p[..8])), ((9, 7, 0), (9, 8, 0)));
    // A user word is not looked at before the packet is whole; DID, SDID and DC are.
    assert_eq!((judged(&with(&p[..8], &[(7, 0)])), judged(&with(&p[..8], &[(4, 0), (7, 0)]))), ((9, 8, 0), (8, 4, 0)));
    // DC with its parity: one more asks for a word more, one fewer makes CS of the last user word.
    assert_eq!((judged(&with(&p, &[(5, 0x203)])), judged(&with(&p, &[(5, 0x101)]))), ((9, 9, 0), (10, 7, 0)));
    let longest = words(&packet(9, 0, &[0x80; 255]));
    assert_eq!((judged(&with(&longest, &[(260, 0)])), judged(&with(&longest, &[(261, 0)]))), ((8, 260, 0), (10, 261, 0)));
    assert_eq!((judged(&longest[..261]), judged(&longest[..7])), ((9, 261, 0), (9, 7, 0)));
    let none = words(&packet(9, 0, &[]));
    assert_eq!(judged(&with(&none, &[(6, 0x146)])), (10, 6, 0));
}

/// "Laying and the lister pass the word on after the place; for refusals other than 7 to 10 it is 0": and so does the writing of elements.
#[test]
fn words_of_a_sheet() {
    let packets = [packet(9, 0, &[0x10, 0x80]), packet(9, 0, &[]), packet(9, 0, &[1, 2, 3])];
    let p_sheet = sheet(1, &packets);
    // Section C begins behind 2 numbers, P, three locations and W.
    let (first, second, third) = (10, 19, 26);
    let both = |sheet: &[u16]| {
        let (laid, written) = (lay(sheet, 2, &[0; 9_600]), element::write(sheet, false, &[0; 200]));
        assert_eq!((laid.number, laid.place, laid.word), (written.number, written.place, written.word));
        (laid.number, laid.place, laid.word)
    };
    assert_eq!(both(&p_sheet), (0, 0, 0));
    assert_eq!((both(&with(&p_sheet, &[(first + 2, 0)])), both(&with(&p_sheet, &[(second + 1, 0)]))), ((7, 0, 2), (7, 1, 1)));
    assert_eq!((both(&with(&p_sheet, &[(first + 7, 0)])), both(&with(&p_sheet, &[(third + 8, 0)]))), ((8, 0, 7), (8, 2, 8)));
    assert_eq!((both(&with(&p_sheet, &[(second + 6, 0)])), both(&with(&p_sheet, &[(third + 9, 0)]))), ((10, 1, 6), (10, 2, 9)));
    for left in 1..10 {
        let cut = with(&p_sheet[..third + left], &[(first - 1, (third - first + left) as u16)]);
        assert_eq!(both(&cut), (if left < 7 { 7 } else { 9 }, 2, left as u64));
    }
    // 2, 6 and 11: the word is 0, whatever the packets are.
    assert_eq!((both(&p_sheet[..30]), both(&with(&p_sheet, &[(7, 1126), (third + 8, 0)]))), ((2, 0, 0), (6, 2, 0)));
    let one_location = [&[1, 1, 1, 9, 0], &sheet(1, &packets[..2])[7..]].concat();
    assert_eq!(both(&one_location), (11, 0, 0));
}

#[test]
fn room_of_the_frames() {
    let with_last = |count: usize, last: usize| of_lengths(&[vec![255; count], vec![last]].concat());
    assert_eq!((number(1, 1, &with_last(23, 160)), number(1, 1, &with_last(23, 161))), (0, 12));
    assert_eq!((number(1, 2, &with_last(28, 97)), number(1, 2, &with_last(28, 98))), (0, 12));
    assert_eq!((number(2, 2, &with_last(34, 13)), number(2, 2, &with_last(34, 14))), (0, 12));
    assert_eq!((number(3, 1, &[packet(750, 0, &[])]), number(3, 1, &[packet(751, 0, &[])])), (0, 6));
}

/// Request A6: the limit is "the most that 8,928 bytes can hold", and "no list that fits reaches 1,276 packets". What a frame holds of the
/// smallest packets is laid; one more has no room, or is over the limit.
#[test]
fn most_packets() {
    assert_eq!((LONGEST_STRING / 7, MOST_PACKETS, FORMER_LIMIT), (1_275, 1_275, 512));
    let of_smallest = |system, packing, count: usize| number(system, packing, &of_lengths(&vec![0; count]));
    for (system, packing, most) in [(1, 1, 780), (2, 1, 936), (3, 1, 780), (1, 2, 1_062), (2, 2, MOST_PACKETS), (3, 2, 1_062)] {
        for (count, number) in [(FORMER_LIMIT, 0), (FORMER_LIMIT + 1, 0), (most, 0), (MOST_PACKETS + 1, 5)] {
            assert_eq!(of_smallest(system, packing, count), number, "{count} in system {system}, packing {packing}");
        }
        assert_eq!(of_smallest(system, packing, most + 1), if most == MOST_PACKETS { 5 } else { 12 });
    }
    // "over 900 cues of a few bytes": two bytes in system 2, one in the others, in packing 2. 900 of three bytes have 9,000 bytes.
    let cues = |system, packing, count: usize, dc: usize| number(system, packing, &of_lengths(&vec![dc; count]));
    assert_eq!((cues(2, 2, 900, 2), cues(2, 2, 900, 3), cues(2, 1, 900, 1)), (0, 12, 12));
    assert_eq!((cues(2, 2, 992, 2), cues(2, 2, 993, 2), cues(2, 2, 892, 3), cues(2, 2, 893, 3)), (0, 12, 0, 12));
    assert_eq!((cues(1, 2, 930, 1), cues(1, 2, 931, 1), cues(3, 2, 930, 1), cues(3, 2, 931, 1)), (0, 12, 0, 12));
}

/// The sheet of the smallest packets, but for the first, which have `dcs`.
fn smallest_but(system: u64, count: usize, dcs: &[usize]) -> Vec<u16> {
    let mut lengths = dcs.to_vec();
    lengths.resize(count, 0);
    sheet(system, &of_lengths(&lengths))
}

/// What reading an area gives with room for every sheet, and the area with one of its last user bytes changed, 1 being the last.
fn read_with_last(system_number: u64, area: &[u8], last: usize, byte: u8) -> ReadBack {
    let places = system(system_number).unwrap().blocks().concat();
    let mut area = area.to_vec();
    area[places[places.len() - last]] = byte;
    read(system_number, &area, &[7; SHEET_MAX])
}

/// "5: reading: after 512 packets, not the end", with 1,275 for 512: system 2 has three bytes more, up to all of which may be user bytes.
#[test]
fn bytes_behind_the_last_packet() {
    for dcs in [&[][..], &[1], &[2], &[1, 1], &[3], &[1, 2], &[1, 1, 1]] {
        let sheet = smallest_but(2, MOST_PACKETS, dcs);
        let area = lay(&sheet, 2, &[0x55; 11_520]).area;
        let left = 3 - dcs.iter().sum::<usize>();
        for last in 1..=left {
            // Fill, as it is, is the end.
            let back = read_with_last(2, &area, last, 0xFF);
            assert_eq!((back.number, back.packing, back.packets, back.numbers as usize), (0, 2, MOST_PACKETS as u64, SHEET_MAX - left));
            assert_eq!(back.buffer, [&sheet[..], &vec![7; left]].concat());
            for byte in [0x00, 0x7F, 0x80, 0xFE] {
                let back = read_with_last(2, &area, last, byte);
                assert_eq!((back.number, back.place, back.packing, back.packets, back.numbers), (5, MOST_PACKETS as u64, 0, 0, 0));
                assert_eq!(back.buffer, [7; SHEET_MAX]);
            }
        }
        if left == 0 {
            let back = read(2, &area, &[7; SHEET_MAX]);
            assert_eq!((back.number, back.numbers as usize, read(2, &area, &[7; SHEET_MAX - 1]).number), (0, SHEET_MAX, 17));
            assert_eq!(back.buffer, sheet);
            // The last byte is the last packet's CS byte.
            let back = read_with_last(2, &area, 1, 0xFF);
            assert_eq!((back.number, back.place), (15, MOST_PACKETS as u64 - 1));
        }
    }
    // Systems 1 and 3 have six bytes more, in which no packet has room.
    for system in [1, 3] {
        let area = lay(&smallest_but(system, 1_062, &[]), 2, &[0x55; 9_600]).area;
        for last in 1..=6 {
            let (fill, other) = (read_with_last(system, &area, last, 0xFF), read_with_last(system, &area, last, 0x00));
            assert_eq!((fill.number, fill.packets, other.number, other.place), (0, 1_062, 14, 1_062));
        }
    }
}

/// The sizes that the header promises, from the rules, and as they stand there.
#[test]
fn sizes_of_the_header() {
    let strings = [1, 2, 3].map(|number| room(&system(number).unwrap().blocks(), 2));
    assert_eq!(strings, [7_440, LONGEST_STRING, 7_440]);
    assert_eq!((SHEET_MAX, ELEMENT_MAX, ELEMENT_SHEET_MAX), (11_482, 78_307, 68_089));
    let header = include_str!("../../include/vanc.h");
    let sizes = [("VANC_SHEET_MAX", SHEET_MAX), ("VANC_ELEMENT_MAX", ELEMENT_MAX), ("VANC_ELEMENT_SHEET_MAX", ELEMENT_SHEET_MAX)];
    for (name, size) in sizes {
        assert!(header.contains(&format!("\n#define {name} {size}\n")), "{name} is not {size}");
    }
}

/// "surplus packs of fill are 14 while fewer than 262 bytes of fill remain, and 15 from 262 on"; "E3h with END 0 and all FFh behind it is
/// 14 at 0".
#[test]
fn fill_behind_long_packs() {
    let mut area = lay(&sheet(1, &of_lengths(&[65])), 2, &[0xFF; 9_600]).area;
    assert_eq!(read(1, &area, &[0; 100]).number, 0);
    for (surplus, number) in [14, 14, 14, 15].into_iter().enumerate() {
        let channel = |block: usize| 80 * (3 * (10 * (block % 4)) + block / 4);
        area[channel(surplus) + 4] = 0xFF;
        area[channel(surplus + 1) + 3] = 0xE3;
        area[channel(surplus + 1) + 4] = 0xFE;
        let back = read(1, &area, &[0; 100]);
        assert_eq!((back.number, back.place), (number, 1));
    }
    let mut area = [0xFF; 9_600];
    area[3] = 0xE3;
    area[4] = 0xFE;
    assert_eq!((read(1, &area, &[0; 100]).number, read(1, &area, &[0; 100]).place), (14, 0));
}

#[test]
fn line_0_and_the_walker() {
    let mut string = danc(&packet(9, 0, &[1, 2]));
    string.extend(danc(&packet(9, 0, &[])));
    assert_eq!((walk(1, &string, 0).length, walk(1, &string, 9).length, walk(1, &string, 16).length), (9, 7, 0));
    string[9] = 0x80;
    assert_eq!((walk(1, &string, 9).number, walk(1, &string, 9).place), (16, 9));
    string[9..11].copy_from_slice(&[0xFF, 0x60]);
    assert_eq!((walk(1, &string, 9).number, walk(1, &string, 9).place), (20, 9));
    assert_eq!((walk(4, &[], 5).number, walk(4, &[], 5).place), (3, 0));
    assert_eq!(checksum_word(&[0x45, 0x01, 0x02, 0x10, 0x80]), 0x1D8);
}

/// What reading an element for a system and FI gives: number and place.
fn refusal(system: u64, element: &[u8]) -> (u64, u64) {
    let back = element::read(system, false, element, &[7; 200]);
    assert!(back.number == 0 || (back.packets, back.numbers, &back.buffer[..]) == (0, 0, &[7; 200][..]));
    (back.number, back.place)
}

const P_ELEMENT: &[u8] = b"\x06\x0E\x2B\x34\x01\x02\x01\x01\x0D\x01\x03\x01\x17\x01\x02\x01\x83\x00\x00\x15\x00\x01\
    \x00\x09\x01\x05\x00\x05\x00\x00\x00\x05\x00\x00\x00\x01\x45\x01\x02\x10\x80";

#[test]
fn element_of_packet_p() {
    let p_sheet = sheet(1, &[packet(9, 0, &[0x10, 0x80])]);
    for fi in [false, true] {
        let written = element::write(&p_sheet, fi, &[0x55; 44]);
        assert_eq!((written.number, written.place, written.packets, written.bytes), (0, 0, 1, 41));
        assert_eq!(written.element, [P_ELEMENT, &[0x55; 3]].concat());
        let back = element::read(1, fi, P_ELEMENT, &[7; 20]);
        assert_eq!((back.number, back.packets, back.numbers), (0, 1, 15));
        assert_eq!(back.buffer, [&p_sheet[..], &[7; 5]].concat());
    }
    let short = element::write(&p_sheet, false, &[0x55; 40]);
    assert_eq!((short.number, short.place, short.packets, short.bytes, short.element), (17, 0, 0, 0, vec![0x55; 40]));
    let back = element::read(1, false, P_ELEMENT, &[7; 14]);
    assert_eq!((back.number, back.place, back.packets, back.numbers, back.buffer), (17, 0, 0, 0, vec![7; 14]));
    // 720 has another wrapping; an unknown system is told before the element is looked at.
    assert_eq!((refusal(3, P_ELEMENT), refusal(4, P_ELEMENT), refusal(0, &[])), ((19, 24), (3, 0), (3, 0)));
}

#[test]
fn element_of_720() {
    let packets = [packet(0, 1, &[]), packet(9, 2, &[]), packet(0, 0, &[]), packet(750, 3, &[])];
    let number = |fi, packets: &[Packet]| {
        let written = element::write(&sheet(3, packets), fi, &[0; 60]);
        (written.number, written.place)
    };
    // FI 1 has a packet without a line at 0, FI 0 at 2. Without those each is served alone.
    assert_eq!((number(true, &packets), number(false, &packets)), ((18, 0), (18, 2)));
    let written = element::write(&sheet(3, &packets[2..]), true, &[0; 39]);
    assert_eq!((written.number, written.packets, written.bytes), (0, 1, 39));
    assert_eq!(written.element[19..], *b"\x13\x00\x01\x02\xEE\x04\x04\x00\x03\x00\x00\x00\x03\x00\x00\x00\x01\x45\x01\x00");
    let back = element::read(3, true, &written.element, &[7; 13]);
    assert_eq!(back.buffer, sheet(3, &packets[3..]));
    assert_eq!(element::read(3, false, &written.element, &[7; 13]).buffer[4], 2);
    // 1080 serves both.
    assert_eq!(element::write(&sheet(2, &[packet(1, 0, &[]), packet(1125, 3, &[])]), true, &[0; 56]).packets, 2);
}

#[test]
fn empty_element() {
    let empty = element::write(&sheet(2, &[]), false, &[0x55; 22]);
    assert_eq!((empty.number, empty.packets, empty.bytes), (0, 0, 22));
    assert_eq!(empty.element[16..], *b"\x83\x00\x00\x02\x00\x00");
    assert_eq!((element::write(&sheet(2, &[]), false, &[0x55; 21]).number, refusal(2, &empty.element)), (17, (0, 0)));
    assert_eq!(element::read(2, false, &empty.element, &[7; 4]).buffer, [1, 2, 0, 0]);
}

/// Sound with padding of any values, and then one field after another wrong or missing.
#[test]
fn padded_element() {
    let mut padded = [P_ELEMENT, b"\xD8\x00\xFF"].concat();
    assert_eq!(refusal(1, &padded), (19, 17));
    padded[19] = 0x18;
    assert_eq!(refusal(1, &padded), (19, 41));
    padded[31] = 0x08;
    assert_eq!(element::read(1, false, &padded, &[7; 15]).buffer, sheet(1, &[packet(9, 0, &[0x10, 0x80])]));
    let with = |at: usize, byte: u8| {
        let mut wrong = padded.clone();
        wrong[at] = byte;
        refusal(1, &wrong)
    };
    assert_eq!((with(0, 0x07), with(15, 0x02), with(16, 0x84), with(18, 0x01)), ((19, 0), (19, 15), (19, 16), (19, 17)));
    // N too small leaves surplus bytes, N too large makes the end come early.
    assert_eq!((with(21, 0x00), with(21, 0x02), with(20, 0xFF)), ((19, 22), (19, 44), (19, 44)));
    assert_eq!((with(23, 0x00), with(24, 0x02), with(25, 0x06)), ((19, 22), (19, 24), (19, 25)));
    // Lines 1033 and 10, 2057 and 0.
    assert_eq!((with(22, 0x04), with(23, 0x0A), with(22, 0x08), with(23, 0x00)), ((20, 0), (0, 0), (19, 22), (19, 22)));
    assert_eq!((with(27, 0x02), with(27, 0x03), with(26, 0x01), with(27, 0x06)), ((19, 26), (19, 38), (19, 26), (19, 38)));
    assert_eq!((with(31, 0x04), with(31, 0x09), with(28, 0xFF), with(31, 0x05)), ((19, 28), (19, 28), (19, 28), (19, 41)));
    assert_eq!((with(35, 0x00), with(32, 0x01), with(38, 0x01), with(40, 0x81)), ((19, 32), (19, 32), (19, 38), (0, 0)));
    let cut = |length: usize| {
        let mut cut = padded[..length].to_vec();
        if length >= 20 {
            cut[19] = length as u8 - 20;
        }
        refusal(1, &cut)
    };
    for length in 0..44 {
        // From the array count on it is the count that reaches past the end.
        assert_eq!(cut(length), (19, if length < 32 { length as u64 } else { 28 }));
    }
}

#[test]
fn elements_over_the_limits() {
    let structure = &P_ELEMENT[22..];
    let of_structures = |count: usize| element::element(&vec![structure.to_vec(); count]);
    for count in [FORMER_LIMIT, FORMER_LIMIT + 1, MOST_PACKETS] {
        let back = element::read(1, false, &of_structures(count), &[7; 4 + 11 * MOST_PACKETS]);
        assert_eq!((back.number, back.packets, back.numbers), (0, count as u64, 4 + 11 * count as u64));
    }
    for count in [MOST_PACKETS + 1, MOST_PACKETS + 2, 2 * MOST_PACKETS, 65_535] {
        assert_eq!(refusal(1, &of_structures(count)), (5, MOST_PACKETS as u64));
    }
    // 19 is looked for in the whole element first.
    let mut damaged = of_structures(MOST_PACKETS + 1);
    let last = damaged.len() - structure.len();
    damaged[last] = 0xFF;
    assert_eq!(refusal(1, &damaged), (19, last as u64));
    let over = sheet(1, &of_lengths(&[0; MOST_PACKETS + 1]));
    assert_eq!((element::write(&over, false, &[0; ELEMENT_MAX]).number, element::write(&over, false, &[]).place), (5, 0));
    // 65,535 words, the most: with as many packets as there may be, the longest element and the longest sheet.
    for number in [1, 2, 3] {
        let packets = of_lengths(&dcs_of_words(MOST_PACKETS, MOST_WORDS));
        let long = sheet(number, &packets);
        let written = element::write(&long, false, &[0; ELEMENT_MAX]);
        assert_eq!((written.number, written.packets, written.bytes), (0, MOST_PACKETS as u64, ELEMENT_MAX as u64));
        assert_eq!(element::write(&long, false, &[0; ELEMENT_MAX - 1]).number, 17);
        let back = element::read(number, false, &written.element, &[0; ELEMENT_SHEET_MAX]);
        assert_eq!((back.number, back.numbers as usize, back.buffer == long), (0, ELEMENT_SHEET_MAX, true));
        assert_eq!(element::read(number, false, &written.element, &[0; ELEMENT_SHEET_MAX - 1]).number, 17);
        let packets = of_lengths(&dcs_of_words(MOST_PACKETS, MOST_WORDS + 1));
        let structures: Vec<Vec<u8>> = packets.iter().map(|packet| element::structure(&system(number).unwrap(), packet)).collect();
        let back = element::read(number, false, &element::element(&structures), &[0; ELEMENT_SHEET_MAX + 1]);
        assert_eq!((back.number, back.place, back.packets, back.numbers), (17, 0, 0, 0));
    }
}

/// Elements of other programs (tests/vectors): how they are refused, and what they give when one fault after another is mended.
#[test]
fn elements_of_other_programs() {
    let gstreamer: [&[u8]; 2] = [include_bytes!("../vectors/gstreamer_000.anc"), include_bytes!("../vectors/gstreamer_004.anc")];
    let ffmpeg: &[u8] = include_bytes!("../vectors/ffmpeg_004.anc");
    let mut mended = Vec::new();
    for element in gstreamer {
        assert_eq!(refusal(1, element), (19, 16));
        mended.push([&element[..16], b"\x83\x00\x00\x60", &element[17..]].concat());
    }
    assert_eq!(refusal(1, ffmpeg), (19, 15));
    mended.push([&ffmpeg[..15], b"\x01", &ffmpeg[16..]].concat());
    for mut element in mended {
        // 77 samples would be DC 74, and DC is 73.
        assert_eq!((refusal(1, &element), refusal(3, &element)), ((19, 38), (19, 24)));
        element[27] = 0x4C;
        let expected = Packet { line: 9, flags: 2, bytes: element[36..112].to_vec() };
        let back = element::read(1, true, &element, &[7; 90]);
        assert_eq!((back.number, back.packets, back.numbers), (0, 1, 86));
        assert_eq!(back.buffer, [sheet(1, &[expected]), vec![7; 4]].concat());
        // The padding begins with CS, as these programs count it.
        assert_eq!(element[112], checksum_word(&element[36..112]) as u8);
    }
}
