//! The worked figures of the ten-bit element (request A13), reckoned by hand from figure 5 of ST 436-1; its orders and places, its longest; and the
//! way there and back, on packets as they may be found.

use crate::element::{self, ElementRead, Written, EIGHT, ELEMENT_MAX, ELEMENT_SHEET_MAX, MOST_WORDS};
use crate::element10::{self, ELEMENT10_MAX, TEN};
use crate::found::{found, spoil};
use crate::lines::sound_line_but_0;
use crate::lists::{self, dcs_of_threes, dcs_of_words};
use crate::packet::{as_found, sheet, sheet_as_found, test_packet, words, Found, Packet};
use crate::random::Random;
use crate::rules::{lay, system, MOST_PACKETS};

fn packet(line: u16, flags: u16, user: &[u8]) -> Packet {
    let mut bytes = vec![0x45, 0x01, user.len() as u8];
    bytes.extend(user);
    Packet { line, flags, bytes }
}

/// A packet of these words from DID to CS, on line 9.
fn of_words(words: &[u16]) -> Found {
    Found { line: 9, flags: 0, words: words.to_vec() }
}

/// Numbers with some of them replaced.
fn with<T: Copy>(numbers: &[T], changes: &[(usize, T)]) -> Vec<T> {
    let mut numbers = numbers.to_vec();
    changes.iter().for_each(|&(at, number)| numbers[at] = number);
    numbers
}

/// Number, place and word; on refusal nothing else is told, and nothing is written.
fn refused(written: &Written) -> (u64, u64, u64) {
    assert!(written.number == 0 || (written.packets, written.bytes) == (0, 0) && written.element.iter().all(|&byte| byte == 0x55));
    (written.number, written.place, written.word)
}

fn write(sheet: &[u16]) -> (u64, u64, u64) {
    refused(&element10::write(sheet, false, &[0x55; 1_000]))
}

/// Number and place; on refusal nothing else is told, and nothing is written.
fn refusal_of(back: &ElementRead) -> (u64, u64) {
    assert!(back.number == 0 || (back.packets, back.numbers) == (0, 0) && back.buffer.iter().all(|&number| number == 7));
    (back.number, back.place)
}

fn read(system: u64, element: &[u8]) -> (u64, u64) {
    refusal_of(&element10::read(system, false, element, &[7; 200]))
}

/// 145 101 102 are 0101000101 0100000001 0100000010 and two zeros: 51 50 14 08; 110 180 1D8 are 0100010000 0110000000 0111011000: 44 18 07 60.
const P_ELEMENT10: &[u8] = b"\x06\x0E\x2B\x34\x01\x02\x01\x01\x0D\x01\x03\x01\x17\x01\x02\x01\x83\x00\x00\x18\x00\x01\
    \x00\x09\x01\x08\x00\x06\x00\x00\x00\x08\x00\x00\x00\x01\x51\x50\x14\x08\x44\x18\x07\x60";

#[test]
fn element_of_packet_p() {
    let p_sheet = sheet(1, &[packet(9, 0, &[0x10, 0x80])]);
    for fi in [false, true] {
        let written = element10::write(&p_sheet, fi, &[0x55; 47]);
        assert_eq!((written.number, written.place, written.word, written.packets, written.bytes), (0, 0, 0, 1, 44));
        assert_eq!(written.element, [P_ELEMENT10, &[0x55; 3]].concat());
        let back = element10::read(1, fi, P_ELEMENT10, &[7; 20]);
        assert_eq!((back.number, back.place, back.packets, back.numbers), (0, 0, 1, 15));
        assert_eq!(back.buffer, [&p_sheet[..], &[7; 5]].concat());
    }
    // One byte or one number too few.
    assert_eq!(refused(&element10::write(&p_sheet, false, &[0x55; 43])), (17, 0, 0));
    assert_eq!(refusal_of(&element10::read(1, false, P_ELEMENT10, &[7; 14])), (17, 0));
    // Luma, YCF 1, is coding 7.
    let written = element10::write(&sheet(1, &[packet(9, 2, &[0x10, 0x80])]), false, &[0; 44]);
    assert_eq!(written.element, with(P_ELEMENT10, &[(25, 0x07)]));
    assert_eq!(element10::read(1, false, &written.element, &[7; 15]).buffer[4], 2);
    // 720 has another wrapping; an unknown system is told before the element is looked at.
    assert_eq!((read(3, P_ELEMENT10), read(4, P_ELEMENT10), read(0, &[])), ((19, 24), (3, 0), (3, 0)));
}

/// The array of a packet that is written alone: what stands behind the 36 bytes of head and front.
fn array_of(packet: Found) -> Vec<u8> {
    let written = element10::write(&sheet_as_found(1, &[packet]), false, &[0; 400]);
    assert_eq!(written.number, 0);
    written.element[36..written.bytes as usize].to_vec()
}

/// Samples that are not there are 0. DC 0: 145 101 200, then 246 alone, 1001000110 and 22 zeros. User byte B8h: 145 101 101, then 2B8 1FF, 1010111000
/// 0111111111 and 12 zeros.
#[test]
fn arrays() {
    assert_eq!(array_of(as_found(&packet(9, 0, &[]))), b"\x51\x50\x18\x00\x91\x80\x00\x00");
    assert_eq!(array_of(as_found(&packet(9, 0, &[0xB8]))), b"\x51\x50\x14\x04\xAE\x1F\xF0\x00");
    // All ten bits of each word: 3FF 000 3FF, with DC's upper bits 11 and its low byte 00h, then CS 3FF; and 2AA 155 001, 155 2AA.
    assert_eq!(array_of(of_words(&[0x3FF, 0x000, 0x300, 0x3FF])), b"\xFF\xC0\x0C\x00\xFF\xC0\x00\x00");
    assert_eq!(array_of(of_words(&[0x2AA, 0x155, 0x001, 0x155, 0x2AA])), b"\xAA\x95\x50\x04\x55\x6A\xA0\x00");
    // One sample more than a multiple of three takes four bytes more.
    let sizes: Vec<usize> = (0..8).map(|dc| array_of(as_found(&packet(9, 0, &vec![0; dc]))).len()).collect();
    assert_eq!((sizes, array_of(as_found(&packet(9, 0, &[0; 255]))).len()), (vec![8, 8, 8, 12, 12, 12, 16, 16], 348));
}

/// FI is as in request A1: 720 serves the call's, 1080 all; 18 names the packet in the sheet.
#[test]
fn element_of_720() {
    let packets = [packet(0, 1, &[]), packet(9, 2, &[]), packet(0, 0, &[]), packet(750, 3, &[])];
    let of = |fi, packets: &[Packet]| refused(&element10::write(&sheet(3, packets), fi, &[0x55; 60]));
    assert_eq!((of(true, &packets), of(false, &packets)), ((18, 0, 0), (18, 2, 0)));
    let written = element10::write(&sheet(3, &packets[2..]), true, &[0x55; 44]);
    assert_eq!((written.number, written.packets, written.bytes), (0, 1, 44));
    assert_eq!(
        written.element[19..],
        *b"\x18\x00\x01\x02\xEE\x04\x07\x00\x04\x00\x00\x00\x08\x00\x00\x00\x01\x51\x50\x18\x00\x91\x80\x00\x00"
    );
    assert_eq!(element10::read(3, true, &written.element, &[7; 13]).buffer, sheet(3, &packets[3..]));
    assert_eq!(element10::read(3, false, &written.element, &[7; 13]).buffer[4], 2);
    assert_eq!(element10::write(&sheet(2, &[packet(1, 0, &[]), packet(1125, 3, &[])]), true, &[0; 66]).packets, 2);
    // No packet: the 8-bit element and this one are the same.
    let empty = element10::write(&sheet(2, &[]), false, &[0x55; 22]);
    assert_eq!((empty.number, empty.element), (0, element::write(&sheet(2, &[]), false, &[0x55; 22]).element.clone()));
    assert_eq!(refused(&element10::write(&sheet(2, &[]), false, &[0x55; 21])), (17, 0, 0));
}

/// "gives 8 only for a word over 3FFh, CS too, and never 10": with each place, the word, and the orders.
#[test]
fn words_at_fault() {
    let packets = [packet(9, 0, &[0x10, 0x80]), packet(9, 0, &[]), packet(9, 0, &[1, 2, 3])];
    let p_sheet = sheet(1, &packets);
    // Section C begins behind 2 numbers, P, three locations and W.
    let (first, second, third) = (10, 19, 26);
    for (start, k, length) in [(first, 0, 9), (second, 1, 7), (third, 2, 10)] {
        for at in 3..length {
            for over in [0x400, 0x800, 0x8000, 0xFC00] {
                let word = p_sheet[start + at] | over;
                assert_eq!(write(&with(&p_sheet, &[(start + at, word)])), (8, k, at as u64));
            }
            // Whatever has ten bits is taken, but for DC's low byte.
            for word in
                [0x000, 0x3FF, p_sheet[start + at] ^ 0x300].into_iter().filter(|word| at != 5 || word & 0xFF == p_sheet[start + 5] & 0xFF)
            {
                assert_eq!(write(&with(&p_sheet, &[(start + at, word)])), (0, 0, 0));
            }
        }
        for at in 0..3 {
            assert_eq!(write(&with(&p_sheet, &[(start + at, 0x155), (start + 3, 0xFFFF)])), (7, k, at as u64));
        }
    }
    // Two faults: the first of a packet in the order 7; 8 on DID, SDID and DC; 9; 8 on the user words and CS; and packet by packet.
    assert_eq!(write(&with(&p_sheet, &[(first + 8, 0xFFFF), (first + 4, 0xFFFF)])), (8, 0, 4));
    assert_eq!(write(&with(&p_sheet, &[(first + 8, 0xFFFF), (first + 7, 0x400)])), (8, 0, 7));
    assert_eq!(write(&with(&p_sheet, &[(first + 8, 0xFFFF), (second, 1)])), (8, 0, 8));
    assert_eq!(write(&with(&p_sheet, &[(second + 6, 0xFFFF), (first + 1, 0x7FF)])), (7, 0, 1));
    // The last packet asks for more than is left, by its DC's low byte: 9, but 8 where DC itself, SDID or DID is over 3FFh.
    assert_eq!(write(&with(&p_sheet, &[(third + 5, 0x004)])), (9, 2, 10));
    assert_eq!(write(&with(&p_sheet, &[(third + 5, 0x304), (third + 9, 0xFFFF)])), (9, 2, 10));
    assert_eq!(write(&with(&p_sheet, &[(third + 5, 0x404)])), (8, 2, 5));
    assert_eq!(write(&with(&p_sheet, &[(third + 5, 0x004), (third + 3, 0x400)])), (8, 2, 3));
    for left in 1..10 {
        let cut = with(&p_sheet[..third + left], &[(first - 1, (third - first + left) as u16)]);
        assert_eq!(write(&cut), (if left < 7 { 7 } else { 9 }, 2, left as u64));
    }
    // A DC that is one less makes CS of a user word, and leaves a word that begins no packet.
    assert_eq!((write(&with(&p_sheet, &[(third + 5, 0x102)])), write(&with(&p_sheet, &[(second + 5, 0x007)]))), ((7, 3, 0), (7, 2, 0)));
}

/// "tests as A1": 2, 3, 5, 6, 20, the packets, 11, 18, 17.
#[test]
fn order_on_a_sheet() {
    let p_sheet = sheet(1, &[packet(0, 0, &[0x10, 0x80]), packet(9, 0, &[])]);
    // Locations from 3 on, W at 7, words from 8 on: CS of the first packet over 3FFh.
    let damaged = with(&p_sheet, &[(16, 0x5D8)]);
    assert_eq!((write(&damaged), write(&p_sheet)), ((8, 0, 8), (18, 0, 0)));
    assert_eq!((write(&damaged[..20]), write(&with(&damaged, &[(1, 4)]))), ((2, 0, 0), (3, 0, 0)));
    assert_eq!((write(&with(&damaged, &[(5, 300)])), write(&with(&damaged, &[(3, 300), (5, 1126)]))), ((20, 1, 0), (6, 1, 0)));
    // A packet without a location, and one of its words over 3FFh; then 11 before 18.
    let one_location = [&[1, 1, 1, 0, 0], &p_sheet[7..]].concat();
    assert_eq!((write(&one_location), write(&with(&one_location, &[(21, 0x7FF)]))), ((11, 0, 0), (8, 1, 6)));
    let over = sheet(1, &vec![packet(0, 0, &[]); MOST_PACKETS + 1]);
    assert_eq!((write(&over), refused(&element10::write(&p_sheet, false, &[]))), ((5, 0, 0), (18, 0, 0)));
    // Laying such packets "gives 8 or 10 as its words deserve, and one without a fault is laid as sound".
    let laid = |changes: &[(usize, u16)]| lay(&with(&p_sheet, changes), 1, &[0; 9_600]);
    assert_eq!((laid(&[(16, 0x5D8)]).number, laid(&[(16, 0x2D8)]).number, laid(&[(11, 0x245)]).number, laid(&[]).number), (10, 10, 8, 0));
}

/// Sound with anything in bits, samples and padding that are not used; and then one field after another wrong or missing.
#[test]
fn fields_of_an_element() {
    // DID 145 and so on with one user word: two samples in the last four bytes, the third unused, and three bytes of padding.
    let array = b"\x51\x50\x14\x07\xAE\x1F\xFF\xFF\xD8\x00\xFF";
    let element = [&P_ELEMENT10[..19], b"\x1B\x00\x01\x00\x09\x01\x08\x00\x05\x00\x00\x00\x0B\x00\x00\x00\x01", array].concat();
    let expected = sheet(1, &[packet(9, 0, &[0xB8])]);
    assert_eq!(element10::read(1, false, &element, &[7; 14]).buffer, expected);
    let with = |at: usize, byte: u8| read(1, &with(&element, &[(at, byte)]));
    assert_eq!((with(0, 0x07), with(15, 0x02), with(16, 0x84), with(19, 0x1A)), ((19, 0), (19, 15), (19, 16), (19, 17)));
    assert_eq!((with(21, 0x00), with(21, 0x02), with(20, 0xFF)), ((19, 22), (19, 47), (19, 47)));
    assert_eq!((with(22, 0x08), with(23, 0x00), with(22, 0x04), with(24, 0x04)), ((19, 22), (19, 22), (20, 0), (19, 24)));
    // Of table 7's codings 7 and 8 alone; 4 and 5 are the other call's, and these are none of its.
    for coding in (0..=255).filter(|coding| ![7, 8].contains(coding)) {
        assert_eq!(with(25, coding), (19, 25));
    }
    assert_eq!((with(25, 0x07), element::read(1, false, &element, &[7; 20]).place), ((0, 0), 25));
    // 3 samples are too few, 6 would be DC 2, 261 are too many, and 0.
    assert_eq!((with(27, 0x03), with(27, 0x06), with(26, 0x01), with(27, 0x00)), ((19, 26), (19, 38), (19, 26), (19, 26)));
    assert_eq!((with(31, 0x07), with(31, 0x08), with(31, 0x0C), with(28, 0xFF)), ((19, 28), (19, 44), (19, 28), (19, 28)));
    assert_eq!((with(35, 0x02), with(32, 0x01)), ((19, 32), (19, 32)));
    // DC's low byte is bits 9 to 2 of bytes 38 and 39, 1408h; its upper bits are bits 3 and 2 of byte 38.
    for bit in 0..8 {
        assert_eq!(with(38, 0x14 ^ 1 << bit), if bit < 2 { (19, 38) } else { (0, 0) });
        assert_eq!(with(39, 0x07 ^ 1 << bit), if bit < 2 { (0, 0) } else { (19, 38) });
    }
    let cut = |length: usize| {
        let mut cut = element[..length].to_vec();
        if length >= 20 {
            cut[19] = length as u8 - 20;
        }
        read(1, &cut)
    };
    for length in 0..47 {
        // From the array count on it is the count that reaches past the end.
        assert_eq!(cut(length), (19, if length < 32 { length as u64 } else { 28 }));
    }
}

/// The sample count's ends, and 4 bytes for each 3 samples at the least, also where fewer would hold their bits.
#[test]
fn sample_counts() {
    for dc in [0, 1, 2, 3, 254, 255] {
        let written = element10::write(&sheet(1, &[packet(9, 0, &vec![0x80; dc])]), false, &[0; 400]);
        let element = &written.element[..written.bytes as usize];
        assert_eq!((read(1, element).0, element.len()), (if dc > 190 { 17 } else { 0 }, 36 + 4 * ((dc + 6) / 3)));
        // One byte of the array fewer, with all counts right.
        let mut short = element[..element.len() - 1].to_vec();
        let (length, count) = (short.len() as u16 - 20, short.len() as u16 - 36);
        short[18..20].copy_from_slice(&length.to_be_bytes());
        short[30..32].copy_from_slice(&count.to_be_bytes());
        assert_eq!(read(1, &short), (19, 28));
    }
    for (samples, place) in [(3_u16, 26), (4, 38), (259, 28), (260, 26), (65_535, 26)] {
        let [high, low] = samples.to_be_bytes();
        assert_eq!(read(1, &with(P_ELEMENT10, &[(26, high), (27, low)])), (19, place));
    }
}

/// VANC_ELEMENT10_MAX: by the rule, by trying every number of packets with as many threes of user words as they have room for, and as it stands in
/// the header. Then the call: the longest element, one byte too few, and the sheet that comes back.
#[test]
fn longest_element() {
    let bytes = |dc: usize| 14 + (TEN.bytes)(dc + 4);
    assert!((0..256).all(|dc| bytes(dc) == 22 + 4 * (dc / 3)));
    let longest = (0..=MOST_PACKETS).map(|packets| 22 + 22 * packets + 4 * ((MOST_WORDS - 7 * packets) / 3).min(85 * packets)).max();
    assert_eq!((longest, ELEMENT10_MAX), (Some(103_552), 103_552));
    assert!(include_str!("../../include/vanc.h").contains("\n#define VANC_ELEMENT10_MAX 103552\n"));
    for number in [1, 2, 3] {
        let of = |dcs: Vec<usize>| dcs.into_iter().map(|dc| packet(9, 0, &vec![0x80; dc])).collect::<Vec<_>>();
        let long = sheet(number, &of(dcs_of_threes(MOST_PACKETS, MOST_WORDS)));
        let written = element10::write(&long, false, &[0; ELEMENT10_MAX]);
        assert_eq!((long.len(), written.number, written.bytes), (ELEMENT_SHEET_MAX, 0, ELEMENT10_MAX as u64));
        assert_eq!(refused(&element10::write(&long, false, &[0x55; ELEMENT10_MAX - 1])), (17, 0, 0));
        let back = element10::read(number, false, &written.element, &[0; ELEMENT_SHEET_MAX]);
        assert_eq!((back.number, back.buffer == long), (0, true));
        assert_eq!(refusal_of(&element10::read(number, false, &written.element, &[7; ELEMENT_SHEET_MAX - 1])), (17, 0));
        // One word more than W can say.
        let over: Vec<Found> = of(dcs_of_words(MOST_PACKETS, MOST_WORDS + 1)).iter().map(as_found).collect();
        assert_eq!(refusal_of(&element10::read(number, false, &of_structures(number, &over), &[7; ELEMENT_SHEET_MAX + 1])), (17, 0));
    }
}

fn of_structures(number: u64, packets: &[Found]) -> Vec<u8> {
    element::element(&packets.iter().map(|packet| element10::structure(&system(number).unwrap(), packet)).collect::<Vec<_>>())
}

/// "3, 19, 20, 5, 17": 19 over the whole element first, then 20 of its packets, then 5.
#[test]
fn order_on_an_element() {
    let of_lines = |lines: &[u16]| {
        let packets: Vec<Found> = lines.iter().map(|&line| Found { line, flags: 0, words: vec![0x3FF, 0, 0x100, 0] }).collect();
        of_structures(1, &packets)
    };
    assert_eq!((read(1, &of_lines(&[9, 561, 1125])), read(1, &of_lines(&[9, 300, 127]))), ((0, 0), (20, 1)));
    // Each structure has 22 bytes.
    assert_eq!((read(1, &of_lines(&[300, 9, 0])), read(1, &of_lines(&[300, 1126]))), ((19, 66), (19, 44)));
    let most = vec![9; MOST_PACKETS];
    assert_eq!(read(1, &of_lines(&[&most[..], &[9, 300]].concat())), (20, MOST_PACKETS as u64 + 1));
    assert_eq!(read(1, &of_lines(&[&most[..], &[9]].concat())), (5, MOST_PACKETS as u64));
    assert_eq!(element10::read(1, false, &of_lines(&most), &[7; 4 + 9 * MOST_PACKETS]).packets, MOST_PACKETS as u64);
    assert_eq!(refusal_of(&element10::read(1, false, &of_lines(&[9, 300]), &[7; 3])), (20, 1));
}

/// Packets by chance, each with a line, of a system.
fn any_packets(random: &mut Random, number: u64) -> Vec<Packet> {
    let system = system(number).unwrap();
    let dcs: Vec<usize> = (0..random.below(6)).map(|_| random.below(30)).collect();
    let mut packets: Vec<Packet> = dcs.into_iter().map(|dc| lists::packet(random, &system, dc)).collect();
    for packet in packets.iter_mut() {
        packet.line = sound_line_but_0(random, &system);
        packet.flags &= if number == 3 { 3 } else { 2 };
    }
    packets
}

/// What one FI's element gives back: in 720 only packets of that FI.
fn of_fi<P: Clone>(number: u64, fi: bool, packets: &[P], flags: fn(&P) -> u16) -> Vec<P> {
    packets.iter().filter(|packet| number != 3 || (flags(packet) & 1 == 1) == fi).cloned().collect()
}

/// What is written comes back word for word, damage and all, and the packet test then says the same of each packet.
#[test]
fn way_back_as_found() {
    let (mut random, mut damaged) = (Random::of_case(13, 0), 0);
    for case in 0..3_000 {
        let (number, fi) = (1 + case % 3, random.chance(50));
        let packets: Vec<Found> = any_packets(&mut random, number).iter().map(|packet| found(&mut random, packet)).collect();
        let written = element10::write(&sheet_as_found(number, &packets), fi, &[0; 2_000]);
        assert_eq!(written.number, 0);
        let back = element10::read(number, fi, &written.element[..written.bytes as usize], &[7; 1_000]);
        let served = of_fi(number, fi, &packets, |packet| packet.flags);
        let expected = sheet_as_found(number, &served);
        assert_eq!((back.number, back.packets as usize, &back.buffer[..expected.len()]), (0, served.len(), &expected[..]));
        let mut left = &back.buffer[4 + 2 * served.len()..expected.len()];
        for packet in &served {
            let (there, here) = ([&[0x000, 0x3FF, 0x3FF], &packet.words[..]].concat(), &left[..packet.words.len() + 3]);
            let (before, after) = (test_packet(&there), test_packet(here));
            assert_eq!((before.number, before.word, before.kind), (after.number, after.word, after.kind));
            damaged += usize::from(after.number != 0);
            left = &left[here.len()..];
        }
    }
    assert!(damaged > 1_000, "{damaged}");
}

/// Of a sound sheet both elements give the same sheet back.
#[test]
fn way_back_in_both_codings() {
    let mut random = Random::of_case(13, 1);
    for case in 0..3_000 {
        let (number, fi) = (1 + case % 3, random.chance(50));
        let packets = any_packets(&mut random, number);
        let sound = sheet(number, &packets);
        let (eight, ten) = (element::write(&sound, fi, &[0; ELEMENT_MAX]), element10::write(&sound, fi, &[0; ELEMENT10_MAX]));
        assert_eq!((eight.number, ten.number, eight.packets), (0, 0, ten.packets));
        let of_eight = element::read(number, fi, &eight.element[..eight.bytes as usize], &[7; 1_000]);
        let of_ten = element10::read(number, fi, &ten.element[..ten.bytes as usize], &[7; 1_000]);
        assert_eq!((of_eight.number, of_eight.buffer), (0, of_ten.buffer.clone()));
        let served = of_fi(number, fi, &packets, |packet| packet.flags);
        assert_eq!(of_ten.buffer[..of_ten.numbers as usize], sheet(number, &served));
    }
}

/// The damage that the cases put into packets: it leaves ten bits, and DC its low byte.
#[test]
fn damage_as_found() {
    let mut random = Random::of_case(13, 2);
    for _ in 0..3_000 {
        let packet = lists::packet(&mut random, &system(1).unwrap(), 3);
        let mut spoiled = words(&packet)[3..].to_vec();
        let name = spoil(&mut random, &mut spoiled);
        assert!(spoiled.iter().all(|&word| word <= 0x3FF) && spoiled[2] & 0xFF == 3 && spoiled.len() == 7);
        assert!(name == "as found" || spoiled == words(&packet)[3..]);
    }
    assert_eq!((EIGHT.beside_user, TEN.beside_user, (TEN.bytes)(4), (TEN.bytes)(6), (TEN.bytes)(259)), (3, 4, 8, 8, 348));
}
