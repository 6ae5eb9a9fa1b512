//! Cases: what a call is given, and how the calls are shared out.

use crate::random::Random;
use crate::rules::{self, system, system_before_a3, System, Systems, FORMER_LIMIT, MOST_PACKETS};
use crate::{element, element10, element_read_cases, element_write_cases, lay_cases, packet, packet_cases, read_cases, walk_cases};

/// What a call is given. Of elements `ten` says which coding: the ten-bit one of request A13, or the 8-bit one of request A1.
#[derive(Clone, PartialEq)]
pub enum Call {
    Lay { sheet: Vec<u16>, packing: u64, area: Vec<u8> },
    Read { system: u64, area: Vec<u8>, buffer: Vec<u16> },
    Walk { system: u64, string: Vec<u8>, place: u64 },
    MxfWrite { ten: bool, sheet: Vec<u16>, fi: bool, element: Vec<u8> },
    MxfRead { ten: bool, system: u64, fi: bool, element: Vec<u8>, buffer: Vec<u16> },
    TestPacket { words: Vec<u16> },
}

/// What a call gives back: the result's fields in the header's order (then 0), guards that were changed, and the lent buffer: an area's
/// or element's bytes, or a sheet's numbers.
#[derive(PartialEq)]
pub struct Answer {
    pub fields: [u64; 5],
    pub changed: u64,
    pub bytes: Vec<u8>,
    pub buffer: Vec<u16>,
}

/// A call, and a name for how it was chosen.
pub struct Case {
    pub kind: String,
    pub call: Call,
}

/// Unknown systems and packings, also those that are 1 or 2 in their low 8, 16 or 32 bits.
pub const UNKNOWN: [u64; 13] =
    [0, 4, 5, 255, 257, 258, 65_537, 65_538, (1 << 32) + 1, (1 << 32) + 2, (1 << 63) + 1, u64::MAX - 1, u64::MAX];

pub const LAY: usize = 0;
pub const READ: usize = 1;
pub const WALK: usize = 2;
pub const MXF_WRITE: usize = 3;
pub const MXF_READ: usize = 4;
pub const TEST_PACKET: usize = 5;
pub const MXF_WRITE10: usize = 6;
pub const MXF_READ10: usize = 7;
pub const CALLS: usize = 8;
pub const NAMES: [&str; CALLS] = ["lay", "read", "walk", "mxf write", "mxf read", "test packet", "mxf write10", "mxf read10"];

impl Call {
    pub fn which(&self) -> usize {
        match self {
            Call::Lay { .. } => LAY,
            Call::Read { .. } => READ,
            Call::Walk { .. } => WALK,
            Call::MxfWrite { ten, .. } => {
                if *ten {
                    MXF_WRITE10
                } else {
                    MXF_WRITE
                }
            }
            Call::MxfRead { ten, .. } => {
                if *ten {
                    MXF_READ10
                } else {
                    MXF_READ
                }
            }
            Call::TestPacket { .. } => TEST_PACKET,
        }
    }

    /// The answer by document 01 and the requests A1, A2, A3, A6 and A13.
    pub fn expected(&self) -> Answer {
        self.expected_by(system)
    }

    /// The answer without test 20.
    pub fn expected_before_a3(&self) -> Answer {
        self.expected_by(system_before_a3)
    }

    fn expected_by(&self, systems: Systems) -> Answer {
        let mut answer = Answer { fields: [0; 5], changed: 0, bytes: Vec::new(), buffer: Vec::new() };
        match self {
            Call::Lay { sheet, packing, area } => {
                let laid = rules::lay_by(systems, sheet, *packing, area);
                answer.fields = [laid.number, laid.place, laid.word, laid.packs, laid.bytes];
                answer.bytes = laid.area;
            }
            Call::Read { system, area, buffer } => {
                let back = rules::read_by(systems, *system, area, buffer);
                answer.fields = [back.number, back.place, back.packing, back.packets, back.numbers];
                answer.buffer = back.buffer;
            }
            Call::Walk { system, string, place } => {
                let step = rules::walk_by(systems, *system, string, *place);
                answer.fields = [step.number, step.place, step.length, 0, 0];
            }
            Call::MxfWrite { ten, sheet, fi, element } => {
                let written = element10::write_either(*ten, systems, sheet, *fi, element);
                answer.fields = [written.number, written.place, written.word, written.packets, written.bytes];
                answer.bytes = written.element;
            }
            Call::MxfRead { ten, system, fi, element, buffer } => {
                let back = element::read_by(element10::coding(*ten), systems, *system, *fi, element, buffer);
                answer.fields = [back.number, back.place, back.packets, back.numbers, 0];
                answer.buffer = back.buffer;
            }
            Call::TestPacket { words } => {
                let judged = packet::test_packet(words);
                answer.fields = [judged.number, judged.word, judged.kind, 0, 0];
            }
        }
        answer
    }
}

pub fn any_system(random: &mut Random) -> System {
    system(random.between(1, 3) as u64).expect("1 to 3 are systems")
}

/// For elements: 720, where FI matters, as often as 1080.
pub fn system_and_fi(random: &mut Random) -> (System, bool) {
    let number = random.pick(&[1, 2, 3, 3]);
    (system(number).expect("1 to 3 are systems"), random.chance(50))
}

/// A name for the size of an element: how full an area would be is nothing to it.
pub fn how_many(packets: usize) -> String {
    match packets {
        0 => "no packet".to_string(),
        1..=3 => "1 to 3 packets".to_string(),
        4..=40 => "4 to 40 packets".to_string(),
        41..=FORMER_LIMIT => format!("41 to {FORMER_LIMIT} packets"),
        MOST_PACKETS => format!("{MOST_PACKETS} packets"),
        _ if packets > MOST_PACKETS => format!("over {MOST_PACKETS} packets"),
        _ => format!("{} to {} packets", FORMER_LIMIT + 1, MOST_PACKETS - 1),
    }
}

/// More than a third of the cases are of elements, in either coding, and a twelfth of packets alone.
pub fn make(seed: u64, case: u64) -> Case {
    let mut random = Random::of_case(seed, case);
    match random.weighted(&[230, 230, 86, 90, 100, 80, 90, 100]) {
        LAY => lay_cases::make(&mut random),
        READ => read_cases::make(&mut random),
        WALK => walk_cases::make(&mut random),
        MXF_WRITE => element_write_cases::make(&mut random, false),
        MXF_READ => element_read_cases::make(&mut random, false),
        MXF_WRITE10 => element_write_cases::make(&mut random, true),
        MXF_READ10 => element_read_cases::make(&mut random, true),
        _ => packet_cases::make(&mut random),
    }
}

/// Lengths that are not the area's: none, one or one block more or less, another system's, the same in 16 bits.
pub fn wrong_length(random: &mut Random, right: usize) -> usize {
    random.pick(&[0, 1, 80, right - 1, right + 1, right - 80, right + 80, 9_600 + 11_520 - right, right + 65_536])
}
