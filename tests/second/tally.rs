//! What was met in a run.

use std::collections::BTreeMap;

use crate::as_found::{met, wanted};
use crate::cases::{Call, CALLS, LAY, MXF_READ, MXF_READ10, MXF_WRITE, MXF_WRITE10, NAMES, READ, TEST_PACKET, WALK};
use crate::pairs::{pair, pairs};
use crate::show::show_numbers;

/// 0, and the refusals 1 to 20.
pub const NUMBERS: usize = 21;

/// Numbers that a call cannot give, and why.
const CANNOT: [(usize, &[usize], &str); 23] = [
    (LAY, &[13, 14, 15, 16], "laying does not look at packs or strings that are there already"),
    (LAY, &[17], "laying writes neither a sheet nor an element"),
    (LAY, &[18, 19], "these are tests of an element's packets and of an element"),
    (READ, &[1], "reading finds the packing by itself; a wrong one is 13"),
    (READ, &[2, 6, 7, 8, 9, 10, 11], "these are tests of a sheet, and reading is given none"),
    (READ, &[12], "what was read had room"),
    (READ, &[18, 19], "reading is given an area, and packets without a line are sound there"),
    (WALK, &[1, 4, 13], "the walker is given a string, neither packing nor area nor packs"),
    (WALK, &[2, 6, 7, 8, 9, 10, 11, 12, 17, 18, 19], "the walker has no sheet, no element, and lays nothing"),
    (WALK, &[5], "the walker has no limit of packets"),
    (
        MXF_WRITE,
        &[1, 4, 12, 13, 14, 15, 16],
        "an element is written without packing, area or packs, and has room for every sheet's packets",
    ),
    (MXF_WRITE, &[19], "the element buffer is only written"),
    (MXF_READ, &[1, 4, 12, 13, 14, 15, 16], "an element has neither packing nor area nor packs; its lines are a matter of 19 and 20"),
    (MXF_READ, &[2, 6, 7, 8, 9, 10, 11], "these are tests of a sheet, and reading is given none"),
    (MXF_READ, &[18], "an element's packets have lines; line 0 is 19"),
    (TEST_PACKET, &[1, 2, 3, 4, 5, 6], "a packet alone has neither packing nor sheet nor area"),
    (TEST_PACKET, &[11, 12, 13, 14, 15, 16, 17, 18, 19, 20], "nor a location, nor is it laid, read or written"),
    (MXF_WRITE10, &[1, 4, 12, 13, 14, 15, 16], "as for mxf write"),
    (MXF_WRITE10, &[10], "CS is written as it is found"),
    (MXF_WRITE10, &[19], "as for mxf write"),
    (MXF_READ10, &[1, 4, 12, 13, 14, 15, 16], "as for mxf read"),
    (MXF_READ10, &[2, 6, 7, 8, 9, 10, 11], "as for mxf read; what is read may be damaged"),
    (MXF_READ10, &[18], "as for mxf read"),
];

/// From this packet or location on a refusal is late: its place has more than ten bits.
const LATE: u64 = 1_024;

/// Numbers whose place is a packet or a location, and that have to be met as late as that.
const BY_PACKET: [(usize, &[usize]); 6] = [
    (LAY, &[6, 7, 8, 9, 10, 20]),
    (READ, &[5, 14, 15, 16, 20]),
    (MXF_WRITE, &[18, 20]),
    (MXF_READ, &[5, 20]),
    (MXF_WRITE10, &[7, 8, 9, 18, 20]),
    (MXF_READ10, &[5, 20]),
];

/// Of the words that request A2 names, those that have to be met with each number: from the first to the last of a run, one of them. 260 is the
/// last of 255 user words, 261 their CS, which is 8 in the ten-bit export alone; 10 is not given there.
const WORDS: [(u64, u64, u64); 20] = [
    (7, 0, 0),
    (7, 1, 1),
    (7, 2, 2),
    (7, 3, 3),
    (7, 4, 4),
    (7, 5, 5),
    (7, 6, 6),
    (8, 3, 3),
    (8, 4, 4),
    (8, 5, 5),
    (8, 6, 6),
    (8, 7, 259),
    (8, 260, 260),
    (8, 261, 261),
    (9, 7, 7),
    (9, 8, 260),
    (9, 261, 261),
    (10, 6, 6),
    (10, 7, 260),
    (10, 261, 261),
];

/// How 7 comes to a flag word of a packet that is tested alone.
const FLAG: [&str; 3] = ["wrong", "wrong, and others missing", "missing"];

/// The shape of a call's word, where it names one.
fn shape(call: &Call, fields: &[u64; 5]) -> Option<String> {
    let (number, word) = match call {
        Call::Lay { .. } | Call::MxfWrite { .. } => (fields[0], fields[2]),
        Call::TestPacket { .. } => (fields[0], fields[1]),
        _ => return None,
    };
    let run = WORDS.iter().find(|(of, first, last)| *of == number && (*first..=*last).contains(&word))?;
    match call {
        Call::TestPacket { words } if number == 7 && word < 3 => {
            let left = words.len();
            let how = if word as usize == left { 2 } else { usize::from(left < 7) };
            Some(format!("{}, {}", name_of(run), FLAG[how]))
        }
        _ => Some(name_of(run)),
    }
}

fn name_of((number, first, last): &(u64, u64, u64)) -> String {
    if first == last {
        format!("{number} at word {first}")
    } else {
        format!("{number} at words {first} to {last}")
    }
}

/// The shapes that have to be met in a call.
fn shapes(call: usize) -> Vec<String> {
    let all = WORDS.iter().flat_map(|run| match (call, run) {
        (READ | WALK | MXF_READ | MXF_READ10, _) => vec![],
        (MXF_WRITE10, (10, ..)) | (LAY | MXF_WRITE | TEST_PACKET, (8, 261, _)) => vec![],
        (TEST_PACKET, (7, 0..=2, _)) => FLAG.map(|how| format!("{}, {how}", name_of(run))).to_vec(),
        _ => vec![name_of(run)],
    });
    all.collect()
}

fn cannot(call: usize, number: usize) -> bool {
    CANNOT.iter().any(|(of, numbers, _)| *of == call && numbers.contains(&number))
}

/// Counts of a run: numbers by call, those with a late place too, shapes of words by call, types of sound packets, faults beside a picture line,
/// what request A13 asks for, and kinds of cases.
pub struct Tally {
    met: [[u64; NUMBERS]; CALLS],
    late: [[u64; NUMBERS]; CALLS],
    words: BTreeMap<(usize, String), u64>,
    types: [u64; 2],
    pairs: BTreeMap<(usize, String), u64>,
    found: BTreeMap<(usize, String), u64>,
    kinds: BTreeMap<String, u64>,
}

impl Tally {
    pub fn new() -> Tally {
        Tally {
            met: [[0; NUMBERS]; CALLS],
            late: [[0; NUMBERS]; CALLS],
            words: BTreeMap::new(),
            types: [0; 2],
            pairs: BTreeMap::new(),
            found: BTreeMap::new(),
            kinds: BTreeMap::new(),
        }
    }

    /// `fields` are those of the right answer.
    pub fn count(&mut self, call: &Call, fields: &[u64; 5], kind: String) {
        let (which, number) = (call.which(), fields[0] as usize);
        self.met[which][number] += 1;
        if which == TEST_PACKET && number == 0 {
            self.types[fields[2] as usize - 1] += 1;
        } else if which != TEST_PACKET && fields[1] >= LATE {
            self.late[which][number] += 1;
        }
        if let Some(shape) = shape(call, fields) {
            *self.words.entry((which, shape)).or_default() += 1;
        }
        if let Some(pair) = pair(call, fields).filter(|_| number != 0) {
            *self.pairs.entry((which, pair)).or_default() += 1;
        }
        for one in met(call, fields) {
            *self.found.entry((which, one)).or_default() += 1;
        }
        *self.kinds.entry(kind).or_default() += 1;
    }

    pub fn cases(&self) -> u64 {
        self.met.iter().flatten().sum()
    }

    /// Numbers that can be met in a call, or with a late place, and shapes of words, types of packets, faults beside a picture line and what
    /// request A13 asks for, that were not.
    pub fn missed(&self) -> Vec<String> {
        let all = (0..CALLS).flat_map(|call| (0..NUMBERS).map(move |number| (call, number)));
        let missed = all.filter(|&(call, number)| self.met[call][number] == 0 && !cannot(call, number));
        let never = missed.map(|(call, number)| format!("{number} on {}", NAMES[call]));
        let late = BY_PACKET.iter().flat_map(|&(call, numbers)| numbers.iter().map(move |&number| (call, number)));
        let never_late = late.filter(|&(call, number)| self.late[call][number] == 0);
        let never_late = never_late.map(|(call, number)| format!("{number} on {}, at {LATE} or later", NAMES[call]));
        let shapes = (0..CALLS).flat_map(|call| shapes(call).into_iter().map(move |shape| (call, shape)));
        let no_shape = shapes.filter(|shape| !self.words.contains_key(shape)).map(|(call, shape)| format!("{shape} on {}", NAMES[call]));
        let no_type = (0..2).filter(|&k| self.types[k] == 0).map(|k| format!("a sound packet of type {}", k + 1));
        let pairs = (0..CALLS).flat_map(|call| pairs(call).into_iter().map(move |pair| (call, pair)));
        let no_pair = pairs.filter(|pair| !self.pairs.contains_key(pair)).map(|(call, pair)| format!("{pair}, on {}", NAMES[call]));
        let found = (0..CALLS).flat_map(|call| wanted(call).into_iter().map(move |one| (call, one)));
        let not_found = found.filter(|one| !self.found.contains_key(one)).map(|(call, one)| format!("{one}, on {}", NAMES[call]));
        never.chain(never_late).chain(no_shape).chain(no_type).chain(no_pair).chain(not_found).collect()
    }

    pub fn show(&self) {
        println!("kinds of cases (the last fault names a case):");
        for (kind, count) in &self.kinds {
            println!("{count:>8}  {kind}");
        }
        println!();
        let of = |call: usize| self.met[call].iter().sum::<u64>();
        println!("cases: {}", (0..CALLS).map(|call| format!("{} of {}", of(call), NAMES[call])).collect::<Vec<_>>().join(", "));
        show_numbers(&self.met, cannot);
        println!("of these at packet or location {LATE} or later:");
        for (call, numbers) in BY_PACKET {
            let late: Vec<String> = numbers.iter().map(|&number| format!("{number} {} times", self.late[call][number])).collect();
            println!("  {}: {}", NAMES[call], late.join(", "));
        }
        println!("first words at fault:");
        for call in [LAY, MXF_WRITE, TEST_PACKET, MXF_WRITE10] {
            let times = |shape: String| format!("{shape}: {}", self.words.get(&(call, shape.clone())).unwrap_or(&0));
            println!("  {}: {}", NAMES[call], shapes(call).into_iter().map(times).collect::<Vec<_>>().join("; "));
        }
        println!("faults beside a picture line:");
        for call in [LAY, READ, WALK, MXF_WRITE, MXF_READ, MXF_WRITE10, MXF_READ10] {
            let times = |pair: String| format!("{pair}: {}", self.pairs.get(&(call, pair.clone())).unwrap_or(&0));
            println!("  {}: {}", NAMES[call], pairs(call).into_iter().map(times).collect::<Vec<_>>().join("; "));
        }
        println!("as found, and the fields of elements:");
        for call in [MXF_READ, MXF_WRITE10, MXF_READ10] {
            let times = |one: String| format!("{one}: {}", self.found.get(&(call, one.clone())).unwrap_or(&0));
            println!("  {}: {}", NAMES[call], wanted(call).into_iter().map(times).collect::<Vec<_>>().join("; "));
        }
        println!("sound packets that were tested: {} of type 1, {} of type 2", self.types[0], self.types[1]);
        println!("cannot be met (-):");
        for (call, numbers, why) in CANNOT {
            let numbers: Vec<String> = numbers.iter().map(usize::to_string).collect();
            println!("  {} {}: {why}", NAMES[call], numbers.join(", "));
        }
    }
}
