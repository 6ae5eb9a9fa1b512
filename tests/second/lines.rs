//! The lines on which packets may stand: table 3a of RP 291-2 (source document 003), by request A3. Quotations are from these two.

use crate::random::Random;
use crate::rules::System;

/// A row of table 3a: "Vertical lines available on interface" and "Vertical lines excluded from use", each "(Line No Inclusive)".
pub struct Row {
    available: &'static [(u16, u16)],
    excluded: &'static [(u16, u16)],
}

/// Systems 15 and 16, 1080 interlace: "1124 - 1125; 1 - 20", "561-583", without "7 - 8" and "569 - 570".
pub const ROW_1080: Row = Row { available: &[(1124, 1125), (1, 20), (561, 583)], excluded: &[(7, 8), (569, 570)] };
/// Systems 3 to 7, 720 progressive: "746 - 750", "1-25", without "7 - 8".
pub const ROW_720: Row = Row { available: &[(746, 750), (1, 25)], excluded: &[(7, 8)] };
/// Document 01, before request A3: "any line of the frame counts as a VANC line".
pub const ROW_OF_ANY_LINE: Row = Row { available: &[(1, u16::MAX)], excluded: &[] };

fn within(runs: &[(u16, u16)], line: u16) -> bool {
    runs.iter().any(|&(first, last)| first <= line && line <= last)
}

impl System {
    /// "561 and no line stay."
    pub fn allows(&self, line: u16) -> bool {
        line == 0 || within(self.row.available, line) && !within(self.row.excluded, line)
    }

    /// "20, with its location or packet, a line in the frame that isn't allowed".
    pub fn is_picture_line(&self, line: u16) -> bool {
        line <= self.last_line && !self.allows(line)
    }
}

// Chance.

/// The ends of the runs of both rows, and what stands on their other side.
const ENDS: [u16; 24] = [1, 6, 7, 8, 9, 20, 21, 25, 26, 560, 561, 568, 569, 570, 571, 583, 584, 745, 746, 749, 750, 1123, 1124, 1125];
/// Lines that make a header byte FFh or 80h, and lines whose low byte is an allowed one.
const ODD: [u16; 10] = [127, 128, 255, 256, 257, 383, 265, 512, 640, 1024];

/// None, or an allowed line: the first, the last, the end of a run, or any.
pub fn sound_line(random: &mut Random, system: &System) -> u16 {
    if random.chance(25) {
        0
    } else {
        sound_line_but_0(random, system)
    }
}

pub fn sound_line_but_0(random: &mut Random, system: &System) -> u16 {
    let (first, last) = random.pick(system.row.available);
    let (end, any) = (random.pick(&ENDS), random.between(first as usize, last as usize) as u16);
    let line = random.pick(&[1, system.last_line, first, last, end, any, any, any]);
    if system.allows(line) {
        line
    } else {
        9
    }
}

/// A line of the frame that is not allowed: mostly beside an end of a run, or kept free for switching.
pub fn picture_line(random: &mut Random, system: &System) -> u16 {
    let (end, odd, any) = (random.pick(&ENDS), random.pick(&ODD), 1 + random.below(system.last_line as usize) as u16);
    let line = random.pick(&[end, end, end, odd, any]);
    if system.is_picture_line(line) {
        line
    } else {
        random.pick(&[7, 8, 26, 300])
    }
}
