//! Faults in packs of 5 and in long packs.

use crate::random::Random;

/// Puts one fault into packs of 5, of which an area holds `most`, and names it.
pub fn put_small_fault(random: &mut Random, packs: &mut Vec<Vec<u8>>, most: usize) -> &'static str {
    if packs.is_empty() || random.chance(10) {
        return put_far_behind(random, packs, most);
    }
    let k = random.index(packs.len());
    match random.below(9) {
        0..=4 => move_packs(random, packs, k),
        5 => {
            packs[k][0] = random.pick(&[0xE1, 0xE2, 0xE3, 0xFF, 0x00, 0xE0]);
            "header byte"
        }
        6 => {
            let pack = random.pick(&[[0xE2, 0xFF, 0xFF, 0xFF, 0xFF], [0xE1, 0xFF, 0x00, 0x60, 0xFF], [0xFF; 5], [0xE2, 0, 0, 0, 0]]);
            packs.insert(k + random.below(2), pack.to_vec());
            "one more"
        }
        7 => {
            packs[k][4] = random.pick(&[0x00, 0xFF, 0xFE]);
            "last byte"
        }
        _ => {
            packs.push(
                random.pick(&[[0xFF, 0xFF, 0xFF, 0xFF, 0xFE], [0xFF, 0x00, 0xFF, 0xFF, 0xFF], [0xFF, 0xE1, 0xE2, 0xE2, 0xE2]]).to_vec(),
            );
            "fill that is none"
        }
    }
}

/// A pack taken away, doubled, exchanged with another, or replaced by fill.
fn move_packs(random: &mut Random, packs: &mut Vec<Vec<u8>>, k: usize) -> &'static str {
    match random.below(5) {
        0 => drop(packs.remove(k)),
        1 => packs.insert(k, packs[k].clone()),
        2 => {
            let next = (k + 1) % packs.len();
            packs.swap(k, next);
        }
        3 => {
            let other = random.below(packs.len());
            packs.swap(k, other);
        }
        _ => packs[k].fill(0xFF),
    }
    "moved"
}

/// A pack where fill should be: the last of the area, or any behind the packets.
fn put_far_behind(random: &mut Random, packs: &mut Vec<Vec<u8>>, most: usize) -> &'static str {
    let at = if packs.len() >= most || random.chance(60) { most - 1 } else { random.between(packs.len(), most - 1) };
    packs.resize(most, vec![0xFF; 5]);
    packs[at][0] = random.pick(&[0xE1, 0xE1, 0xE2, 0xE3, 0x00]);
    "one far behind"
}

/// Puts one fault into long packs, and names it.
pub fn put_long_fault(random: &mut Random, packs: &mut Vec<Vec<u8>>, blocks: &[Vec<usize>]) -> &'static str {
    if packs.is_empty() {
        packs.push(vec![0xE3, 0xFE, 0xFF]);
        return "one of fill";
    }
    let k = random.index(packs.len());
    match random.below(10) {
        0..=2 => move_packs(random, packs, k),
        3 | 4 => {
            packs[k][1] ^= 1;
            "END"
        }
        5 => {
            packs[k][0] = random.pick(&[0xE1, 0xE2, 0xFF, 0x00, 0xE2]);
            "header byte"
        }
        6 => {
            let end = packs[k].len() - 1;
            packs[k][end] = random.pick(&[0x00, 0xFE, 0xFF]);
            "last byte"
        }
        7 => {
            let end = packs.len() - 1;
            packs[end][1] |= 1;
            packs.resize(blocks.len(), vec![0xE3, 0xFF, 0xFF]);
            "END nowhere"
        }
        8 => {
            packs.push(random.pick(&[[0xE3, 0xFE, 0xFF], [0xE3, 0xFF, 0xFF], [0xFF, 0xFE, 0xFF], [0xFF, 0xFF, 0x00]]).to_vec());
            "one more behind END"
        }
        _ => surplus(random, packs, blocks.len()),
    }
}

/// Packs of fill before the one with END 0, sometimes to the last block.
fn surplus(random: &mut Random, packs: &mut Vec<Vec<u8>>, most: usize) -> &'static str {
    let end = packs.len() - 1;
    packs[end][1] |= 1;
    let count = if random.chance(20) { most } else { (packs.len() + random.between(1, 6)).min(most) };
    packs.resize(count.max(end + 1), vec![0xE3, 0xFF, 0xFF]);
    let end = packs.len() - 1;
    packs[end][1] &= 0xFE;
    "surplus packs of fill"
}
