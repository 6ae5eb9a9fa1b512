//! Cases for laying: sheets that are sound, and sheets with one or more faults.

use crate::cases::{any_system, wrong_length, Call, Case, UNKNOWN};
use crate::lists::list;
use crate::random::Random;
use crate::rules::System;
use crate::sheets::{self, few_numbers, near_the_limit, packets_near_the_limit, Draft};

pub fn make(random: &mut Random) -> Case {
    let system = any_system(random);
    let packing = random.between(1, 2) as u64;
    let area = random.background(system.area_bytes());
    let (kind, call) = match random.weighted(&[1, 2, 97]) {
        0 => {
            let packets = packets_near_the_limit(random, &system);
            let sheet = near_the_limit(random, &system, &packets);
            ("lay, sheets near the limit of 16 bits".to_string(), Call::Lay { sheet, packing, area })
        }
        1 => ("lay, a few numbers".to_string(), a_few_numbers(random, packing)),
        _ => of_list(random, &system, packing, area),
    };
    Case { kind, call }
}

/// A list's sheet with none or up to three faults.
fn of_list(random: &mut Random, system: &System, mut packing: u64, mut area: Vec<u8>) -> (String, Call) {
    let list = list(random, system, packing);
    let mut draft = Draft::of(system, &list.packets);
    let faults = random.pick(&[0, 0, 0, 1, 1, 1, 1, 2, 2, 3]);
    let mut kind = format!("lay, {}", list.kind);
    for _ in 0..faults {
        let name = match random.weighted(&[5, 8, 99]) {
            0 => {
                packing = wrong_packing(random);
                "packing"
            }
            1 => {
                area = wrong_area(random, draft.system);
                "area length"
            }
            _ => sheets::put_fault(random, &mut draft, system),
        };
        kind = format!("lay, fault: {name}");
    }
    if faults > 1 {
        kind = format!("lay, {faults} faults");
    }
    (kind, Call::Lay { sheet: draft.sheet(), packing, area })
}

fn wrong_packing(random: &mut Random) -> u64 {
    let unknown = random.pick(&UNKNOWN);
    random.pick(&[0, 3, unknown, unknown])
}

fn wrong_area(random: &mut Random, system: u16) -> Vec<u8> {
    let length = wrong_length(random, if system == 2 { 11_520 } else { 9_600 });
    random.background(length)
}

fn a_few_numbers(random: &mut Random, packing: u64) -> Call {
    Call::Lay { sheet: few_numbers(random), packing, area: vec![0x00; random.pick(&[9_600, 11_520])] }
}
