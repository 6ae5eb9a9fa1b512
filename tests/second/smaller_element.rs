//! Ways to make a call of an element smaller or plainer, beside those that its sheet has (see smaller.rs).

use crate::cases::Call;
use crate::element::HEAD;
use crate::element_faults::mend_length;
use crate::smaller::{run, without};

/// How many bytes a structure at the front takes, as far as its array count leads.
pub fn structure_length(bytes: &[u8]) -> usize {
    match bytes {
        [_, _, _, _, _, _, a, b, c, d, ..] => (14 + u32::from_be_bytes([*a, *b, *c, *d]) as usize).min(bytes.len()),
        _ => bytes.len(),
    }
}

// Elements that are read.

fn element(call: &Call) -> &[u8] {
    match call {
        Call::MxfRead { element, .. } => element,
        _ => &[],
    }
}

/// The call with another element. A length field that was right stays right.
fn with_element(call: &Call, mut element: Vec<u8>) -> Option<Call> {
    let mut call = call.clone();
    match &mut call {
        Call::MxfRead { element: before, .. } => {
            let mut mended = before.clone();
            mend_length(&mut mended);
            if mended == *before {
                mend_length(&mut element);
            }
            *before = element;
        }
        _ => return None,
    }
    Some(call)
}

/// What stands behind N, cut where the array counts say that structures end.
fn by_structure(call: &Call) -> Vec<Vec<u8>> {
    let mut left = element(call).get(HEAD..).unwrap_or_default();
    let mut structures = Vec::new();
    while !left.is_empty() {
        let length = structure_length(left);
        structures.push(left[..length].to_vec());
        left = &left[length..];
    }
    structures
}

pub fn structures(call: &Call) -> usize {
    by_structure(call).len()
}

/// N goes down with them.
pub fn without_structures(call: &Call, start: usize, count: usize) -> Option<Call> {
    let structures = by_structure(call);
    let taken = run(start, count, structures.len()).len();
    let mut element = element(call).get(..HEAD)?.to_vec();
    let n = u16::from_be_bytes([element[20], element[21]]).checked_sub(taken as u16)?;
    element[20..].copy_from_slice(&n.to_be_bytes());
    element.extend(without(&structures, start, count).concat());
    with_element(call, element)
}

pub fn element_bytes(call: &Call) -> usize {
    element(call).len()
}

pub fn without_element_bytes(call: &Call, start: usize, count: usize) -> Option<Call> {
    with_element(call, without(element(call), start, count))
}

pub fn with_zeros_in_element(call: &Call, start: usize, count: usize) -> Option<Call> {
    let mut element = element(call).to_vec();
    let run = run(start, count, element.len());
    element[run].fill(0);
    with_element(call, element)
}

// Buffers for an element that is written.

fn target(call: &Call) -> &[u8] {
    match call {
        Call::MxfWrite { element, .. } => element,
        _ => &[],
    }
}

fn with_target(call: &Call, target: Vec<u8>) -> Option<Call> {
    let mut call = call.clone();
    match &mut call {
        Call::MxfWrite { element, .. } => *element = target,
        _ => return None,
    }
    Some(call)
}

pub fn target_bytes(call: &Call) -> usize {
    target(call).len()
}

pub fn without_target_bytes(call: &Call, start: usize, count: usize) -> Option<Call> {
    with_target(call, without(target(call), start, count))
}

pub fn with_zeros_in_target(call: &Call, start: usize, count: usize) -> Option<Call> {
    let mut target = target(call).to_vec();
    let run = run(start, count, target.len());
    target[run].fill(0);
    with_target(call, target)
}
