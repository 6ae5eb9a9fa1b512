//! Ways to make the words of a tested packet fewer or plainer (see smaller.rs).

use crate::cases::Call;
use crate::packet::{checksum_word, parity_word};
use crate::smaller::{run, without};

fn words(call: &Call) -> &[u16] {
    match call {
        Call::TestPacket { words } => words,
        _ => &[],
    }
}

fn with_words(call: &Call, words: Vec<u16>) -> Option<Call> {
    matches!(call, Call::TestPacket { .. }).then_some(Call::TestPacket { words })
}

pub fn tested_words(call: &Call) -> usize {
    words(call).len()
}

pub fn without_tested_words(call: &Call, start: usize, count: usize) -> Option<Call> {
    with_words(call, without(words(call), start, count))
}

/// The words in the run become 200h, the byte 00h with parity.
pub fn with_plain_words(call: &Call, start: usize, count: usize) -> Option<Call> {
    let mut words = words(call).to_vec();
    let run = run(start, count, words.len());
    words[run].fill(parity_word(0x00));
    with_words(call, words)
}

/// How many user words a packet has that is whole, with a sound DC.
pub fn user_words(call: &Call) -> usize {
    let words = words(call);
    let dc = words.get(5).map_or(0, |&dc| dc as u8);
    if words.len() >= dc as usize + 7 && words[5] == parity_word(dc) {
        dc as usize
    } else {
        0
    }
}

/// DC goes down with them, and a CS that was right stays right.
pub fn without_user_words(call: &Call, start: usize, count: usize) -> Option<Call> {
    let cs_of = |words: &[u16]| checksum_word(&words.iter().map(|&word| word as u8).collect::<Vec<_>>());
    let (words, dc) = (words(call), user_words(call));
    let user = without(words.get(6..6 + dc)?, start, count);
    let mut fewer = words[..5].to_vec();
    fewer.push(parity_word(user.len() as u8));
    fewer.extend(&user);
    let cs = words[6 + dc];
    fewer.push(if cs == cs_of(&words[3..6 + dc]) { cs_of(&fewer[3..]) } else { cs });
    fewer.extend(&words[7 + dc..]);
    with_words(call, fewer)
}
