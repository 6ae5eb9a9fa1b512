//! Makes a case that is answered wrongly smaller, as long as it is answered wrongly.

use std::io;
use std::time::{Duration, Instant};

use crate::asker::Asker;
use crate::cases::Call;
use crate::smaller::*;
use crate::smaller_element::*;
use crate::smaller_packet::*;

/// Tries in one sweep.
const MOST_TRIES: usize = 2_000;
const LONGEST: Duration = Duration::from_secs(30);
const ROUNDS: usize = 4;

/// How many parts of a sort a call has.
type Count = fn(&Call) -> usize;
/// The call with some parts, from a first one on, taken away or made plain. None where there is nothing to change.
type Change = fn(&Call, usize, usize) -> Option<Call>;

/// What is tried in each round, in this order.
const SWEEPS: [(Count, Change); 26] = [
    (packets, without_packets),
    (packets, with_user_words_halved),
    (packets, with_one_user_word_less),
    (packets, with_plain_packets),
    (location_numbers, with_locations_of_0),
    (words, without_words),
    (locations, without_locations),
    (numbers, without_numbers),
    (starters, without_starters),
    (area_packs, without_packs),
    (string_packets, without_string_packets),
    (string_bytes, without_string_bytes),
    (area_bytes, with_fill),
    (buffer_numbers, without_buffer_numbers),
    (buffer_numbers, with_zeros_in_buffer),
    (walked_bytes, without_walked_bytes),
    (walked_bytes, with_zeros_in_string),
    (structures, without_structures),
    (element_bytes, without_element_bytes),
    (element_bytes, with_zeros_in_element),
    (target_bytes, without_target_bytes),
    (target_bytes, with_zeros_in_target),
    (user_words, without_user_words),
    (tested_words, without_tested_words),
    (tested_words, with_plain_words),
    (settings, with_plain_setting),
];

struct Shrinker<'a> {
    smallest: Call,
    asker: &'a mut Asker,
    tries: usize,
    began: Instant,
}

/// The smallest call found that is still answered wrongly, and how many were tried.
pub fn shrink(call: Call, asker: &mut Asker) -> io::Result<(Call, usize)> {
    let mut shrinker = Shrinker { smallest: call, asker, tries: 0, began: Instant::now() };
    for _ in 0..ROUNDS {
        let mut progress = false;
        for (count, change) in SWEEPS {
            progress |= shrinker.sweep(count, change)?;
        }
        if !progress {
            break;
        }
    }
    Ok((shrinker.smallest, shrinker.tries))
}

impl Shrinker<'_> {
    /// Tries a change on ever shorter runs of parts. Whether one of them was kept.
    fn sweep(&mut self, count: Count, change: Change) -> io::Result<bool> {
        let mut progress = false;
        let most = self.tries + MOST_TRIES;
        let mut parts = count(&self.smallest);
        let mut run = parts;
        while run > 0 {
            let mut start = 0;
            while start < parts && self.tries < most && self.began.elapsed() < LONGEST {
                let before = parts;
                if let Some(call) = change(&self.smallest, start, run) {
                    if self.keep_if_wrong(call)? {
                        progress = true;
                        parts = count(&self.smallest);
                    }
                }
                if parts >= before {
                    start += run;
                }
            }
            run /= 2;
        }
        Ok(progress)
    }

    fn keep_if_wrong(&mut self, call: Call) -> io::Result<bool> {
        if call == self.smallest {
            return Ok(false);
        }
        self.tries += 1;
        let wrong = self.asker.ask(&call)? != Some(call.expected());
        if wrong {
            self.smallest = call;
        }
        Ok(wrong)
    }
}
