//! Compares libvanc with a second implementation of document 01 and the requests A1, A2, A3, A6 and A13, on cases made by chance.
//!
//! second SEED CASES COMMAND [ARG..]         asks COMMAND (answer.c) CASES cases; exits with 1 on a mismatch or a number never met
//! second --case SEED CASE COMMAND [ARG..]   makes one case again and shows it

mod as_found;
mod asker;
mod cases;
mod element;
mod element10;
mod element_faults;
mod element_read_cases;
mod element_write_cases;
#[cfg(test)]
mod figures;
#[cfg(test)]
mod figures10;
mod found;
mod lay_cases;
mod lines;
mod lists;
mod pack_faults;
mod packet;
mod packet_cases;
mod pairs;
mod random;
mod read_cases;
mod rules;
mod sheets;
mod show;
mod shrink;
mod smaller;
mod smaller_element;
mod smaller_packet;
mod string_faults;
mod tally;
mod walk_cases;

use std::io::{self, BufReader, Write};
use std::process::{ChildStdin, ExitCode};
use std::sync::mpsc::{sync_channel, SyncSender};
use std::thread;

use asker::{answer, request, start, Asker};
use cases::{make, Answer, Case, NAMES};
use show::{show_answer, show_call, show_difference};
use shrink::shrink;
use smaller::size;
use tally::Tally;

/// From this many cases on, each number has to be met.
const ENOUGH: u64 = 100_000;
/// Rows that a run shows of each part of a case.
const ROWS: usize = 40;
/// Cases that may be under way at once.
const UNDER_WAY: usize = 128;

fn main() -> ExitCode {
    let args: Vec<String> = std::env::args().skip(1).collect();
    let one = args.first().map_or(false, |arg| arg.as_str() == "--case");
    let args = &args[usize::from(one)..];
    let numbers: Vec<u64> = args.iter().take(2).filter_map(|arg| arg.parse().ok()).collect();
    if numbers.len() < 2 || args.len() < 3 {
        eprintln!("second SEED CASES COMMAND [ARG..]\nsecond --case SEED CASE COMMAND [ARG..]");
        return ExitCode::from(2);
    }
    let result = if one { again(numbers[0], numbers[1], &args[2..]) } else { run(numbers[0], numbers[1], &args[2..]) };
    match result {
        Ok(true) => ExitCode::SUCCESS,
        Ok(false) => ExitCode::FAILURE,
        Err(error) => {
            eprintln!("second: {error}");
            ExitCode::from(2)
        }
    }
}

/// Makes the cases and asks them, ahead of the answers.
fn ask_all(seed: u64, cases: u64, mut requests: ChildStdin, asked: SyncSender<(u64, Case, Answer)>) {
    for i in 0..cases {
        let case = make(seed, i);
        let expected = case.call.expected();
        let written = requests.write_all(&request(&case.call));
        if asked.send((i, case, expected)).is_err() || written.is_err() {
            return;
        }
    }
}

/// Whether all answers are right and enough was met.
fn run(seed: u64, cases: u64, command: &[String]) -> io::Result<bool> {
    let (mut child, requests, answers) = start(command)?;
    let (sender, asked) = sync_channel(UNDER_WAY);
    let asking = thread::spawn(move || ask_all(seed, cases, requests, sender));
    let mut answers = BufReader::new(answers);
    let mut tally = Tally::new();
    let mut mismatches = Vec::new();
    for (i, case, expected) in asked {
        let given = answer(&case.call, &mut answers).ok();
        tally.count(&case.call, &expected.fields, case.kind);
        let ended = given.is_none();
        if given != Some(expected) {
            mismatches.push(Mismatch { case: i, call: case.call.which(), size: size(&case.call) });
        }
        if ended {
            println!("the answering program ended at case {i}");
            break;
        }
    }
    drop(answers);
    asking.join().expect("asking does not fail");
    let ended_well = child.wait()?.success();
    println!("seed {seed}");
    tally.show();
    let missed = if cases >= ENOUGH { tally.missed() } else { Vec::new() };
    for words in &missed {
        println!("never met: {words}");
    }
    explain_smallest(seed, &mismatches, command)?;
    if !ended_well {
        println!("the answering program did not end well");
    }
    println!("{} cases, {} mismatches", tally.cases(), mismatches.len());
    Ok(mismatches.is_empty() && missed.is_empty() && ended_well)
}

/// A case that was answered wrongly.
struct Mismatch {
    case: u64,
    call: usize,
    size: usize,
}

/// Explains the smallest mismatch of each call.
fn explain_smallest(seed: u64, mismatches: &[Mismatch], command: &[String]) -> io::Result<()> {
    for (call, name) in NAMES.iter().enumerate() {
        let of_call: Vec<&Mismatch> = mismatches.iter().filter(|mismatch| mismatch.call == call).collect();
        if let Some(smallest) = of_call.iter().min_by_key(|mismatch| mismatch.size) {
            let first: Vec<u64> = of_call.iter().take(10).map(|mismatch| mismatch.case).collect();
            println!("{} mismatches on {name}, the first at cases {first:?}", of_call.len());
            explain(seed, smallest.case, command, ROWS)?;
        }
    }
    Ok(())
}

/// Shows one case in full. Whether its answer is right.
fn again(seed: u64, i: u64, command: &[String]) -> io::Result<bool> {
    let case = make(seed, i);
    println!("seed {seed}, case {i}: {}", case.kind);
    show_call(&case.call, usize::MAX);
    let mut asker = Asker::new(command);
    let given = asker.ask(&case.call)?;
    asker.stop()?;
    let expected = case.call.expected();
    let right = given.as_ref() == Some(&expected);
    if let Some(given) = &given {
        show_difference(&expected, given);
    }
    show_answer("given", &case.call, &given);
    show_answer("expected", &case.call, &Some(expected));
    if !right {
        explain(seed, i, command, usize::MAX)?;
    }
    Ok(right)
}

/// Shrinks a case that was answered wrongly, and shows the smallest found.
fn explain(seed: u64, i: u64, command: &[String], most_rows: usize) -> io::Result<()> {
    let case = make(seed, i);
    println!("MISMATCH: seed {seed}, case {i}: {}", case.kind);
    let mut asker = Asker::new(command);
    if asker.ask(&case.call)?.as_ref() == Some(&case.call.expected()) {
        asker.stop()?;
        println!("  asked alone it is answered rightly: the answering program keeps something from case to case");
        return Ok(());
    }
    let (call, tries) = shrink(case.call, &mut asker)?;
    println!("the smallest case found, in {tries} tries:");
    show_call(&call, most_rows);
    let (expected, given) = (call.expected(), asker.ask(&call)?);
    asker.stop()?;
    if let Some(given) = &given {
        show_difference(&expected, given);
    }
    show_answer("given", &call, &given);
    show_answer("expected", &call, &Some(expected));
    Ok(())
}
