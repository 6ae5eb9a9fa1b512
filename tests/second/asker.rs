//! The answering program, and the form of requests and answers (see answer.c).

use std::io::{self, Read, Write};
use std::process::{Child, ChildStdin, ChildStdout, Command, Stdio};

use crate::cases::{Answer, Call};

/// The answering program, started afresh when it has ended.
pub struct Asker {
    command: Vec<String>,
    running: Option<(Child, ChildStdin, ChildStdout)>,
}

pub fn start(command: &[String]) -> io::Result<(Child, ChildStdin, ChildStdout)> {
    let mut child = Command::new(&command[0]).args(&command[1..]).stdin(Stdio::piped()).stdout(Stdio::piped()).spawn()?;
    let requests = child.stdin.take().expect("its input is a pipe");
    let answers = child.stdout.take().expect("its output is a pipe");
    Ok((child, requests, answers))
}

impl Asker {
    pub fn new(command: &[String]) -> Asker {
        Asker { command: command.to_vec(), running: None }
    }

    /// The program's answer. None if it ends without one.
    pub fn ask(&mut self, call: &Call) -> io::Result<Option<Answer>> {
        if self.running.is_none() {
            self.running = Some(start(&self.command)?);
        }
        let (_, requests, answers) = self.running.as_mut().expect("it was started");
        let answer = requests.write_all(&request(call)).and_then(|()| answer(call, answers));
        if answer.is_err() {
            self.stop()?;
        }
        Ok(answer.ok())
    }

    /// Ends the program by ending its input.
    pub fn stop(&mut self) -> io::Result<()> {
        if let Some((mut child, requests, answers)) = self.running.take() {
            drop((requests, answers));
            child.wait()?;
        }
        Ok(())
    }
}

fn bytes_of(numbers: &[u16]) -> Vec<u8> {
    numbers.iter().flat_map(|number| number.to_le_bytes()).collect()
}

/// The bytes of a request.
pub fn request(call: &Call) -> Vec<u8> {
    let (first, second, reads, writes) = match call {
        Call::Lay { sheet, packing, area } => (*packing, 0, bytes_of(sheet), area.clone()),
        Call::Read { system, area, buffer } => (*system, 0, area.clone(), bytes_of(buffer)),
        Call::Walk { system, string, place } => (*system, *place, string.clone(), Vec::new()),
        Call::MxfWrite { sheet, fi, element, .. } => (0, u64::from(*fi), bytes_of(sheet), element.clone()),
        Call::MxfRead { system, fi, element, buffer, .. } => (*system, u64::from(*fi), element.clone(), bytes_of(buffer)),
        Call::TestPacket { words } => (0, 0, bytes_of(words), Vec::new()),
    };
    let mut bytes = Vec::new();
    for number in [call.which() as u64, first, second, reads.len() as u64, writes.len() as u64] {
        bytes.extend(number.to_le_bytes());
    }
    bytes.extend(reads);
    bytes.extend(writes);
    bytes
}

/// The answer to a call, from the answering program's output.
pub fn answer(call: &Call, from: &mut impl Read) -> io::Result<Answer> {
    let mut numbers = [0; 6];
    for number in &mut numbers {
        let mut bytes = [0; 8];
        from.read_exact(&mut bytes)?;
        *number = u64::from_le_bytes(bytes);
    }
    let length = match call {
        Call::Lay { area: lent, .. } | Call::MxfWrite { element: lent, .. } => lent.len(),
        Call::Read { buffer, .. } | Call::MxfRead { buffer, .. } => 2 * buffer.len(),
        Call::Walk { .. } | Call::TestPacket { .. } => 0,
    };
    let mut bytes = vec![0; length];
    from.read_exact(&mut bytes)?;
    let mut answer = Answer { fields: [0; 5], changed: numbers[5], bytes: Vec::new(), buffer: Vec::new() };
    answer.fields.copy_from_slice(&numbers[..5]);
    match call {
        Call::Lay { .. } | Call::MxfWrite { .. } => answer.bytes = bytes,
        Call::Read { .. } | Call::MxfRead { .. } => {
            answer.buffer = bytes.chunks(2).map(|pair| u16::from_le_bytes([pair[0], pair[1]])).collect();
        }
        Call::Walk { .. } | Call::TestPacket { .. } => {}
    }
    Ok(answer)
}
