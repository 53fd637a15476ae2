//! The panel on its pipe: calls as its lines (firmware/panel.c says what they are), and its answers.

use crate::device::{Call, Outcome, Touch};
use crate::generate::W;
use crate::give_up;
use crate::lent::{Allowed, Attested, Counter, Handle};
use std::io::{BufRead, BufReader, BufWriter, Write};
use std::process::{Child, ChildStdin, ChildStdout, Command, Stdio};

/// The side that every history names (document 02, E7: "demand 2 compares runs with one side only"), so that it is the asker throughout.
pub const SIDE: u64 = 0;

pub struct Panel {
    child: Child,
    pub calls: BufWriter<ChildStdin>,
    pub answers: BufReader<ChildStdout>,
}

impl Panel {
    /// The panel as a program, with its words.
    pub fn start(command: &str) -> Panel {
        let mut words = command.split_whitespace();
        let mut child = Command::new(words.next().unwrap_or_else(|| give_up("no command for the panel")))
            .args(words)
            .stdin(Stdio::piped())
            .stdout(Stdio::piped())
            .spawn()
            .unwrap_or_else(|error| give_up(&format!("cannot start the panel {command}: {error}")));
        let calls = BufWriter::with_capacity(1 << 16, child.stdin.take().unwrap());
        let answers = BufReader::with_capacity(1 << 16, child.stdout.take().unwrap());
        Panel { child, calls, answers }
    }

    pub fn split(self) -> (Child, BufWriter<ChildStdin>, BufReader<ChildStdout>) {
        (self.child, self.calls, self.answers)
    }
}

/// The next line without its newline; none where the panel has ended.
pub fn next_line<'a>(answers: &mut impl BufRead, line: &'a mut String) -> Option<&'a str> {
    line.clear();
    match answers.read_line(line) {
        Ok(n) if n > 0 => Some(line.trim_end_matches('\n')),
        _ => None,
    }
}

/// An answer of the panel's without the pair that its 6700 has, and upstream's has not: of these the status alone is compared.
pub fn without_pair(line: &str) -> &str {
    let words: Vec<&str> = line.split(' ').collect();
    match words[..] {
        ["6700", "missing" | "surplus" | "lc", place] if place.parse::<usize>().is_ok() => "6700",
        _ => line,
    }
}

pub fn hex(out: &mut Vec<u8>, bytes: &[u8]) {
    const DIGITS: &[u8; 16] = b"0123456789abcdef";
    if bytes.is_empty() {
        out.push(b'-');
    }
    for b in bytes {
        out.push(DIGITS[(b >> 4) as usize]);
        out.push(DIGITS[(b & 15) as usize]);
    }
}

/// A word after a space.
fn then(out: &mut Vec<u8>, word: impl std::fmt::Display) {
    write!(out, " {word}").unwrap();
}

fn then_hex(out: &mut Vec<u8>, bytes: &[u8]) {
    out.push(b' ');
    hex(out, bytes);
}

/// The panel's lines for a call, two for a read; the finish of an order is a line of its own.
pub fn put_call(out: &mut Vec<u8>, call: &Call) {
    match call {
        Call::New => write!(out, "new {W}").unwrap(),
        Call::Touch(t) => write!(out, "touch {t}").unwrap(),
        Call::Check(t) => write!(out, "check {t}").unwrap(),
        Call::Ask(t) => write!(out, "ask {t}").unwrap(),
        Call::Read(frame) => {
            out.extend_from_slice(b"read");
            then_hex(out, frame);
            out.extend_from_slice(b"\ncommand");
            then_hex(out, frame);
        }
        Call::Command(t, frame, hw) => {
            let (counter, counted) = match hw.counter {
                Counter::Offered(n) => (n, 1),
                Counter::Failed | Counter::Unread => (0, 0),
            };
            out.extend_from_slice(b"decide");
            then(out, t);
            then(
                out,
                match hw.allowed {
                    Allowed::No => 0,
                    Allowed::Yes => 1,
                    Allowed::Failed => 2,
                },
            );
            then_hex(out, frame);
            then_hex(out, &hw.new_handle);
            then(out, hw.stored as u8);
            then_hex(out, &hw.certificate);
            then(
                out,
                match hw.attested {
                    Attested::Missing => 0,
                    Attested::Present => 1,
                    Attested::Failed => 2,
                },
            );
            then_hex(out, &hw.x);
            then_hex(out, &hw.y);
            then(out, (hw.handle == Handle::Good) as u8);
            then(out, counter);
            then(out, counted);
        }
    }
    out.push(b'\n');
}

/// The line that names a side, which upstream has not.
pub fn put_side(out: &mut Vec<u8>, side: u64) {
    out.extend_from_slice(b"side");
    then(out, side);
    out.push(b'\n');
}

/// The line that makes the calls after it the wrapper's (include/brinecandle_panel.h), or the core's: upstream's answers are both's.
pub fn put_wrapper(out: &mut Vec<u8>, is_wrapped: bool) {
    out.extend_from_slice(b"wrapper");
    then(out, is_wrapped as u8);
    out.push(b'\n');
}

/// The line that gives the buffer for part and status its length. The wrapper asks for it; upstream has none.
pub fn put_outroom(out: &mut Vec<u8>, room: usize) {
    out.extend_from_slice(b"outroom");
    then(out, room);
    out.push(b'\n');
}

/// The line for the strict reading, which upstream has not.
pub fn put_strict(out: &mut Vec<u8>, frame: &[u8]) {
    out.extend_from_slice(b"strict");
    then_hex(out, frame);
    out.push(b'\n');
}

/// The line for the second reading of the same frame.
pub fn put_table(out: &mut Vec<u8>, frame: &[u8]) {
    out.extend_from_slice(b"table");
    then_hex(out, frame);
    out.push(b'\n');
}

/// The line that finishes the order which the call came to.
pub fn put_finish(out: &mut Vec<u8>, call: &Call) {
    let Call::Command(_, frame, hw) = call else { return };
    let certificate: &[u8] = if frame[1] == 0x01 { &hw.certificate } else { &[] };
    out.extend_from_slice(b"finish");
    then_hex(out, certificate);
    then(out, hw.signature.is_some() as u8);
    then_hex(out, hw.signature.as_deref().unwrap_or(&[]));
    out.push(b'\n');
}

/// What the panel says to a decision that upstream answers so.
pub fn decided(call: &Call, out: &Outcome, said: &mut Vec<u8>) {
    let Call::Command(_, frame, hw) = call else { return };
    if out.ordered {
        let length = if frame[1] == 0x01 { hw.certificate.len() } else { 0 };
        write!(said, "order {} {}", frame[1], out.taken as u8).unwrap();
        match &out.to_sign {
            Some(bytes) => then_hex(said, bytes),
            None => said.extend_from_slice(b" *"),
        }
        then(said, length);
    } else {
        finished(out, said);
    }
}

/// What it says when the order is finished, or where there is none.
pub fn finished(out: &Outcome, said: &mut Vec<u8>) {
    write!(said, "{:04x}", out.status).unwrap();
    if out.status == 0x9000 {
        then_hex(said, &out.body);
    }
}

/// The presence record as upstream's answers say it must stand: document 01's rules, applied to what upstream answered. Upstream knows no
/// sides, so every history names one, and the asker is that one throughout.
#[derive(Clone, Copy, Default)]
pub struct Record {
    prompt: Option<u64>,
    touch: Option<u64>,
    last: u64,
}

impl Record {
    pub fn touched(&mut self, t: u64, accepted: bool) {
        if accepted {
            self.prompt = None;
            self.touch = Some(t);
        }
        self.last = t;
    }

    pub fn checked(&mut self, t: u64, touch: Touch) {
        match touch {
            Touch::NotLookedFor => {}
            Touch::Missing => self.prompt = Some(t),
            Touch::Found => self.touch = None,
        }
        self.last = t;
    }

    pub fn put(&self, said: &mut Vec<u8>) {
        write!(said, "{W}").unwrap();
        for window in [self.prompt, self.touch] {
            match window {
                Some(m) => then(said, m),
                None => then(said, '-'),
            }
        }
        then(said, self.last);
        then(said, SIDE);
    }
}
