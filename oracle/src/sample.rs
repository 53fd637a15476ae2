//! A sample of the oracle's answers as case files of firmware/test: calls of the pipe panel and what upstream answers, with
//! no Rust at hand when it is run. Bytes that nothing looks at count up, so that names can stand for them. Of a 6700 the sample holds
//! the status alone: upstream does not say what is wrong with the length, so the line ends in ` ..`, which lets the answer go on. Commands
//! with INS C0 are left out, and so are frames of the old form, read or commanded, which upstream reads as shape 6: upstream's answers to
//! them are amended (document 02, E2 and E13). Every history names side 0 (E7).

use crate::device::{amended, old_form, reading_name, yes_name, Answer, Call, Device, Outcome, ANSWERS};
use crate::generate::{all, all_count, boundary, damaged, frame, hardware, plain, Dice, History, LONG};
use crate::lent::{Allowed, Attested, Hardware};
use crate::panel::{decided, finished, put_call, put_finish, put_side, Record, SIDE};
use std::collections::BTreeMap;
use std::fmt::Write;

const SALT_X: usize = 16;
const SALT_Y: usize = 64;
const SALT_HANDLE: usize = 112;
const SALT_CERTIFICATE: usize = 160;
const SALT_SIGNATURE: usize = 208;

/// The plain bytes from 0 on, once around; and as often as the longest frame takes.
const ROUND: usize = 251;

const FRAMES: usize = 290;
const HISTORIES: usize = 90;
const HISTORY_CALLS: usize = 20;

fn salted(salt: usize, n: usize) -> Vec<u8> {
    (0..n).map(|i| plain(i + salt)).collect()
}

fn hex(bytes: &[u8]) -> String {
    bytes.iter().fold(String::new(), |mut out, b| {
        write!(out, "{b:02x}").unwrap();
        out
    })
}

/// The line with a name in the place of the bytes, but where a letter follows, which would be the name's.
fn stand(line: &str, bytes: &str, name: &str) -> String {
    let mut out = String::new();
    let mut rest = line;
    while let Some(at) = rest.find(bytes) {
        let (before, after) = (&rest[..at], &rest[at + bytes.len()..]);
        out += before;
        out += if after.starts_with(|c: char| c.is_ascii_lowercase()) { bytes } else { name };
        rest = after;
    }
    out + rest
}

/// A line with names for its plain bytes: $all for once around, $many for a hundred times.
fn named(line: &str) -> String {
    let all = hex(&salted(0, ROUND));
    let names = [
        (all.repeat(100), "$many"),
        (all, "$all"),
        (hex(&salted(0, 64)), "$plain"),
        (hex(&salted(SALT_X, 32)), "$x"),
        (hex(&salted(SALT_Y, 32)), "$y"),
    ];
    names.iter().fold(line.to_string(), |line, (bytes, name)| stand(&line, bytes, name))
}

/// Where a shape has its data, after its Lc; upstream hands out a copy.
fn data_start(shape: u8) -> usize {
    match shape {
        3 | 4 => 5,
        5 | 7 => 7,
        _ => 4,
    }
}

#[derive(Default)]
struct Sample {
    /// The parts that are whole, and the one that is being made.
    parts: Vec<(&'static str, String)>,
    text: String,
    record: Record,
    tally: BTreeMap<String, u64>,
}

impl Sample {
    fn case(&mut self, call: &[u8], answer: &[u8]) {
        let (call, answer) = (String::from_utf8_lossy(call), String::from_utf8_lossy(answer));
        let more = if answer == "6700" { " .." } else { "" };
        writeln!(self.text, "> {}\n< {}{more}", named(call.trim_end()), named(&answer)).unwrap();
    }

    fn end(&mut self, name: &'static str) {
        let text = std::mem::take(&mut self.text);
        self.parts.push((name, text));
    }

    fn count(&mut self, answer: String) {
        *self.tally.entry(answer).or_default() += 1;
    }

    fn read(&mut self, frame: &[u8]) {
        if old_form(frame).is_some() {
            return;
        }
        let answer = crate::device::read(frame);
        self.count(reading_name(&answer));
        let said = match answer {
            Answer::Frame(says) => {
                let start = data_start(says.shape);
                let end = start + says.data.len();
                assert_eq!(frame[start..end], says.data);
                format!("{} {} {} {start} {end}", says.shape, says.lc, says.le)
            }
            Answer::Status(status) => format!("{status:04x}"),
            other => panic!("a reading is {other:?}"),
        };
        let frame = if frame.is_empty() { "-".into() } else { hex(frame) };
        self.case(format!("read {frame}").as_bytes(), said.as_bytes());
    }

    /// The decision, the record after it, and the finishing of its order.
    fn decided(&mut self, call: &Call, out: &Outcome) {
        let Call::Command(t, frame, _) = call else { return };
        let (mut line, mut said) = (Vec::new(), Vec::new());
        put_call(&mut line, call);
        decided(call, out, &mut said);
        self.case(&line, &said);
        self.count(out.decision_name(frame));
        self.record.checked(*t, out.touch);
        let mut record = Vec::new();
        self.record.put(&mut record);
        self.case(b"record", &record);
        if out.ordered {
            self.count(out.finish_name(frame));
            let (mut line, mut said) = (Vec::new(), Vec::new());
            put_finish(&mut line, call);
            finished(out, &mut said);
            self.case(&line, &said);
        }
    }

    fn yes(&mut self, what: &str, t: u64, yes: bool) {
        self.count(yes_name(what, yes));
        self.case(format!("{what} {t}").as_bytes(), if yes { b"yes" } else { b"no" });
    }

    /// Both devices get every call. The second has a signer that never fails: it is asked for the bytes to sign where the
    /// first one's failed, which upstream does not hand out then.
    fn call(&mut self, device: &mut Device, signing: &mut Device, call: &Call) {
        if matches!(call, Call::Command(_, frame, _) if is_amended(frame)) {
            return;
        }
        let signed = match call {
            Call::Command(t, frame, hw) => {
                let mut hw = (**hw).clone();
                hw.signature = hw.signature.or(Some(Vec::new()));
                signing.answer(&Call::Command(*t, frame.clone(), Box::new(hw)))
            }
            other => signing.answer(other),
        };
        match (call, device.answer(call)) {
            (Call::New, _) => {
                self.record = Record::default();
                let mut line = Vec::new();
                put_side(&mut line, SIDE);
                self.case(&line, b"ok");
                line.clear();
                put_call(&mut line, call);
                self.case(&line, b"ok");
            }
            (Call::Touch(t), Answer::Yes(yes)) => {
                self.record.touched(*t, yes);
                self.yes("touch", *t, yes)
            }
            (Call::Check(t), Answer::Yes(yes)) => {
                self.record.checked(*t, if yes { crate::device::Touch::Found } else { crate::device::Touch::Missing });
                self.yes("check", *t, yes)
            }
            (Call::Ask(t), Answer::Yes(yes)) => self.yes("ask", *t, yes),
            (Call::Command(..), Answer::Command(mut out)) => {
                if let (true, None, Answer::Command(full)) = (out.ordered, &out.to_sign, signed) {
                    out.to_sign = full.to_sign;
                }
                self.decided(call, &out)
            }
            (call, answer) => panic!("{answer:?} to {call:?}"),
        }
    }
}

/// A command whose answer is not upstream's.
fn is_amended(frame: &[u8]) -> bool {
    old_form(frame).is_some() || amended(frame, 0x6d00).is_some()
}

/// The same answers with short plain bytes; the long ones stay for the comparison.
fn shortened(mut hw: Hardware) -> Hardware {
    let h = match hw.new_handle.len() {
        h @ (0 | 255 | 256) => h,
        h => h % 12,
    };
    let c = hw.certificate.len() % 20;
    hw.new_handle = salted(SALT_HANDLE, h);
    hw.certificate = salted(SALT_CERTIFICATE, c);
    hw.x = salted(SALT_X, 32).try_into().unwrap();
    hw.y = salted(SALT_Y, 32).try_into().unwrap();
    hw.signature = hw
        .signature
        .map(|s| salted(SALT_SIGNATURE, if s.len() == 72 { 72 } else { s.len() % 9 }));
    hw
}

fn plain_call(call: Call) -> Call {
    match call {
        Call::Command(t, frame, hw) => Call::Command(t, frame, Box::new(shortened(*hw))),
        other => other,
    }
}

fn sampled(seed: u64) -> Sample {
    let mut sample = Sample::default();
    let mut dice = Dice::plain(seed);
    for at in 0..all_count(4) {
        sample.read(&all(at));
    }
    for _ in 0..FRAMES {
        sample.read(&boundary(&mut dice));
        sample.read(&damaged(&mut dice));
    }
    for n in LONG {
        for shape in [5, 7] {
            let long = frame(shape, [0, 3, 0, 0], &dice.bytes(n), 1);
            sample.read(&long);
            sample.read(&long[..long.len() - 3]);
        }
    }
    sample.end("rust_frames");
    let (mut device, mut signing) = (Device::new(), Device::new());
    for at in 0..HISTORIES {
        if at == HISTORIES / 2 {
            sample.end("rust_histories");
        }
        let mut history = History::new(&mut dice);
        sample.call(&mut device, &mut signing, &Call::New);
        for _ in 0..HISTORY_CALLS {
            let call = plain_call(history.next(&mut dice));
            sample.call(&mut device, &mut signing, &call);
            if let (Call::Command(t, ..), true) = (&call, dice.one_in(2)) {
                sample.call(&mut device, &mut signing, &Call::Ask(*t));
            }
        }
    }
    sample.end("rust_more_histories");
    // Every damage meets a command that is otherwise good, a fresh record and hardware that answers.
    let answering = shortened(Hardware {
        allowed: Allowed::Yes,
        attested: Attested::Present,
        new_handle: vec![0; 8],
        ..hardware(&mut dice)
    });
    for _ in 0..FRAMES {
        let frame = damaged(&mut dice);
        if is_amended(&frame) {
            continue;
        }
        sample.call(&mut device, &mut signing, &Call::New);
        sample.call(&mut device, &mut signing, &Call::Command(0, frame, Box::new(answering.clone())));
    }
    sample.end("rust_damaged");
    sample
}

/// The sample as case files: readings, histories, and damaged commands on a fresh record. Panics where the sample misses an answer.
pub fn make(seed: u64) -> Vec<(&'static str, String)> {
    let sample = sampled(seed);
    let mut head = format!(
        "# Answers of the upstream Rust, made by `oracle/sample {seed}` and not edited. An answer `6700 ..` may go on: upstream does not\n\
         # say what is wrong with the length. Frames of the old form, which upstream still reads as shape 6, are left out: document 02, E13.\n\
         # How many of the calls, here and in the other files of the sample, came to each answer:\n"
    );
    for answer in ANSWERS.iter().filter(|a| !a.starts_with("command ")) {
        let n = sample
            .tally
            .get(*answer)
            .unwrap_or_else(|| panic!("no line of the sample comes to: {answer}"));
        writeln!(head, "# {n} {answer}").unwrap();
    }
    let plain = |from, n| hex(&salted(from, n));
    writeln!(head, "all = {}\nmany = $all * 100\nplain = {}", plain(0, ROUND), plain(0, 64)).unwrap();
    writeln!(head, "x = {}\ny = {}", plain(SALT_X, 32), plain(SALT_Y, 32)).unwrap();
    sample
        .parts
        .into_iter()
        .map(|(name, text)| (name, head.clone() + &text))
        .collect()
}
