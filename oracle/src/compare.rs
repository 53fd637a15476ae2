//! The comparison: the same calls to the panel and to upstream, answer by answer. Of a 6700 the status alone is compared: upstream
//! does not say what is wrong with the length, or where. Bodies are compared uncut, and where upstream says 6d00 to INS C0 the panel is
//! held to document 02 instead, and counted apart; what the call leaves is compared with upstream's there too. So it is with the old
//! form, which upstream reads as shape 6 and serves: the panel is held to document 02's E13, 6700 with its pair. Were upstream to decide
//! on such a frame it could spend a touch or count where the panel does not, so in a history it gets that frame with two bytes more,
//! which it refuses for the length as well, and at the same point: both stay in step. Every history names side 0 (document 02, E7). Half of
//! them go through the wrapper, with room for every response.

use crate::device::{amended, old_form, read, reading_name, yes_name, Answer, Call, Device, Outcome, Touch, ANSWERS};
use crate::generate::{all, all_count, boundary, damaged, Aimed, Dice, History, ALL_UP_TO, ROOM};
use crate::lent::Hardware;
use crate::panel::{decided, finished, next_line, put_call, put_finish, put_outroom, put_side, put_table, put_wrapper};
use crate::panel::{without_pair, Panel, Record, SIDE};
use std::collections::BTreeMap;
use std::io::Write;
use std::sync::mpsc::sync_channel;
use std::sync::Arc;

/// Calls of a block, which has its own dice: what is compared does not depend on how many panels share the work.
const BLOCK: usize = 1000;
const HISTORY_CALLS: usize = 25;

/// From so many on every answer is met, whatever the seed.
const ENOUGH_FRAMES: usize = 10_000;
const ENOUGH_CALLS: usize = 1_000;

/// Lines that are compared too, and are no answers of upstream's.
const RECORD: &str = "record";
const FRESH: &str = "new";
const NAMED: &str = "side";
const ROOMY: &str = "outroom";
const WRAPPED: &str = "wrapper";

/// Answers that are held to document 02.
const FETCHED: &str = "INS C0, where the Rust says 6d00";
const OLD_FORM: &str = "the old form, where the Rust reads shape 6";

/// An answer of the second reader.
const BY_TABLE: &str = ", by a table";

/// What a line of the panel's has to say.
enum Expected {
    /// These words; a word `*` may be any.
    Words(Vec<u8>),
    /// 6700, surplus at this place: the pair is compared too.
    Surplus(usize),
    /// What upstream reads, and the same data as a part of the frame.
    Reading(Vec<u8>, Answer),
    /// What upstream does with the frame when the hardware has good answers and there is no touch.
    Command(Vec<u8>, Outcome, Option<(Vec<u8>, Vec<u8>)>),
}

/// Call lines, and for each what is expected and the answer that it is counted as.
#[derive(Default)]
struct Block {
    lines: Vec<u8>,
    expected: Vec<(Expected, String)>,
}

impl Block {
    fn words(&mut self, key: String, words: impl FnOnce(&mut Vec<u8>)) {
        let mut said = Vec::new();
        words(&mut said);
        self.expected.push((Expected::Words(said), key));
    }

    fn surplus(&mut self, key: String, place: usize) {
        self.expected.push((Expected::Surplus(place), key));
    }

    /// A frame of the old form: both readers and the command's reading give its place.
    fn old_form(&mut self, frame: Vec<u8>, place: usize) {
        assert_eq!(reading_name(&read(&frame)), "read shape 6");
        put_table(&mut self.lines, &frame);
        self.surplus(format!("read {OLD_FORM}{BY_TABLE}"), place);
        put_call(&mut self.lines, &Call::Read(frame));
        self.surplus(format!("read {OLD_FORM}"), place);
        self.surplus(format!("command {OLD_FORM}"), place);
    }

    /// The second reader is compared with upstream too.
    fn by_table(&mut self, frame: &[u8]) {
        let answer = read(frame);
        let key = reading_name(&answer) + BY_TABLE;
        put_table(&mut self.lines, frame);
        self.expected.push((Expected::Reading(frame.to_vec(), answer), key));
    }

    fn frame(&mut self, frame: Vec<u8>) {
        if let Some(place) = old_form(&frame) {
            return self.old_form(frame, place);
        }
        self.by_table(&frame);
        let answer = read(&frame);
        let key = reading_name(&answer);
        let mut device = Device::new();
        let trial = Call::Command(0, frame.clone(), Box::new(Hardware::default()));
        let Answer::Command(outcome) = device.answer(&trial) else {
            unreachable!()
        };
        let shown = device.shown().cloned();
        put_call(&mut self.lines, &Call::Read(frame.clone()));
        self.expected.push((Expected::Reading(frame.clone(), answer), key));
        if let Some(status) = amended(&frame, outcome.status) {
            // a command read by itself does not know what remains
            let said = if status == 0x6985 {
                "getresponse".into()
            } else {
                format!("{status:04x}")
            };
            self.words(format!("command {FETCHED}"), |words| {
                words.extend_from_slice(said.as_bytes())
            });
            return;
        }
        let key = format!("command {}", command_name(&outcome, shown.is_some()));
        self.expected.push((Expected::Command(frame, outcome, shown), key));
    }

    fn record(&mut self, record: &Record) {
        self.lines.extend_from_slice(b"record\n");
        self.words(RECORD.into(), |said| record.put(said));
    }

    fn yes(&mut self, what: &str, yes: bool) {
        let word: &[u8] = if yes { b"yes" } else { b"no" };
        self.words(yes_name(what, yes), |said| said.extend_from_slice(word));
    }

    fn command(&mut self, call: &Call, frame: &[u8], outcome: &Outcome) {
        // where CTAP1 is not allowed the frame is not looked at
        if let (Some(place), 0x6700) = (old_form(frame), outcome.status) {
            return self.surplus(format!("decide {OLD_FORM}"), place);
        }
        if let Some(status) = amended(frame, outcome.status) {
            self.words(format!("decide {FETCHED}"), |said| {
                said.extend_from_slice(format!("{status:04x}").as_bytes())
            });
            return;
        }
        self.words(outcome.decision_name(frame), |said| decided(call, outcome, said));
        if outcome.ordered {
            put_finish(&mut self.lines, call);
            self.words(outcome.finish_name(frame), |said| finished(outcome, said));
        }
    }

    fn begin(&mut self, is_wrapped: bool) {
        put_side(&mut self.lines, SIDE);
        put_outroom(&mut self.lines, ROOM + 2);
        put_wrapper(&mut self.lines, is_wrapped);
        for key in [NAMED, ROOMY, WRAPPED] {
            self.words(key.into(), |said| said.extend_from_slice(b"ok"));
        }
    }

    fn call(&mut self, device: &mut Device, record: &mut Record, call: &Call) {
        put_call(&mut self.lines, call);
        match (call, device.answer(&in_step(call))) {
            (Call::New, _) => {
                *record = Record::default();
                self.words(FRESH.into(), |said| said.extend_from_slice(b"ok"));
            }
            (Call::Touch(t), Answer::Yes(yes)) => {
                self.yes("touch", yes);
                record.touched(*t, yes);
            }
            (Call::Check(t), Answer::Yes(yes)) => {
                self.yes("check", yes);
                record.checked(*t, if yes { Touch::Found } else { Touch::Missing });
            }
            (Call::Ask(_), Answer::Yes(yes)) => self.yes("ask", yes),
            (Call::Command(t, frame, _), Answer::Command(outcome)) => {
                self.command(call, frame, &outcome);
                record.checked(*t, outcome.touch);
            }
            (call, answer) => panic!("{answer:?} to {call:?}"),
        }
        self.record(record);
    }
}

/// The call as upstream gets it: a frame of the old form comes with two bytes more.
fn in_step(call: &Call) -> Call {
    match call {
        Call::Command(t, frame, hardware) if old_form(frame).is_some() => {
            Call::Command(*t, [frame, &[0, 0][..]].concat(), hardware.clone())
        }
        call => call.clone(),
    }
}

/// The command that upstream took a frame for: the control byte shows in what it did.
fn command_name(outcome: &Outcome, shown: bool) -> String {
    match (outcome.status, outcome.touch, shown) {
        (0x6985, Touch::Missing, false) => "register".into(),
        (0x6985, Touch::Missing, true) => "authenticate 3".into(),
        (0x6985, Touch::NotLookedFor, true) => "authenticate 7".into(),
        (0x9000, Touch::NotLookedFor, true) => "authenticate 8".into(),
        (0x9000, Touch::NotLookedFor, false) => "version".into(),
        (status, _, _) => format!("{status:04x}"),
    }
}

/// The words of an answer, all but the first, as places.
fn places(line: &str, skip: usize) -> Option<Vec<usize>> {
    line.split(' ').skip(skip).map(|w| w.parse().ok()).collect()
}

fn is_reading(frame: &[u8], answer: &Answer, line: &str) -> bool {
    match answer {
        Answer::Frame(says) => match places(line, 0).as_deref() {
            Some([shape, lc, le, start, end]) => {
                (*shape, *lc, *le) == (says.shape as usize, says.lc as usize, says.le as usize)
                    && frame.get(*start..*end) == Some(&says.data)
                    && frame[..4] == says.header
            }
            _ => false,
        },
        Answer::Status(status) => line == format!("{status:04x}"),
        _ => false,
    }
}

fn is_command(frame: &[u8], outcome: &Outcome, shown: &Option<(Vec<u8>, Vec<u8>)>, line: &str) -> bool {
    let name = command_name(outcome, shown.is_some());
    let at = |from: usize| frame.get(from..from + 32);
    match (name.strip_prefix("authenticate "), shown) {
        (Some(p1), Some((handle, application))) => match places(line, 1).as_deref() {
            Some([said, challenge, place, start, end]) => {
                line.starts_with("authenticate ")
                    && said.to_string() == p1
                    && at(*place) == Some(application)
                    && frame.get(*start..*end) == Some(handle)
                    && outcome.to_sign.iter().all(|bytes| at(*challenge) == Some(&bytes[37..]))
            }
            _ => false,
        },
        _ if name == "register" => line.starts_with("register "),
        _ => line == name,
    }
}

fn is_words(expected: &[u8], line: &str) -> bool {
    let expected = std::str::from_utf8(expected).unwrap();
    if !expected.contains('*') {
        return expected == line;
    }
    expected.split(' ').count() == line.split(' ').count()
        && expected
            .split(' ')
            .zip(line.split(' '))
            .all(|(e, l)| e == "*" || e == l)
}

impl Expected {
    fn is_met(&self, line: &str) -> bool {
        let status = without_pair(line);
        match self {
            Expected::Words(words) => is_words(words, status),
            Expected::Surplus(_) => line == self.text(),
            Expected::Reading(frame, answer) => is_reading(frame, answer, status),
            Expected::Command(frame, outcome, shown) => is_command(frame, outcome, shown, status),
        }
    }

    fn text(&self) -> String {
        match self {
            Expected::Words(words) => String::from_utf8_lossy(words).into_owned(),
            Expected::Surplus(place) => format!("6700 surplus {place}"),
            Expected::Reading(_, Answer::Frame(says)) => {
                format!(
                    "shape {}, Lc {}, Le {}, {} bytes of data",
                    says.shape,
                    says.lc,
                    says.le,
                    says.data.len()
                )
            }
            Expected::Reading(_, Answer::Status(status)) => format!("{status:04x}"),
            Expected::Reading(_, answer) => format!("{answer:?}"),
            Expected::Command(_, outcome, shown) => command_name(outcome, shown.is_some()),
        }
    }
}

/// What is to be compared.
#[derive(Clone)]
pub struct Plan {
    pub panel: String,
    pub frames: usize,
    pub calls: usize,
    pub seed: u64,
    pub jobs: usize,
}

impl Plan {
    fn frame_blocks(&self) -> usize {
        self.frames.div_ceil(BLOCK)
    }

    fn blocks(&self) -> usize {
        self.frame_blocks() + self.calls.div_ceil(BLOCK)
    }

    /// Every third frame is the next of all those over the alphabet; the others are boundaries and damaged copies.
    fn frames_of(&self, dice: &mut Dice, first: usize) -> Block {
        let mut block = Block::default();
        for at in first..self.frames.min(first + BLOCK) {
            block.frame(match at % 3 {
                0 if at / 3 < all_count(ALL_UP_TO) => all(at / 3),
                1 => boundary(dice),
                _ => damaged(dice),
            });
        }
        block
    }

    /// Every second history goes for a touch; the others wander. Of either every second one goes through the wrapper.
    fn calls_of(&self, dice: &mut Dice, first: usize) -> Block {
        let mut block = Block::default();
        let mut device = Device::new();
        let mut record = Record::default();
        let mut wandering = History::new(dice);
        let mut aimed = Aimed::new(dice);
        for at in 0..BLOCK.min(self.calls - first) {
            if at % HISTORY_CALLS == 0 {
                block.begin(at / HISTORY_CALLS / 2 % 2 == 1);
                block.call(&mut device, &mut record, &Call::New);
                wandering = History::new(dice);
                aimed = Aimed::new(dice);
            }
            let call = match at / HISTORY_CALLS % 2 {
                0 => aimed.next(dice),
                _ => wandering.next(dice),
            };
            block.call(&mut device, &mut record, &call);
        }
        block
    }

    fn block(&self, at: usize) -> Block {
        let mut dice = Dice::new(self.seed.wrapping_mul(1 << 32).wrapping_add(at as u64));
        if at < self.frame_blocks() {
            self.frames_of(&mut dice, at * BLOCK)
        } else {
            self.calls_of(&mut dice, (at - self.frame_blocks()) * BLOCK)
        }
    }
}

type Tally = BTreeMap<String, u64>;

/// The calls up to the one at `at`, from the last fresh record on; long lines are cut.
fn story(lines: &[u8], at: usize) -> String {
    let lines: Vec<&str> = std::str::from_utf8(lines).unwrap().lines().take(at + 1).collect();
    let is_history = !["table ", "read ", "command "]
        .iter()
        .any(|call| lines[at].starts_with(call));
    let from = if is_history {
        lines.iter().rposition(|l| l.starts_with("side ")).unwrap_or(0)
    } else {
        at
    };
    lines[from..]
        .iter()
        .filter(|l| **l != "record" || **l == lines[at])
        .fold(String::new(), |out, l| out + "  " + l + "\n")
}

/// The share of one panel: every block of `jobs` from the `job`th on.
fn share(plan: &Plan, job: usize) -> Result<Tally, String> {
    let panel = Panel::start(&plan.panel);
    let (mut child, mut calls, mut answers) = panel.split();
    let (send, receive) = sync_channel::<Arc<Block>>(2);
    let writer = {
        let plan = plan.clone();
        std::thread::spawn(move || {
            for at in (job..plan.blocks()).step_by(plan.jobs) {
                let block = Arc::new(plan.block(at));
                // Either fails only where the comparison has ended.
                if send.send(block.clone()).is_err() || calls.write_all(&block.lines).is_err() || calls.flush().is_err()
                {
                    return;
                }
            }
        })
    };
    let mut tally = Tally::new();
    let mut space = String::new();
    let mut result = Ok(());
    'all: for block in receive.iter() {
        for (at, (expected, key)) in block.expected.iter().enumerate() {
            let line = next_line(&mut answers, &mut space).unwrap_or("(the panel has ended)");
            if !expected.is_met(line) {
                result = Err(format!(
                    "calls:\n{}the panel says: {line}\nwanted:         {}\n",
                    story(&block.lines, at),
                    expected.text()
                ));
                break 'all;
            }
            *tally.entry(key.clone()).or_default() += 1;
        }
    }
    drop(receive);
    drop(answers);
    child.kill().ok();
    child.wait().ok();
    writer.join().expect("the calls");
    result.map(|()| tally)
}

/// Compares, prints what the cases came to, and says whether all agreed and every answer was met.
pub fn run(plan: &Plan) -> bool {
    say!(
        "{} frames, {} history calls, seed {}",
        plan.frames,
        plan.calls,
        plan.seed
    );
    let tried = all_count(ALL_UP_TO).min(plan.frames.div_ceil(3));
    say!(
        "{tried} of the {} short frames over the alphabet among them",
        all_count(ALL_UP_TO)
    );
    let shares: Vec<Result<Tally, String>> = std::thread::scope(|scope| {
        let handles: Vec<_> = (0..plan.jobs)
            .map(|job| scope.spawn(move || share(plan, job)))
            .collect();
        handles.into_iter().map(|h| h.join().expect("a share")).collect()
    });
    let by_table = ANSWERS
        .iter()
        .filter(|key| key.starts_with("read "))
        .map(|key| key.to_string() + BY_TABLE);
    let old_forms = ["read", "command", "decide"]
        .map(|what| format!("{what} {OLD_FORM}"))
        .into_iter()
        .chain([format!("read {OLD_FORM}{BY_TABLE}")]);
    let mut tally: Tally = ANSWERS
        .iter()
        .map(|key| key.to_string())
        .chain(by_table)
        .chain(old_forms)
        .map(|key| (key, 0))
        .collect();
    let mut agreed = true;
    for share in shares {
        match share {
            Ok(part) => part
                .into_iter()
                .for_each(|(key, n)| *tally.entry(key).or_default() += n),
            Err(difference) if agreed => {
                say!("FIRST DIFFERENCE\n{difference}");
                agreed = false;
            }
            Err(_) => {}
        }
    }
    if !agreed {
        return false;
    }
    for (key, n) in &tally {
        say!("{n:>9}  {key}");
    }
    let missing: Vec<&String> = tally.iter().filter(|(_, n)| **n == 0).map(|(key, _)| key).collect();
    say!("{} answers compared, no difference", tally.values().sum::<u64>());
    for key in &missing {
        say!("never met: {key}");
    }
    if !missing.is_empty() {
        say!("not every answer was met: take more, at least {ENOUGH_FRAMES} frames and {ENOUGH_CALLS} history calls");
    }
    missing.is_empty()
}
