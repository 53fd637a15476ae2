//! Calls, and what the upstream code answers to them.

use crate::ctap::apdu::{Apdu, ApduType, Case};
use crate::ctap::ctap1::Ctap1Command;
use crate::ctap::CtapState;
use crate::lent::{take_signer, Hardware, Lent, Noted};

#[derive(Clone, Debug)]
pub enum Call {
    /// A fresh record begins a new history.
    New,
    Touch(u64),
    Check(u64),
    Ask(u64),
    Read(Vec<u8>),
    /// A frame to be decided on, and finished if it comes to an order.
    Command(u64, Vec<u8>, Box<Hardware>),
}

/// What a frame says.
#[derive(Clone, Debug, PartialEq, Eq)]
pub struct Says {
    pub header: [u8; 4],
    pub shape: u8,
    pub lc: u16,
    pub le: u32,
    pub data: Vec<u8>,
}

/// What a command came to. `ordered` where it came to the signer, which is where the core hands out an order; `to_sign`
/// where the signer did not fail.
#[derive(Clone, Debug, PartialEq, Eq)]
pub struct Outcome {
    pub status: u16,
    pub body: Vec<u8>,
    pub ordered: bool,
    pub to_sign: Option<Vec<u8>>,
    pub taken: bool,
    pub touch: Touch,
}

/// What the touch check found, where the command came to it.
#[derive(Clone, Copy, Debug, PartialEq, Eq, PartialOrd, Ord)]
pub enum Touch {
    NotLookedFor,
    Missing,
    Found,
}

#[derive(Clone, Debug, PartialEq, Eq)]
pub enum Answer {
    Fresh,
    /// A touch accepted, a touch found, a prompt live.
    Yes(bool),
    Frame(Says),
    Status(u16),
    Command(Outcome),
}

/// One device of the upstream code.
pub struct Device {
    env: Lent,
    state: CtapState<Lent>,
}

fn shape(case: &ApduType) -> u8 {
    match case {
        ApduType::Instruction => 1,
        ApduType::Short(case) | ApduType::Extended(case) => match case {
            Case::Le1 => 2,
            Case::Lc1Data => 3,
            Case::Lc1DataLe1 => 4,
            Case::Lc3Data => 5,
            Case::Lc3DataLe1 => 6,
            Case::Lc3DataLe2 => 7,
            Case::Le3 => 8,
        },
    }
}

pub fn read(frame: &[u8]) -> Answer {
    match Apdu::try_from(frame) {
        Ok(apdu) => Answer::Frame(Says {
            header: [apdu.header.cla, apdu.header.ins, apdu.header.p1, apdu.header.p2],
            shape: shape(&apdu.case_type),
            lc: apdu.lc,
            le: apdu.le,
            data: apdu.data,
        }),
        Err(status) => Answer::Status(status.into()),
    }
}

/// The old form, an extended Lc with an Le of one byte: upstream reads it as shape 6. Document 02, E13, retires it: its answer is 6700,
/// surplus at that byte. Where it stands, worked out from the frame's own bytes; None of any other frame.
pub fn old_form(frame: &[u8]) -> Option<usize> {
    let place = match frame {
        [_, _, _, _, 0, hi, lo, _, ..] => 7 + usize::from(u16::from_be_bytes([*hi, *lo])),
        _ => return None,
    };
    (frame.len() == place + 1).then_some(place)
}

/// Upstream answers 6d00 to every INS that it does not have. Document 02, E2, takes GET RESPONSE out of that: its answers are looked up
/// there, for a device that has no body to fetch. None where upstream's answer stands.
pub fn amended(frame: &[u8], status: u16) -> Option<u16> {
    match read(frame) {
        Answer::Frame(says) if status == 0x6d00 && says.header[1] == 0xc0 => Some(match (says.header, says.lc) {
            ([_, _, 0, 0], 0) => 0x6985,
            ([_, _, 0, 0], _) => 0x6700,
            _ => 0x6a86,
        }),
        _ => None,
    }
}

impl Device {
    pub fn new() -> Device {
        Device {
            env: Lent::default(),
            state: CtapState::new(),
        }
    }

    fn begin(&mut self, t: u64) {
        self.env.now = t;
        self.env.noted = Noted::default();
        take_signer();
    }

    /// What the key store was shown by the last call.
    pub fn shown(&self) -> Option<&(Vec<u8>, Vec<u8>)> {
        self.env.noted.shown.as_ref()
    }

    pub fn answer(&mut self, call: &Call) -> Answer {
        match call {
            Call::New => {
                self.state = CtapState::new();
                Answer::Fresh
            }
            Call::Touch(t) => {
                self.begin(*t);
                self.state.u2f_up_state.grant_up(&mut self.env);
                // Upstream says nothing here: it looks at the prompt alone, and grants where that has not elapsed.
                Answer::Yes(self.env.noted.live)
            }
            Call::Check(t) => {
                self.begin(*t);
                Answer::Yes(self.state.u2f_up_state.consume_up(&mut self.env))
            }
            Call::Ask(t) => {
                self.begin(*t);
                Answer::Yes(self.state.u2f_up_state.is_up_needed(&mut self.env))
            }
            Call::Read(frame) => read(frame),
            Call::Command(t, frame, hardware) => {
                self.begin(*t);
                self.env.hardware = (**hardware).clone();
                let result = Ctap1Command::process_command(&mut self.env, frame, &mut self.state);
                let (status, body) = match result {
                    Ok(body) => (0x9000, body),
                    Err(status) => (status.into(), Vec::new()),
                };
                let signer = take_signer();
                Answer::Command(Outcome {
                    status,
                    body,
                    ordered: signer.asked,
                    to_sign: signer.to_sign,
                    taken: self.env.noted.grown > 0,
                    touch: match (self.env.noted.looked, self.env.noted.live) {
                        (0, _) => Touch::NotLookedFor,
                        (1, false) => Touch::Missing,
                        (1, true) => Touch::Found,
                        (more, _) => panic!("the touch was looked for {more} times"),
                    },
                })
            }
        }
    }
}

/// Every answer that the domain has, so that one which was never met shows. Upstream's shape 6 is not in it: document 02, E13.
pub const ANSWERS: [&str; 42] = [
    "read shape 1",
    "read shape 2",
    "read shape 3",
    "read shape 4",
    "read shape 5",
    "read shape 7",
    "read shape 8",
    "read 6a80",
    "read 6700",
    "command register",
    "command authenticate 3",
    "command authenticate 7",
    "command authenticate 8",
    "command version",
    "command 6a80",
    "command 6700",
    "command 6e00",
    "command 6d00",
    "touch yes",
    "touch no",
    "check yes",
    "check no",
    "ask yes",
    "ask no",
    "decide 6f00",
    "decide 6986",
    "decide 6a80",
    "decide 6700",
    "decide 6e00",
    "decide 6d00",
    "decide 6985",
    "decide 6985, no touch",
    "decide 6f00, touch found",
    "decide 6a80, touch found",
    "decide version",
    "decide register, touch found",
    "decide authenticate",
    "decide authenticate, touch found",
    "finish register 9000",
    "finish register 6f00",
    "finish authenticate 9000",
    "finish authenticate 6f00",
];

pub fn reading_name(answer: &Answer) -> String {
    match answer {
        Answer::Frame(says) => format!("read shape {}", says.shape),
        Answer::Status(status) => format!("read {status:04x}"),
        other => panic!("a reading is {other:?}"),
    }
}

pub fn yes_name(what: &str, yes: bool) -> String {
    format!("{what} {}", if yes { "yes" } else { "no" })
}

impl Outcome {
    fn kind(&self, frame: &[u8]) -> String {
        match (self.ordered, self.status) {
            (true, _) if frame[1] == 0x01 => "register".into(),
            (true, _) => "authenticate".into(),
            (false, 0x9000) => "version".into(),
            (false, status) => format!("{status:04x}"),
        }
    }

    pub fn decision_name(&self, frame: &[u8]) -> String {
        let touch = match self.touch {
            Touch::NotLookedFor => "",
            Touch::Missing => ", no touch",
            Touch::Found => ", touch found",
        };
        format!("decide {}{touch}", self.kind(frame))
    }

    pub fn finish_name(&self, frame: &[u8]) -> String {
        format!("finish {} {:04x}", self.kind(frame), self.status)
    }
}
