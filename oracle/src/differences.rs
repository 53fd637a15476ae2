//! The differences that docs/DIFFERENCES.md lists, each shown on an input: what upstream answers, and what the panel does.

use crate::device::{Answer, Call, Device, Touch};
use crate::generate::{frame, ROOM};
use crate::give_up;
use crate::lent::{Allowed, Counter, Hardware};
use crate::panel::{next_line, put_call, put_finish, put_side, put_strict, Panel};
use std::io::Write;

#[derive(Clone)]
struct Difference {
    name: &'static str,
    /// The panel's reply buffer.
    room: usize,
    /// The last one shows the difference; the others lead up to it.
    calls: Vec<Call>,
    /// The side that the panel gets the last one from; the others are of side 0.
    side: u64,
    /// Lines that the panel alone gets after it. All differences are shown on one panel: after another side they name side 0 again.
    more: &'static str,
    rust: &'static str,
    /// The panel's answers to the naming of another side, and to the last call: three to a read (reading, command and strict reading), and one more where
    /// upstream came to a signature, to the finish; then those to what it gets alone.
    panel: &'static [&'static str],
}

fn read(frame: &[u8]) -> Vec<Call> {
    vec![Call::New, Call::Read(frame.to_vec())]
}

fn command(t: u64, frame: Vec<u8>, hardware: Hardware) -> Call {
    Call::Command(t, frame, Box::new(hardware))
}

fn version(le: u16) -> Vec<u8> {
    frame(2, [0, 3, 0, 0], &[], le)
}

fn authenticate(p1: u8) -> Vec<u8> {
    frame(3, [0, 2, p1, 0], &[7; 65 + 7], 0)
}

fn register() -> Vec<u8> {
    frame(3, [0, 1, 0, 0], &[7; 64], 0)
}

fn enrolling(h: usize, c: usize) -> Hardware {
    Hardware {
        new_handle: vec![1; h],
        certificate: vec![2; c],
        signature: Some(vec![3; 70]),
        ..Hardware::default()
    }
}

fn counting(counter: Counter) -> Hardware {
    Hardware {
        counter,
        ..Hardware::default()
    }
}

fn signing(n: usize) -> Hardware {
    Hardware {
        signature: Some(vec![3; n]),
        ..Hardware::default()
    }
}

/// A record with a live touch.
fn touched() -> Vec<Call> {
    vec![Call::New, Call::Check(0), Call::Touch(1)]
}

fn after(mut calls: Vec<Call>, call: Call) -> Vec<Call> {
    calls.push(call);
    calls
}

/// Shown with the reply buffer that the panel has by default.
fn show(name: &'static str, calls: Vec<Call>, rust: &'static str, panel: &'static [&'static str]) -> Difference {
    Difference {
        name,
        room: ROOM,
        calls,
        side: 0,
        more: "",
        rust,
        panel,
    }
}

fn within(room: usize, difference: Difference) -> Difference {
    Difference { room, ..difference }
}

fn then(more: &'static str, difference: Difference) -> Difference {
    Difference { more, ..difference }
}

fn from(side: u64, difference: Difference) -> Difference {
    Difference { side, ..difference }
}

fn fresh(frame: Vec<u8>, hardware: Hardware) -> Vec<Call> {
    vec![Call::New, command(0, frame, hardware)]
}

/// Upstream and the panel alike, and not as the public documents have it.
fn against_the_documents() -> Vec<Difference> {
    let good = Hardware::default;
    let allowed = |allowed| Hardware { allowed, ..good() };
    vec![
        show(
            "an extended Lc of 0 is read, and strictly it is not",
            read(&[0, 3, 0, 0, 0, 0, 0, 0, 5]),
            "shape 7, Lc 0, Le 5",
            &["7 0 5 7 7", "version", "6700 surplus 7"],
        ),
        show(
            "a short frame is wrong data, not wrong length",
            read(&[0, 3, 0]),
            "6a80",
            &["6a80", "6a80", "6a80"],
        ),
        show(
            "Register looks at no P1",
            fresh(frame(3, [0, 1, 0xff, 0], &[7; 64], 0), good()),
            "6985, no touch",
            &["6985"],
        ),
        show(
            "a vendor's command is refused",
            fresh(frame(1, [0, 0x40, 0, 0], &[], 0), good()),
            "6d00",
            &["6d00"],
        ),
        show(
            "the handle's length comes before P1",
            fresh(frame(3, [0, 2, 5, 0], &[7; 66], 0), good()),
            "6700",
            &["6700 lc 4"],
        ),
        show(
            "CTAP1 is not allowed",
            fresh(version(0), allowed(Allowed::No)),
            "6986",
            &["6986"],
        ),
        show(
            "whether CTAP1 is allowed is not known",
            fresh(version(0), allowed(Allowed::Failed)),
            "6f00",
            &["6f00"],
        ),
        show(
            "a failed counter costs the touch",
            after(touched(), command(2, authenticate(3), counting(Counter::Failed))),
            "6a80, touch spent",
            &["6a80"],
        ),
    ]
}

/// The panel and upstream apart.
fn against_upstream() -> Vec<Difference> {
    let enrol = |h, c| after(touched(), command(2, register(), enrolling(h, c)));
    let unsigned = |hardware| Hardware {
        signature: None,
        ..hardware
    };
    vec![
        show(
            "the counter grows and then cannot be read",
            fresh(authenticate(8), counting(Counter::Unread)),
            "6a80, counter taken",
            &["6a80"],
        ),
        within(
            502,
            show(
                "no room for the enrolment",
                enrol(64, 300),
                "9000, 501 bytes, touch spent",
                &["R2", "R7"],
            ),
        ),
        within(
            503,
            show(
                "just enough room",
                enrol(64, 300),
                "9000, 501 bytes, touch spent",
                &["order 1 0 *", "9000 *"],
            ),
        ),
        within(
            76,
            show(
                "no room for the login",
                fresh(authenticate(8), signing(70)),
                "9000, 75 bytes, counter taken",
                &["R2", "R7"],
            ),
        ),
        within(
            5,
            show(
                "no room for the version",
                fresh(version(0), Hardware::default()),
                "9000, 6 bytes",
                &["R2"],
            ),
        ),
        within(
            502,
            show(
                "a handle over 255 and no room",
                enrol(256, 300),
                "6f00, touch spent",
                &["R2"],
            ),
        ),
        show(
            "a signature over 72 bytes",
            fresh(authenticate(8), signing(73)),
            "9000, 78 bytes, counter taken",
            &["order 2 1 *", "R3"],
        ),
        show(
            "the enrolment's signer fails",
            after(touched(), command(2, register(), unsigned(enrolling(64, 300)))),
            "6f00, touch spent",
            &["order 1 0 *", "6f00"],
        ),
        show(
            "the login's signer fails",
            fresh(authenticate(8), unsigned(signing(0))),
            "6f00, counter taken",
            &["order 2 1 *", "6f00"],
        ),
        show(
            "a moment that goes back",
            vec![Call::New, Call::Check(100), Call::Touch(99)],
            "yes",
            &["R1"],
        ),
        show(
            "bytes are missing, and the panel says where",
            read(&[0, 3, 0, 0, 0, 1]),
            "6700",
            &["6700 missing 6", "6700 missing 6", "6700 missing 6"],
        ),
        show(
            "bytes are surplus, and the panel says where",
            read(&[0, 3, 0, 0, 3, 7, 7, 7, 0, 0, 0]),
            "6700",
            &["6700 surplus 9", "6700 surplus 9", "6700 surplus 9"],
        ),
        show(
            "Lc does not fit INS, and the panel says so",
            fresh(frame(1, [0, 1, 0, 0], &[], 0), Hardware::default()),
            "6700",
            &["6700 lc 4"],
        ),
        then(
            "limit\ncut 6\nremainder\n",
            show(
                "a body is cut by Le",
                fresh(version(1), Hardware::default()),
                "9000, 6 bytes",
                &["9000 5532465f5632", "1", "9000 556105", "1 5"],
            ),
        ),
        then(
            "limit\ncut 6\nremainder\n",
            show(
                "an extended frame gets the whole body",
                fresh(frame(8, [0, 3, 0, 0], &[], 1), Hardware::default()),
                "9000, 6 bytes",
                &["9000 5532465f5632", "0", "9000 5532465f56329000", "6 0"],
            ),
        ),
        show(
            "GET RESPONSE is a command, and nothing remains",
            fresh(frame(2, [0, 0xc0, 0, 0], &[], 0), Hardware::default()),
            "6d00",
            &["6985"],
        ),
        show(
            "GET RESPONSE looks at P1 and P2",
            fresh(frame(1, [0, 0xc0, 0, 1], &[], 0), Hardware::default()),
            "6d00",
            &["6a86"],
        ),
        show(
            "GET RESPONSE looks at Lc",
            read(&[0, 0xc0, 0, 0, 1, 7]),
            "shape 3, Lc 1, Le 0",
            &["3 1 0 5 6", "6700 lc 4", "3 1 0 5 6"],
        ),
        show(
            "the old form is in no shape: its Le byte is surplus",
            read(&frame(6, [0, 3, 0, 0], &[], 5)),
            "shape 6, Lc 0, Le 5",
            &["6700 surplus 7", "6700 surplus 7", "6700 surplus 7"],
        ),
        show(
            "the old form with data",
            read(&frame(6, [0, 1, 0, 0], &[7; 64], 0)),
            "shape 6, Lc 64, Le 256",
            &["6700 surplus 71", "6700 surplus 71", "6700 surplus 71"],
        ),
        show(
            "a Version in the old form",
            fresh(frame(6, [0, 3, 0, 0], &[], 5), Hardware::default()),
            "9000, 6 bytes",
            &["6700 surplus 7"],
        ),
        then(
            "record\n",
            show(
                "an enrolment in the old form costs no touch",
                after(
                    touched(),
                    command(2, frame(6, [0, 1, 0, 0], &[7; 64], 0), enrolling(64, 300)),
                ),
                "9000, 501 bytes, touch spent",
                &["6700 surplus 71", "R7", "30000 - 1 2 0"],
            ),
        ),
        show(
            "GET RESPONSE in the old form",
            fresh(frame(6, [0, 0xc0, 0, 0], &[], 1), Hardware::default()),
            "6d00",
            &["6700 surplus 7"],
        ),
        from(
            1,
            then(
                "record\nside 0\n",
                show(
                    "a check finds the touch that the other side asked for",
                    after(touched(), Call::Check(2)),
                    "yes",
                    &["ok", "no", "30000 - 1 2 0", "ok"],
                ),
            ),
        ),
        from(
            1,
            then(
                "record\nside 0\n",
                show(
                    "an enrolment finds the touch that the other side asked for",
                    enrol(64, 300),
                    "9000, 501 bytes, touch spent",
                    &["ok", "6985", "R7", "30000 - 1 2 0", "ok"],
                ),
            ),
        ),
        from(
            2,
            then(
                "side 0\n",
                show(
                    "a side that there is not",
                    fresh(version(0), Hardware::default()),
                    "9000, 6 bytes",
                    &["ok", "R8", "ok"],
                ),
            ),
        ),
        show("a moment of 2^48", vec![Call::New, Call::Check(1 << 48)], "no", &["R1"]),
    ]
}

/// An answer of upstream's in words.
fn words(answer: &Answer) -> String {
    match answer {
        Answer::Fresh => "fresh".into(),
        Answer::Yes(yes) => if *yes { "yes" } else { "no" }.into(),
        Answer::Frame(says) => format!("shape {}, Lc {}, Le {}", says.shape, says.lc, says.le),
        Answer::Status(status) => format!("{status:04x}"),
        Answer::Command(out) => {
            let mut said = format!("{:04x}", out.status);
            if out.status == 0x9000 {
                said += &format!(", {} bytes", out.body.len());
            }
            if out.taken {
                said += ", counter taken";
            }
            match out.touch {
                Touch::NotLookedFor => {}
                Touch::Missing => said += ", no touch",
                Touch::Found => said += ", touch spent",
            }
            said
        }
    }
}

fn is_like(pattern: &str, line: &str) -> bool {
    match pattern.strip_suffix('*') {
        Some(front) => line.starts_with(front),
        None => line == pattern,
    }
}

fn shortened(line: &str) -> String {
    if line.len() > 60 {
        format!("{}..", &line[..60])
    } else {
        line.into()
    }
}

/// The lines that show a difference, and how many of them lead up to it; what upstream answers.
fn lines(difference: &Difference) -> (Vec<u8>, usize, Answer) {
    let mut device = Device::new();
    let mut lines = format!("room {}\n", difference.room).into_bytes();
    let mut answer = Answer::Fresh;
    let mut before = 0;
    for (at, call) in difference.calls.iter().enumerate() {
        answer = device.answer(call);
        before = count(&lines);
        if difference.side != 0 && at + 1 == difference.calls.len() {
            put_side(&mut lines, difference.side);
        }
        put_call(&mut lines, call);
    }
    match (difference.calls.last(), &answer) {
        (Some(call), Answer::Command(out)) if out.ordered => put_finish(&mut lines, call),
        (Some(Call::Read(frame)), _) => put_strict(&mut lines, frame),
        _ => {}
    }
    lines.extend_from_slice(difference.more.as_bytes());
    (lines, before, answer)
}

fn count(lines: &[u8]) -> usize {
    lines.iter().filter(|b| **b == b'\n').count()
}

/// Shows it on both sides; false where it is no longer what the list says.
fn is_as_listed(difference: &Difference, panel: &mut Panel) -> bool {
    let (lines, before, answer) = lines(difference);
    panel
        .calls
        .write_all(&lines)
        .and_then(|()| panel.calls.flush())
        .unwrap_or_else(|error| give_up(&format!("the panel takes no calls: {error}")));
    let mut space = String::new();
    let said: Vec<String> = (0..count(&lines))
        .map(|_| {
            next_line(&mut panel.answers, &mut space)
                .unwrap_or("(ended)")
                .to_string()
        })
        .skip(before)
        .collect();
    let rust = words(&answer);
    let same = rust == difference.rust
        && said.len() == difference.panel.len()
        && difference.panel.iter().zip(&said).all(|(p, s)| is_like(p, s));
    say!("{}{}", difference.name, if same { "" } else { ": NOT AS LISTED" });
    for line in String::from_utf8_lossy(&lines).lines().skip(before) {
        say!("    call   {}", shortened(line));
    }
    say!("    Rust   {rust}");
    for line in &said {
        say!("    panel  {}", shortened(line));
    }
    same
}

/// Shows them all; false where one is not as listed.
pub fn run(command: &str) -> bool {
    let mut panel = Panel::start(command);
    let all = [against_the_documents(), against_upstream()].concat();
    all.iter()
        .filter(|difference| !is_as_listed(difference, &mut panel))
        .count()
        == 0
}
