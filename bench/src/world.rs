//! The measured calls, and what each side is given for them.

use crate::ctap::apdu::{Apdu, ApduStatusCode};
use crate::ctap::ctap1::Ctap1Command;
use crate::ctap::u2f_up::U2fUserPresenceState;
use crate::ctap::{CtapState, TOUCH_TIMEOUT_MS};
use crate::lent::{self, Lent, CERTIFICATE, COUNTER, HANDLE, SIGNATURE, X, Y};
use crate::panel::{self, Asked, Decision, Frame, Hardware, Order, Presence, Reader, Room, Session, Wrote, BLOCK};
use crate::watched::{Refusal, Watched};

/// The room that the panel's firmware has for a reply.
const ROOM: usize = 1024;
/// A prompt opens at PROMPT, the finger comes at TOUCH, and the measured call at NOW: a day after the start, so that no window reaches back
/// to it.
const PROMPT: u64 = 86_400_000;
const TOUCH: u64 = PROMPT + 500;
const NOW: u64 = PROMPT + 1000;
/// The side that asked for the touch, and the other one. The Rust knows no sides.
const ASKER: u64 = 0;
const OTHER: u64 = 1;

#[derive(Clone, Copy, PartialEq)]
enum Kind {
    Read,
    /// A reading of the old form: an extended Lc with an Le of one byte. The Rust reads it; the core says 6700 (document 02, E13).
    ReadOld,
    /// The row's frame is what has to be written. The Rust has no writer.
    Write,
    /// The last part of a body, of so many bytes; the row's frame is the body. The Rust cuts nothing.
    Next(usize),
    /// The same, asked for by a frame: a GET RESPONSE that fetches the last part of what the reply buffer holds.
    Fetch,
    /// How many bytes a response can take. The Rust does not ask.
    Room,
    Touch,
    Check,
    Ask,
    /// A command that comes to no signature.
    Answered,
    /// One of the side that did not ask, at a live touch (document 02, E7): 6985, and the touch stays. The Rust would serve it.
    KeptOut,
    Register,
    Authenticate,
}

/// What came before the measured call.
#[derive(Clone, Copy, PartialEq)]
enum Before {
    Nothing,
    Prompt,
    Touch,
}

pub struct Row {
    pub name: String,
    kind: Kind,
    before: Before,
    frame: &'static [u8],
}

/// A frame of the shape, or of the old form, which the Rust has as its sixth; the data's bytes count up.
fn frame(shape: u8, header: [u8; 4], data: &[u8]) -> Vec<u8> {
    let [hi, lo] = (data.len() as u16).to_be_bytes();
    let short = [lo];
    let extended = [0, hi, lo];
    let (front, back): (&[u8], &[u8]) = match shape {
        1 => (&[], &[]),
        2 => (&[], &[7]),
        3 => (&short, &[]),
        4 => (&short, &[7]),
        5 => (&extended, &[]),
        OLD_FORM => (&extended, &[7]),
        7 => (&extended, &[0, 7]),
        _ => (&[], &[0, 0, 7]),
    };
    [&header, front, data, back].concat()
}

fn data(length: usize) -> Vec<u8> {
    (0..length).map(|i| i as u8).collect()
}

const SHAPES: [u8; 7] = [1, 2, 3, 4, 5, 7, 8];
const OLD_FORM: u8 = 6;
const LENGTHS: [usize; 7] = [0, 1, 10, 255, 256, 4096, 65535];
const PARTS: [usize; 3] = [1, 32, 256];
const BODIES: [usize; 3] = [256, 1024, 60000];
/// What a short frame without an Le takes.
const FETCHED: usize = 256;
/// The longest body that the room of a response is asked for: an enrolment's.
const LONGEST: usize = 139 + HANDLE.len() + CERTIFICATE.len();

impl Row {
    fn new(name: &str, kind: Kind, before: Before, frame: Vec<u8>) -> Row {
        Row {
            name: name.into(),
            kind,
            before,
            frame: frame.leak(),
        }
    }

    pub fn all() -> Vec<Row> {
        [
            Row::readings(),
            Row::commands(),
            Row::touches(),
            Row::writings(),
            Row::parts(),
            Row::rooms(),
        ]
        .into_iter()
        .flatten()
        .collect()
    }

    /// Each shape with each length that it can carry, the old form with each length, and a frame under four bytes and one in no shape.
    fn readings() -> Vec<Row> {
        let mut rows = Vec::new();
        for shape in SHAPES {
            for length in LENGTHS {
                let carried = match shape {
                    1 | 2 | 8 => length == 0,
                    3 | 4 => 1 <= length && length <= 255,
                    5 => 1 <= length,
                    _ => true,
                };
                if carried {
                    let name = format!("read-{shape}-{length}");
                    let frame = frame(shape, [0, 3, 0, 0], &data(length));
                    rows.push(Row::new(&name, Kind::Read, Before::Nothing, frame));
                }
            }
        }
        for length in LENGTHS {
            let frame = frame(OLD_FORM, [0, 3, 0, 0], &data(length));
            rows.push(Row::new(
                &format!("read-old-{length}"),
                Kind::ReadOld,
                Before::Nothing,
                frame,
            ));
        }
        rows.push(Row::new("read-6a80", Kind::Read, Before::Nothing, vec![0, 3, 0]));
        let mut cut = frame(5, [0, 3, 0, 0], &data(10));
        cut.pop();
        rows.push(Row::new("read-6700", Kind::Read, Before::Nothing, cut));
        rows
    }

    /// Commands come in the shape that a U2F client sends: extended, with an Le.
    fn commands() -> Vec<Row> {
        let register = frame(7, [0, 1, 3, 0], &data(64));
        let asked = [&data(64), &[HANDLE.len() as u8] as &[u8], &HANDLE].concat();
        let authenticate = |p1| frame(7, [0, 2, p1, 0], &asked);
        let answered = |name, frame| Row::new(name, Kind::Answered, Before::Nothing, frame);
        vec![
            answered("version", frame(8, [0, 3, 0, 0], &[])),
            answered("register-untouched", register.clone()),
            Row::new("register", Kind::Register, Before::Touch, register),
            answered("authenticate-03-untouched", authenticate(3)),
            Row::new("authenticate-03", Kind::Authenticate, Before::Touch, authenticate(3)),
            Row::new(
                "authenticate-03-other-side",
                Kind::KeptOut,
                Before::Touch,
                authenticate(3),
            ),
            answered("authenticate-07", authenticate(7)),
            Row::new("authenticate-08", Kind::Authenticate, Before::Nothing, authenticate(8)),
            answered("authenticate-00", authenticate(0)),
            answered("cla-80", frame(7, [0x80, 1, 0, 0], &data(64))),
            answered("ins-40", frame(7, [0, 0x40, 0, 0], &data(64))),
            answered("register-short", frame(7, [0, 1, 0, 0], &data(63))),
        ]
    }

    /// Touch, check and ask: with a yes, and with a no.
    fn touches() -> Vec<Row> {
        let row = |name, kind, before| Row::new(name, kind, before, Vec::new());
        vec![
            row("touch", Kind::Touch, Before::Prompt),
            row("touch-unasked", Kind::Touch, Before::Nothing),
            row("check", Kind::Check, Before::Touch),
            row("check-untouched", Kind::Check, Before::Nothing),
            row("ask", Kind::Ask, Before::Prompt),
            row("ask-unasked", Kind::Ask, Before::Nothing),
        ]
    }

    /// Each shape, with little data and with much.
    fn writings() -> Vec<Row> {
        let mut rows = Vec::new();
        for shape in SHAPES {
            let lengths: &[usize] = match shape {
                1 | 2 | 8 => &[0],
                7 => &[0, 10, 4096, 65535],
                _ => &[10],
            };
            for length in lengths {
                let frame = frame(shape, [0, 3, 0, 0], &data(*length));
                let name = format!("write-{shape}-{length}");
                rows.push(Row::new(&name, Kind::Write, Before::Nothing, frame));
            }
        }
        rows
    }

    /// Parts of three lengths, each out of bodies of three lengths, and one that is fetched.
    fn parts() -> Vec<Row> {
        let mut rows = Vec::new();
        for part in PARTS {
            for body in BODIES {
                let name = format!("next-{part}-of-{body}");
                rows.push(Row::new(&name, Kind::Next(part), Before::Nothing, data(body)));
            }
        }
        let name = format!("fetch-{FETCHED}-of-{ROOM}");
        rows.push(Row::new(
            &name,
            Kind::Fetch,
            Before::Nothing,
            frame(1, [0, 0xc0, 0, 0], &[]),
        ));
        rows
    }

    /// A frame that cuts the longest body, and one that does not.
    fn rooms() -> Vec<Row> {
        let row = |name, shape| Row::new(name, Kind::Room, Before::Nothing, frame(shape, [0, 1, 3, 0], &data(64)));
        vec![row("room-short", 3), row("room-extended", 7)]
    }
}

pub type Side = fn(&mut World);

/// What a call changes on the one side or the other.
struct Held {
    presence: Presence,
    session: Session,
    state: CtapState<Lent>,
    watched: Watched,
}

impl Held {
    /// The upstream's states are numbers alone, but say not that they can be copied.
    fn copy(&self) -> Held {
        unsafe { std::ptr::read(self) }
    }
}

type Presences = U2fUserPresenceState<Lent>;

/// The upstream's functions are called through pointers, as the core's are through their symbols: neither is inlined.
pub struct World {
    row: Row,
    /// That the measured call names.
    side: u64,
    held: Held,
    /// As it was before the measured call.
    before: Held,
    hardware: Hardware,
    order: Order,
    block: [u8; BLOCK],
    reply: [u8; ROOM],
    env: Lent,
    /// What is to be written, and where to.
    said: Frame,
    out: Vec<u8>,
    /// Where the parts of a body are written to.
    part: Vec<u8>,
    grant: fn(&mut Presences, &mut Lent),
    consume: fn(&mut Presences, &mut Lent) -> bool,
    needed: fn(&mut Presences, &mut Lent) -> bool,
    watched_grant: fn(&mut Watched, &mut Lent) -> Result<(), Refusal>,
    watched_consume: fn(&mut Watched, u64, &mut Lent) -> Result<bool, Refusal>,
    watched_needed: fn(&mut Watched, &mut Lent) -> Result<bool, Refusal>,
    read: fn(&'static [u8]) -> Result<Apdu, ApduStatusCode>,
    process: fn(&mut Lent, &[u8], &mut CtapState<Lent>) -> Result<Vec<u8>, ApduStatusCode>,
}

impl World {
    pub fn new(row: Row) -> World {
        let mut presence = Presence {
            w: 0,
            prompt: 0,
            touch: 0,
            last: 0,
            asker: 0,
        };
        let mut env = Lent { now: PROMPT };
        let mut state = CtapState::new();
        unsafe { panel::brinecandle_new(&mut presence, TOUCH_TIMEOUT_MS as u64) };
        if row.before != Before::Nothing {
            unsafe { panel::brinecandle_consume_up(&mut presence, ASKER, PROMPT) };
            state.u2f_up_state.consume_up(&mut env);
        }
        if row.before == Before::Touch {
            unsafe { panel::brinecandle_grant_up(&mut presence, TOUCH) };
            env.now = TOUCH;
            state.u2f_up_state.grant_up(&mut env);
        }
        env.now = NOW;
        let last = |n: usize, of: usize| Session {
            place: (of - n) as u64,
            count: n as u64,
            limit: n as u64,
        };
        let session = match row.kind {
            Kind::Next(part) => last(part, row.frame.len()),
            Kind::Fetch => last(FETCHED, ROOM),
            _ => last(0, 0),
        };
        let watched = Watched {
            w: presence.w,
            last: presence.last,
            asker: presence.asker,
            state: unsafe { std::ptr::read(&state.u2f_up_state) },
        };
        let before = Held {
            presence,
            session,
            state,
            watched,
        };
        let mut world = World {
            part: vec![0; session.count as usize + 2],
            said: unsafe { panel::brinecandle_read(row.frame.as_ptr(), row.frame.len()) },
            out: vec![0; row.frame.len()],
            side: if row.kind == Kind::KeptOut { OTHER } else { ASKER },
            row,
            held: before.copy(),
            before,
            hardware: Hardware {
                allowed: 1,
                attestation: 1,
                stored: 1,
                good: 1,
                counted: 1,
                counter: COUNTER,
            },
            order: Order {
                kind: 0,
                to_sign: 0,
                certificate_length: 0,
            },
            block: [0; BLOCK],
            reply: [0; ROOM],
            env,
            grant: Presences::grant_up,
            consume: Presences::consume_up,
            needed: Presences::is_up_needed,
            watched_grant: Watched::grant_up,
            watched_consume: Watched::consume_up,
            watched_needed: Watched::is_up_needed,
            read: Apdu::try_from,
            process: Ctap1Command::process_command::<Lent>,
        };
        world.order = world.decided().order;
        world.put_back();
        world
    }

    /// What the call before has changed, on either side. The loop does so before each call, with `nothing` too: its cost falls out.
    #[inline(always)]
    pub fn put_back(&mut self) {
        self.held = self.before.copy();
    }

    pub fn side(&mut self, name: &str) -> Option<Side> {
        match (name, self.row.kind) {
            ("nothing", _) => Some(|_| ()),
            ("core", Kind::Read | Kind::ReadOld) => Some(|w| drop(w.said())),
            ("rust", Kind::Read | Kind::ReadOld) => Some(|w| drop((w.read)(w.row.frame))),
            ("strict", Kind::Read | Kind::ReadOld) => Some(|w| drop(w.said_by(panel::brinecandle_read_strict))),
            ("table", Kind::Read | Kind::ReadOld) => Some(|w| drop(w.said_by(panel::brinecandle_read_by_table))),
            ("strict-table", Kind::Read | Kind::ReadOld) => {
                Some(|w| drop(w.said_by(panel::brinecandle_read_strict_by_table)))
            }
            ("core", Kind::Write) => Some(|w| drop(w.wrote())),
            ("core", Kind::Next(_)) => Some(|w| drop(w.next())),
            ("core", Kind::Fetch) => Some(|w| drop(w.decided())),
            ("core", Kind::Room) => Some(|w| drop(w.room())),
            ("core", Kind::Touch) => Some(|w| drop(w.touched())),
            ("rust", Kind::Touch) => Some(|w| w.granted()),
            ("watched", Kind::Touch) => Some(|w| drop(w.watched_granted())),
            ("core", Kind::Check) => Some(|w| drop(w.checked())),
            ("rust", Kind::Check) => Some(|w| {
                w.consumed();
            }),
            ("watched", Kind::Check) => Some(|w| drop(w.watched_consumed())),
            ("core", Kind::Ask) => Some(|w| drop(w.asked())),
            ("rust", Kind::Ask) => Some(|w| {
                w.is_needed();
            }),
            ("watched", Kind::Ask) => Some(|w| drop(w.watched_is_needed())),
            ("core" | "decide", Kind::Answered | Kind::KeptOut) => Some(|w| drop(w.decided())),
            ("core", Kind::Register | Kind::Authenticate) => Some(|w| {
                w.order = w.decided().order;
                w.finished();
            }),
            ("decide", Kind::Register | Kind::Authenticate) => Some(|w| drop(w.decided())),
            ("finish", Kind::Register | Kind::Authenticate) => Some(|w| drop(w.finished())),
            ("rust", Kind::Answered | Kind::Register | Kind::Authenticate) => Some(|w| drop(w.processed())),
            ("lent", Kind::Register) => Some(|_| lent::register_hands_over()),
            ("lent", Kind::Authenticate) => Some(|_| lent::authenticate_hands_over()),
            _ => None,
        }
    }

    #[inline(always)]
    fn said_by(&self, reader: Reader) -> Frame {
        unsafe { reader(self.row.frame.as_ptr(), self.row.frame.len()) }
    }

    #[inline(always)]
    fn said(&self) -> Frame {
        self.said_by(panel::brinecandle_read)
    }

    #[inline(always)]
    fn wrote(&mut self) -> Wrote {
        let said = &self.said;
        let content = &self.row.frame[said.start..said.end];
        unsafe {
            panel::brinecandle_write(
                said.cla,
                said.ins,
                said.p1,
                said.p2,
                said.shape,
                content.as_ptr(),
                content.len(),
                said.le,
                self.out.as_mut_ptr(),
                self.out.len(),
            )
        }
    }

    #[inline(always)]
    fn next(&mut self) -> Wrote {
        unsafe {
            panel::brinecandle_next_part(
                &mut self.held.session,
                self.row.frame.as_ptr(),
                self.row.frame.len(),
                self.part.as_mut_ptr(),
                self.part.len(),
            )
        }
    }

    #[inline(always)]
    fn room(&self) -> Room {
        unsafe { panel::brinecandle_response_room(self.row.frame.as_ptr(), self.row.frame.len(), LONGEST) }
    }

    #[inline(always)]
    fn touched(&mut self) -> Asked {
        unsafe { panel::brinecandle_grant_up(&mut self.held.presence, NOW) }
    }

    #[inline(always)]
    fn checked(&mut self) -> Asked {
        unsafe { panel::brinecandle_consume_up(&mut self.held.presence, self.side, NOW) }
    }

    #[inline(always)]
    fn asked(&self) -> Asked {
        unsafe { panel::brinecandle_is_up_needed(&self.held.presence, NOW) }
    }

    #[inline(always)]
    fn granted(&mut self) {
        (self.grant)(&mut self.held.state.u2f_up_state, &mut self.env)
    }

    #[inline(always)]
    fn consumed(&mut self) -> bool {
        (self.consume)(&mut self.held.state.u2f_up_state, &mut self.env)
    }

    #[inline(always)]
    fn is_needed(&mut self) -> bool {
        (self.needed)(&mut self.held.state.u2f_up_state, &mut self.env)
    }

    #[inline(always)]
    fn watched_granted(&mut self) -> Result<(), Refusal> {
        (self.watched_grant)(&mut self.held.watched, &mut self.env)
    }

    #[inline(always)]
    fn watched_consumed(&mut self) -> Result<bool, Refusal> {
        (self.watched_consume)(&mut self.held.watched, self.side, &mut self.env)
    }

    #[inline(always)]
    fn watched_is_needed(&mut self) -> Result<bool, Refusal> {
        (self.watched_needed)(&mut self.held.watched, &mut self.env)
    }

    #[inline(always)]
    fn decided(&mut self) -> Decision {
        unsafe {
            panel::brinecandle_decide(
                &mut self.held.presence,
                &mut self.held.session,
                self.row.frame.as_ptr(),
                self.row.frame.len(),
                self.side,
                NOW,
                &self.hardware,
                HANDLE.as_ptr(),
                HANDLE.len(),
                CERTIFICATE.as_ptr(),
                CERTIFICATE.len(),
                &X,
                &Y,
                self.reply.as_mut_ptr(),
                self.reply.len(),
                &mut self.block,
                self.part.as_mut_ptr(),
                self.part.len(),
            )
        }
    }

    #[inline(always)]
    fn finished(&mut self) -> Wrote {
        let certificate = match self.row.kind {
            Kind::Register => &CERTIFICATE[..],
            _ => &[],
        };
        unsafe {
            panel::brinecandle_finish(
                self.order,
                &self.block,
                certificate.as_ptr(),
                certificate.len(),
                1,
                SIGNATURE.as_ptr(),
                SIGNATURE.len(),
                self.reply.as_mut_ptr(),
                self.reply.len(),
            )
        }
    }

    #[inline(always)]
    fn processed(&mut self) -> Result<Vec<u8>, ApduStatusCode> {
        (self.process)(&mut self.env, self.row.frame, &mut self.held.state)
    }

    /// Core and Rust say the same of the row's frame, but for the old form, where the core has to say 6700, and for what the Rust has not; the
    /// process ends where they do not.
    pub fn compare(&mut self) {
        let (core, rust) = match self.row.kind {
            Kind::Read => (self.core_reading(), self.rust_reading()),
            Kind::ReadOld => (self.core_reading(), (panel::WRONG_LENGTH, Vec::new(), [0, 0])),
            Kind::Write => (self.core_writing(), (panel::OK, self.row.frame.to_vec(), [0, 0])),
            Kind::Next(_) | Kind::Fetch => (self.core_part(), self.whole_part()),
            Kind::Room => (self.core_room(), self.whole_room()),
            Kind::Touch | Kind::Check | Kind::Ask => {
                self.same_watched();
                (self.core_presence(), self.rust_presence())
            }
            Kind::KeptOut => (
                self.core_kept_out(),
                (panel::COND_USE_NOT_SATISFIED, Vec::new(), [0, 1]),
            ),
            _ => (self.core_answer(), self.rust_answer()),
        };
        assert!(
            core == rust,
            "{}: the core {core:x?}, the Rust {rust:x?}",
            self.row.name
        );
    }

    /// The second reader answers as the first, by both tables.
    fn same_by_table(&self) {
        let strictly = self.said_by(panel::brinecandle_read_strict);
        assert!(
            self.said_by(panel::brinecandle_read_by_table) == self.said()
                && self.said_by(panel::brinecandle_read_strict_by_table) == strictly,
            "{}: the table's reader answers otherwise",
            self.row.name
        );
    }

    fn core_reading(&self) -> (u16, Vec<u8>, [u32; 2]) {
        self.same_by_table();
        let said = self.said();
        let header = [said.cla, said.ins, said.p1, said.p2];
        let start = [&header[..], &self.row.frame[said.start..said.end]].concat();
        match said.answer {
            panel::OK => (panel::OK, start, [said.lc.into(), said.le]),
            status => (status, Vec::new(), [0, 0]),
        }
    }

    fn core_writing(&mut self) -> (u16, Vec<u8>, [u32; 2]) {
        let wrote = self.wrote();
        (wrote.answer, self.out[..wrote.length].to_vec(), [0, 0])
    }

    fn core_part(&mut self) -> (u16, Vec<u8>, [u32; 2]) {
        let (answer, length) = match self.row.kind {
            Kind::Next(_) => {
                let wrote = self.next();
                (wrote.answer, wrote.length)
            }
            _ => {
                let decision = self.decided();
                assert!(decision.answer == panel::PART, "{}: no part", self.row.name);
                (panel::OK, decision.length)
            }
        };
        let after = self.held.session;
        (
            answer,
            self.part[..length].to_vec(),
            [after.place as u32, after.count as u32],
        )
    }

    /// What document 02 has it be: the body's last bytes and 9000, after which nothing remains.
    fn whole_part(&self) -> (u16, Vec<u8>, [u32; 2]) {
        let body = if self.row.kind == Kind::Fetch {
            &self.reply[..]
        } else {
            self.row.frame
        };
        let last = &body[self.before.session.place as usize..];
        (panel::OK, [last, &[0x90, 0x00]].concat(), [body.len() as u32, 0])
    }

    fn core_room(&self) -> (u16, Vec<u8>, [u32; 2]) {
        let room = self.room();
        (room.answer, Vec::new(), [room.length as u32, 0])
    }

    /// The body, cut by a short frame without an Le, and the status.
    fn whole_room(&self) -> (u16, Vec<u8>, [u32; 2]) {
        let body = if self.said.shape < 5 { FETCHED } else { LONGEST };
        (panel::OK, Vec::new(), [body as u32 + 2, 0])
    }

    /// Whether a prompt is live now, and a touch for the side that asked.
    fn core_live(&mut self) -> [u32; 2] {
        let presence = &mut self.held.presence;
        let is_prompted = unsafe { panel::brinecandle_is_up_needed(presence, NOW) }.yes;
        let is_touched = unsafe { panel::brinecandle_consume_up(presence, ASKER, NOW) }.yes;
        [is_prompted, is_touched].map(u32::from)
    }

    /// What the call says, and whether a prompt and a touch are live after it. The Rust's touch says nothing: that it was
    /// accepted shows in the prompt, which is gone.
    fn core_presence(&mut self) -> (u16, Vec<u8>, [u32; 2]) {
        let said = match self.row.kind {
            Kind::Touch => self.touched(),
            Kind::Check => self.checked(),
            _ => self.asked(),
        };
        (said.answer, vec![said.yes.into()], self.core_live())
    }

    /// What the decision says, and whether a prompt and the touch are live after it, for the side that asked.
    fn core_kept_out(&mut self) -> (u16, Vec<u8>, [u32; 2]) {
        let decision = self.decided();
        (decision.answer, Vec::new(), self.core_live())
    }

    fn rust_presence(&mut self) -> (u16, Vec<u8>, [u32; 2]) {
        let needed = self.is_needed();
        let yes = match self.row.kind {
            Kind::Touch => {
                self.granted();
                needed && !self.is_needed()
            }
            Kind::Check => self.consumed(),
            _ => needed,
        };
        let is_live = [self.is_needed(), self.consumed()];
        (panel::OK, vec![yes.into()], is_live.map(u32::from))
    }

    /// With the three checks beside it the Rust says the same, and refuses what the core refuses.
    fn same_watched(&mut self) {
        let rust = self.rust_presence();
        self.put_back();
        let needed = self.watched_is_needed() == Ok(true);
        let yes = match self.row.kind {
            Kind::Touch => {
                assert!(self.watched_granted() == Ok(()));
                needed && self.watched_is_needed() == Ok(false)
            }
            Kind::Check => self.watched_consumed() == Ok(true),
            _ => needed,
        };
        let is_live = [
            self.watched_is_needed() == Ok(true),
            self.watched_consumed() == Ok(true),
        ];
        let watched = (panel::OK, vec![yes.into()], is_live.map(u32::from));
        assert!(watched == rust, "{}: with the checks {watched:x?}", self.row.name);
        self.put_back();
        for (w, asker, side, last, now) in [
            (0, 0, 0, 0, NOW),
            (60_000, 0, 0, 0, NOW),
            (60_001, 2, 2, NOW, 0),
            (1, 2, 0, NOW, 0),
            (1, 0, 2, NOW, 0),
            (1, 1, 1, NOW, 0),
            (1, 1, 1, NOW, NOW),
            (1, 0, 1, 0, 1 << 48),
            (1, 0, 1, 0, (1 << 48) - 1),
        ] {
            self.same_refusal(w, asker, side, last, now);
        }
    }

    fn same_refusal(&mut self, w: u64, asker: u64, side: u64, last: u64, now: u64) {
        let presence = &mut self.held.presence;
        (presence.w, presence.asker, presence.last) = (w, asker, last);
        let watched = &mut self.held.watched;
        (watched.w, watched.asker, watched.last) = (w, asker, last);
        let env = &mut Lent { now };
        let (core, rust) = unsafe {
            match self.row.kind {
                Kind::Touch => (panel::brinecandle_grant_up(presence, now), watched.grant_up(env).err()),
                Kind::Check => (
                    panel::brinecandle_consume_up(presence, side, now),
                    watched.consume_up(side, env).err(),
                ),
                _ => (
                    panel::brinecandle_is_up_needed(presence, now),
                    watched.is_up_needed(env).err(),
                ),
            }
        };
        let rust = match rust {
            None => panel::OK,
            Some(Refusal::R1) => 1,
            Some(Refusal::R6) => 6,
            Some(Refusal::R8) => 8,
        };
        assert!(
            core.answer == rust && presence.last == watched.last,
            "{}: W {w}, asker {asker}, side {side}, last {last}, at {now}: the core {}, the Rust with the checks {rust}",
            self.row.name,
            core.answer
        );
        self.put_back();
    }

    fn rust_reading(&self) -> (u16, Vec<u8>, [u32; 2]) {
        match (self.read)(self.row.frame) {
            Ok(apdu) => {
                let header = [apdu.header.cla, apdu.header.ins, apdu.header.p1, apdu.header.p2];
                (panel::OK, [&header[..], &apdu.data].concat(), [apdu.lc.into(), apdu.le])
            }
            Err(status) => (status.into(), Vec::new(), [0, 0]),
        }
    }

    fn core_answer(&mut self) -> (u16, Vec<u8>, [u32; 2]) {
        let decision = self.decided();
        let (status, length) = match decision.answer {
            panel::ORDER => {
                self.order = decision.order;
                let wrote = self.finished();
                (wrote.answer, wrote.length)
            }
            status => (status, decision.length),
        };
        (status, self.reply[..length].to_vec(), [0, 0])
    }

    fn rust_answer(&mut self) -> (u16, Vec<u8>, [u32; 2]) {
        match self.processed() {
            Ok(body) => (panel::OK, body, [0, 0]),
            Err(status) => (status.into(), Vec::new(), [0, 0]),
        }
    }
}
