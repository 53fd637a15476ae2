//! Calls to compare: every frame over a small alphabet, frames around each boundary, damaged copies of good frames, and
//! histories of touches, checks, asks and commands, some that wander and some that go for a touch. The same seed gives the
//! same calls.

use crate::ctap::TOUCH_TIMEOUT_MS;
use crate::device::Call;
use crate::lent::{Allowed, Attested, Counter, Handle, Hardware};

/// Document 01: the prompt window, and the touch window W of the domain that is compared.
pub const PROMPT: u64 = 10_000;
pub const W: u64 = TOUCH_TIMEOUT_MS as u64;
const MOMENTS: u64 = 1 << 48;

/// The panel's reply buffer. Upstream has no such limit, so what is compared stays within it.
pub const ROOM: usize = 1024;
const REGISTER_FIXED: usize = 139;

/// SplitMix64. In plain calls the bytes that nothing looks at count up, so that a sample of them is short.
pub struct Dice {
    at: u64,
    plain: bool,
}

/// Byte i of plain bytes.
pub fn plain(i: usize) -> u8 {
    (i % 251) as u8
}

impl Dice {
    pub fn new(seed: u64) -> Dice {
        Dice { at: seed, plain: false }
    }

    pub fn plain(seed: u64) -> Dice {
        Dice { at: seed, plain: true }
    }

    pub fn roll(&mut self) -> u64 {
        self.at = self.at.wrapping_add(0x9e37_79b9_7f4a_7c15);
        let mut z = self.at;
        z = (z ^ (z >> 30)).wrapping_mul(0xbf58_476d_1ce4_e5b9);
        z = (z ^ (z >> 27)).wrapping_mul(0x94d0_49bb_1331_11eb);
        z ^ (z >> 31)
    }

    pub fn below(&mut self, n: usize) -> usize {
        (self.roll() % n as u64) as usize
    }

    pub fn one_in(&mut self, n: usize) -> bool {
        self.below(n) == 0
    }

    pub fn pick<T: Copy>(&mut self, from: &[T]) -> T {
        from[self.below(from.len())]
    }

    pub fn bytes(&mut self, n: usize) -> Vec<u8> {
        if self.plain {
            return (0..n).map(plain).collect();
        }
        let mut out = Vec::with_capacity(n + 8);
        while out.len() < n {
            out.extend_from_slice(&self.roll().to_le_bytes());
        }
        out.truncate(n);
        out
    }

    fn block(&mut self) -> [u8; 32] {
        self.bytes(32).try_into().unwrap()
    }
}

const ALPHABET: [u8; 4] = [0x00, 0x01, 0x02, 0x03];
/// The longest payload of which all are tried: an extended Lc of 3, its data, and an Le of two bytes.
pub const ALL_UP_TO: usize = 8;

const HEADERS: [[u8; 4]; 6] = [
    [0x00, 0x03, 0x00, 0x00],
    [0x00, 0x01, 0x00, 0x00],
    [0x00, 0x02, 0x03, 0x00],
    [0x01, 0x03, 0x00, 0x00],
    [0x00, 0x40, 0x00, 0x00],
    [0x00, 0xff, 0xff, 0xff],
];

/// How many frames there are with a payload of up to `most` bytes over the alphabet, and under four bytes.
pub fn all_count(most: usize) -> usize {
    words(most) + words(3)
}

fn words(most: usize) -> usize {
    (0..=most).map(|n| ALPHABET.len().pow(n as u32)).sum()
}

fn word(mut at: usize) -> Vec<u8> {
    let mut n = 0;
    while at >= ALPHABET.len().pow(n) {
        at -= ALPHABET.len().pow(n);
        n += 1;
    }
    (0..n)
        .map(|_| {
            let letter = ALPHABET[at % ALPHABET.len()];
            at /= ALPHABET.len();
            letter
        })
        .collect()
}

/// The frame of number `at` among all of them.
pub fn all(at: usize) -> Vec<u8> {
    if at < words(3) {
        return word(at);
    }
    let at = at - words(3);
    [&HEADERS[at % HEADERS.len()], word(at).as_slice()].concat()
}

/// A frame of the shape, with the data's length and Le as it can carry them. 6 is upstream's number for the old form, which is in no
/// shape any more (document 02, E13).
pub fn frame(shape: u8, header: [u8; 4], data: &[u8], le: u16) -> Vec<u8> {
    let [hi, lo] = (data.len() as u16).to_be_bytes();
    let [le_hi, le_lo] = le.to_be_bytes();
    let (front, back): (&[u8], &[u8]) = match shape {
        1 => (&[], &[]),
        2 => (&[], &[le_lo]),
        3 => (&[lo], &[]),
        4 => (&[lo], &[le_lo]),
        5 => (&[0, hi, lo], &[]),
        6 => (&[0, hi, lo], &[le_lo]),
        7 => (&[0, hi, lo], &[le_hi, le_lo]),
        _ => (&[], &[0, le_hi, le_lo]),
    };
    [&header, front, data, back].concat()
}

fn le(dice: &mut Dice) -> u16 {
    dice.pick(&[0, 1, 255, 256, 0x0101, 0xffff])
}

/// Lengths of data at which something changes.
const LENGTHS: [usize; 16] = [0, 1, 2, 63, 64, 65, 66, 96, 128, 254, 255, 256, 257, 319, 320, 321];
pub const LONG: [usize; 6] = [4095, 4096, 32768, 65533, 65534, 65535];

/// A frame whose length is within three bytes of what its first bytes say. Long ones are rare: they cost most.
pub fn boundary(dice: &mut Dice) -> Vec<u8> {
    let said = if dice.one_in(2000) {
        dice.pick(&LONG)
    } else if dice.one_in(3) {
        dice.below(330)
    } else {
        dice.pick(&LENGTHS)
    };
    let extended = said > 255 || dice.one_in(2);
    let header = dice.pick(&HEADERS);
    let data = dice.bytes(said);
    let mut out = frame(if extended { 5 } else { 3 }, header, &data, 0);
    let more = dice.below(8);
    if more < 4 {
        out.extend_from_slice(&dice.bytes(more));
        if more > 0 && dice.one_in(3) {
            let n = out.len();
            out[n - more..].fill(0);
        }
    } else {
        out.truncate(out.len().saturating_sub(more - 3));
    }
    out
}

/// The data of a good command.
fn data(dice: &mut Dice, ins: u8) -> Vec<u8> {
    match ins {
        0x01 => dice.bytes(64),
        0x02 => {
            let h = dice.pick(&[0, 1, 2, 8, 64, 64, 96, 190, 191, 254, 255]);
            let mut out = dice.bytes(65 + h);
            out[64] = h as u8;
            out
        }
        0x03 => Vec::new(),
        _ => {
            let n = dice.below(40);
            dice.bytes(n)
        }
    }
}

/// A shape that can carry so many bytes of data.
fn shape_for(dice: &mut Dice, n: usize) -> u8 {
    match n {
        0 => dice.pick(&[1, 2, 7, 8]),
        1..=255 => dice.pick(&[3, 4, 5, 7]),
        _ => dice.pick(&[5, 7]),
    }
}

/// A good command in any shape that can carry it.
pub fn good(dice: &mut Dice) -> Vec<u8> {
    let ins = dice.pick(&[0x01, 0x01, 0x02, 0x02, 0x02, 0x02, 0x03]);
    command(dice, ins)
}

pub fn command(dice: &mut Dice, ins: u8) -> Vec<u8> {
    let data = data(dice, ins);
    let shape = shape_for(dice, data.len());
    in_shape(dice, shape, ins, &data)
}

/// The same command in the old form. Upstream would serve it, so it is no good command: it comes where frames are damaged, and where
/// a command is answered before a touch is looked for.
fn in_old_form(dice: &mut Dice, ins: u8) -> Vec<u8> {
    let data = data(dice, ins);
    in_shape(dice, 6, ins, &data)
}

fn in_shape(dice: &mut Dice, shape: u8, ins: u8, data: &[u8]) -> Vec<u8> {
    let p1 = match ins {
        0x02 => dice.pick(&[0x03, 0x03, 0x03, 0x07, 0x08]),
        _ => dice.pick(&[0x00, 0x03, 0x80]),
    };
    let header = [0x00, ins, p1, dice.pick(&[0x00, 0x00, 0xff])];
    let le = le(dice);
    frame(shape, header, data, le)
}

/// A good frame, one of the vendor's, or one in the old form, with some damage: bytes changed, cut off, put in, taken out or appended.
pub fn damaged(dice: &mut Dice) -> Vec<u8> {
    let mut out = match dice.below(12) {
        0 => {
            let ins = dice.pick(&[0x00, 0x04, 0x3f, 0x40, 0x80, 0xbf, 0xc0, 0xff]);
            command(dice, ins)
        }
        1 => {
            let ins = dice.pick(&[0x01, 0x02, 0x03, 0xc0]);
            in_old_form(dice, ins)
        }
        _ => good(dice),
    };
    match dice.below(7) {
        0 => {}
        1 => {
            let n = dice.below(8) + 1;
            out.truncate(out.len().saturating_sub(n));
        }
        2 => {
            let n = dice.below(4) + 1;
            out.extend_from_slice(&dice.bytes(n));
        }
        3 => {
            let at = dice.below(out.len() + 1);
            out.insert(at, dice.pick(&[0x00, 0x01, 0x40, 0xff]));
        }
        4 => {
            let at = dice.below(out.len());
            out.remove(at);
        }
        5 => {
            // The places that decide: header, the length fields and, in Authenticate, the handle's length.
            let at = dice.below(out.len().min(12));
            out[at] = dice.roll() as u8;
        }
        _ => {
            for _ in 0..dice.below(3) + 1 {
                let at = dice.below(out.len());
                out[at] ^= 1 << dice.below(8);
            }
        }
    }
    out
}

/// The hardware's answers: good most of the time, and never a reply that the panel's buffer cannot hold.
pub fn hardware(dice: &mut Dice) -> Hardware {
    let h = if dice.one_in(20) {
        dice.pick(&[0, 1, 254, 255, 256, 300])
    } else {
        dice.pick(&[8, 32, 64, 64, 96])
    };
    let c = if dice.one_in(20) {
        dice.pick(&[0, 1, 256, 300, ROOM - REGISTER_FIXED - h])
    } else {
        dice.below(64)
    };
    let signature = if dice.one_in(20) {
        None
    } else {
        let n = dice.pick(&[0, 8, 70, 71, 72]);
        Some(dice.bytes(n))
    };
    Hardware {
        allowed: if dice.one_in(15) {
            dice.pick(&[Allowed::No, Allowed::Failed])
        } else {
            Allowed::Yes
        },
        stored: !dice.one_in(12),
        new_handle: dice.bytes(h),
        attested: if dice.one_in(12) {
            dice.pick(&[Attested::Missing, Attested::Failed])
        } else {
            Attested::Present
        },
        certificate: dice.bytes(c),
        x: dice.block(),
        y: dice.block(),
        handle: if dice.one_in(8) {
            dice.pick(&[Handle::NotOurs, Handle::StoreFailed, Handle::NeedsVerification])
        } else {
            Handle::Good
        },
        counter: if dice.one_in(10) {
            Counter::Failed
        } else {
            Counter::Offered(dice.pick(&[0, 1, 255, 256, 0x0102_0304, 0x7fff_ffff, u32::MAX]))
        },
        signature,
    }
}

/// A history: moments never go back and stay below 2^48; they cluster where a window opened before now ends.
pub struct History {
    now: u64,
    /// Moments at which a window may have been opened.
    opened: Vec<u64>,
}

impl History {
    pub fn new(dice: &mut Dice) -> History {
        let start = match dice.below(4) {
            0 => 0,
            1 => dice.roll() % 100_000,
            2 => dice.roll() % (MOMENTS - 10_000_000),
            _ => MOMENTS - 1_000_000 + dice.roll() % 999_000,
        };
        History {
            now: start,
            opened: Vec::new(),
        }
    }

    fn moment(&mut self, dice: &mut Dice) -> u64 {
        let aimed = match (dice.below(2), self.opened.as_slice()) {
            (0, _) | (_, []) => self.now + dice.pick(&[0, 0, 1, 2, 500, 4_000]),
            (_, opened) => {
                let from = opened[opened.len() - 1 - dice.below(opened.len().min(2))];
                let end = from + dice.pick(&[PROMPT, W]);
                dice.pick(&[end - 1, end, end + 1, from + 1, from + 3_000])
            }
        };
        if self.now <= aimed && aimed < MOMENTS {
            self.now = aimed;
        }
        self.now
    }

    pub fn next(&mut self, dice: &mut Dice) -> Call {
        let t = self.moment(dice);
        let what = dice.below(10);
        // An ask and a read open no window.
        if what != 8 {
            self.opened.push(t);
        }
        match what {
            0..=2 => Call::Touch(t),
            3 => Call::Check(t),
            8 => Call::Ask(t),
            9 => Call::Command(t, damaged(dice), Box::new(hardware(dice))),
            _ => Call::Command(t, good(dice), Box::new(hardware(dice))),
        }
    }
}

/// A history that goes for a touch again and again: a prompt, something that comes before the touch check, a finger, and
/// a call that finds the touch. A wandering history comes to the answers after the touch check too seldom.
pub struct Aimed {
    now: u64,
    /// When the window opened that the next call has to meet.
    opened: u64,
    step: usize,
}

impl Aimed {
    pub fn new(dice: &mut Dice) -> Aimed {
        let now = History::new(dice).now;
        Aimed {
            now,
            opened: now,
            step: 0,
        }
    }

    /// A moment from now on at which the window is live, its last among them.
    fn within(&mut self, dice: &mut Dice, window: u64) -> u64 {
        let last = (self.opened + window).min(MOMENTS) - 1;
        self.now = dice.pick(&[self.now, self.now + 1, self.now + 500, last]).min(last);
        self.now
    }

    pub fn next(&mut self, dice: &mut Dice) -> Call {
        self.step += 1;
        match self.step % 4 {
            1 => {
                self.now = (self.now + dice.pick(&[0, 1, 5_000, 50_000])).min(MOMENTS - 1);
                self.opened = self.now;
                let ins = dice.pick(&[0x01, 0x02]);
                Call::Command(self.now, touching(dice, ins), Box::new(willing(dice)))
            }
            2 => {
                let t = self.within(dice, PROMPT);
                before_the_check(dice, t)
            }
            3 => {
                let t = self.within(dice, PROMPT);
                self.opened = t;
                Call::Touch(t)
            }
            _ => {
                let t = self.within(dice, W);
                finding(dice, t)
            }
        }
    }
}

/// A good command that looks for a touch.
fn touching(dice: &mut Dice, ins: u8) -> Vec<u8> {
    with_touch(command(dice, ins))
}

fn with_touch(mut frame: Vec<u8>) -> Vec<u8> {
    frame[2] = 0x03;
    frame
}

/// Hardware that answers well to everything.
fn willing(dice: &mut Dice) -> Hardware {
    let c = dice.below(301);
    Hardware {
        allowed: Allowed::Yes,
        stored: true,
        new_handle: dice.bytes(64),
        attested: Attested::Present,
        certificate: dice.bytes(c),
        handle: Handle::Good,
        counter: Counter::Offered(dice.roll() as u32),
        signature: Some(dice.bytes(70)),
        ..hardware(dice)
    }
}

/// An ask, or a command that is answered before a touch is looked for.
fn before_the_check(dice: &mut Dice, t: u64) -> Call {
    let ins = dice.pick(&[0x01, 0x02]);
    let mut frame = touching(dice, ins);
    let mut hardware = willing(dice);
    match dice.below(7) {
        0 => return Call::Ask(t),
        1 => frame[0] = dice.pick(&[0x01, 0x80, 0xff]),
        2 => frame[1] = dice.pick(&[0x00, 0x04, 0x40, 0xbf, 0xff]),
        3 => hardware.allowed = Allowed::No,
        4 => hardware.allowed = Allowed::Failed,
        5 => frame = with_touch(in_old_form(dice, ins)),
        _ => frame = command(dice, 0x03),
    }
    Call::Command(t, frame, Box::new(hardware))
}

/// A call that finds the touch. In one of three all is well after it, in one the signer fails, in one something before it.
fn finding(dice: &mut Dice, t: u64) -> Call {
    let ins = dice.pick(&[0x01, 0x01, 0x01, 0x02, 0x02, 0x02, 0x00]);
    if ins == 0x00 {
        return Call::Check(t);
    }
    let mut hardware = willing(dice);
    match (dice.below(3), ins) {
        (0, _) => {}
        (1, _) => hardware.signature = None,
        (_, 0x01) => match dice.below(4) {
            0 => hardware.stored = false,
            1 => hardware.attested = Attested::Missing,
            2 => hardware.attested = Attested::Failed,
            _ => hardware.new_handle = dice.bytes(256),
        },
        _ => hardware.counter = Counter::Failed,
    }
    Call::Command(t, touching(dice, ins), Box::new(hardware))
}
