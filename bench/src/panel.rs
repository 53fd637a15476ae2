//! The part of include/brinecandle.h that is measured. Each struct has the name that it has there, without `brinecandle_`
//! and with a capital, and its fields one by one, so that the two can be compared line by line.

#[derive(PartialEq)]
#[repr(C)]
pub struct Frame {
    pub answer: u16,
    pub fault: u16,
    pub cla: u8,
    pub ins: u8,
    pub p1: u8,
    pub p2: u8,
    pub shape: u32,
    pub lc: u16,
    pub le: u32,
    pub start: usize,
    pub end: usize,
    pub place: usize,
}

#[repr(C)]
pub struct Wrote {
    pub answer: u16,
    pub length: usize,
}

#[repr(C)]
#[derive(Clone, Copy)]
pub struct Presence {
    pub w: u64,
    pub prompt: u64,
    pub touch: u64,
    pub last: u64,
    pub asker: u64,
}

#[repr(C)]
#[derive(Clone, Copy)]
pub struct Session {
    pub place: u64,
    pub count: u64,
    pub limit: u64,
}

#[repr(C)]
pub struct Asked {
    pub answer: u16,
    pub yes: bool,
}

#[repr(C)]
#[derive(Clone, Copy)]
pub struct Hardware {
    pub allowed: u32,
    pub attestation: u32,
    pub stored: u32,
    pub good: u32,
    pub counted: u32,
    pub counter: u32,
}

#[repr(C)]
#[derive(Clone, Copy)]
pub struct Order {
    pub kind: u32,
    pub to_sign: usize,
    pub certificate_length: usize,
}

#[repr(C)]
pub struct Decision {
    pub answer: u16,
    pub fault: u16,
    pub taken: bool,
    pub length: usize,
    pub order: Order,
    pub place: usize,
}

#[repr(C)]
pub struct Room {
    pub answer: u16,
    pub length: usize,
}

/// Each of the four readings.
pub type Reader = unsafe extern "C" fn(*const u8, usize) -> Frame;

pub const ORDER: u16 = 0x0100;
pub const PART: u16 = 0x0200;
pub const OK: u16 = 0x9000;
pub const WRONG_LENGTH: u16 = 0x6700;
pub const COND_USE_NOT_SATISFIED: u16 = 0x6985;
pub const BLOCK: usize = 385;

extern "C" {
    pub fn brinecandle_read(frame: *const u8, frame_length: usize) -> Frame;
    pub fn brinecandle_read_strict(frame: *const u8, frame_length: usize) -> Frame;
    pub fn brinecandle_read_by_table(frame: *const u8, frame_length: usize) -> Frame;
    pub fn brinecandle_read_strict_by_table(frame: *const u8, frame_length: usize) -> Frame;
    pub fn brinecandle_write(
        cla: u8,
        ins: u8,
        p1: u8,
        p2: u8,
        shape: u32,
        content: *const u8,
        content_length: usize,
        le: u32,
        out: *mut u8,
        out_length: usize,
    ) -> Wrote;
    pub fn brinecandle_new(presence: *mut Presence, w: u64) -> u16;
    pub fn brinecandle_grant_up(presence: *mut Presence, t: u64) -> Asked;
    pub fn brinecandle_consume_up(presence: *mut Presence, side: u64, t: u64) -> Asked;
    pub fn brinecandle_is_up_needed(presence: *const Presence, t: u64) -> Asked;
    pub fn brinecandle_decide(
        presence: *mut Presence,
        session: *mut Session,
        frame: *const u8,
        frame_length: usize,
        side: u64,
        t: u64,
        hardware: *const Hardware,
        handle: *const u8,
        handle_length: usize,
        certificate: *const u8,
        certificate_length: usize,
        x: *const [u8; 32],
        y: *const [u8; 32],
        reply: *mut u8,
        reply_length: usize,
        block: *mut [u8; BLOCK],
        part: *mut u8,
        part_length: usize,
    ) -> Decision;
    pub fn brinecandle_finish(
        order: Order,
        block: *const [u8; BLOCK],
        certificate: *const u8,
        certificate_length: usize,
        is_signed: u32,
        signature: *const u8,
        signature_length: usize,
        reply: *mut u8,
        reply_length: usize,
    ) -> Wrote;
    pub fn brinecandle_next_part(
        session: *mut Session,
        body: *const u8,
        body_length: usize,
        part: *mut u8,
        part_length: usize,
    ) -> Wrote;
    pub fn brinecandle_response_room(frame: *const u8, frame_length: usize, longest: usize) -> Room;
}
