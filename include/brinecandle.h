/* Brinecandle: the proved U2F core of a sign-in panel, for C.
 *
 * Link target/staticlib/libpanel.a (x86-64; it needs memcpy and memset, no heap, no other library). brinecandle_panel.h has a
 * thin wrapper, tried and not proved, that keeps the order and a session for each side and asks for the response's room before a touch is
 * spent; docs/FIRMWARE.md says what a firmware does with all this, step by step.
 *
 * Every function may be called with any numbers and any bytes. A pointer must point to as many bytes as the length after it
 * says or its array has, or to one struct, to be read (const) or written, and what is lent for writing must overlap nothing else that is
 * lent; what is lent to be read may. With length 0 the pointer may be null. No call keeps a pointer, and none has a state of its own: the
 * record, the sessions and the orders are the caller's. A frame stays in the caller's buffer, and places in it are handed back: it must
 * not change between its reading and its decision, so copy it first out of a buffer that DMA or another core writes to.
 *
 * What the caller keeps between calls is lent and changed in place, so that there is nothing to take over:
 *   the presence record   belongs to the pad: one, whatever the number of transports. Zeros are a closed record, R6
 *   a session             belongs to a transport: one for each. Zeros are nothing to fetch
 *
 * Every call is pure: what it answers and writes depends on what it is lent and on nothing else. So a decision can be tried
 * beforehand, on copies of record and session and with scratch for what it writes, to learn whether a touch will be found before a key is
 * made or stored: lend handle and certificate of the lengths that they will have. See brinecandle_decide, 'dry run'.
 *
 * An answer is one number:
 *   0             none: no call answers it, so memory of zeros is no answer
 *   1 .. 8        a refusal, R1 to R8: nothing was decided and nothing was changed
 *   0x0100        an order to sign (brinecandle_decide alone)
 *   0x0200        a part of an earlier body, as a response with its status inside (brinecandle_decide alone)
 *   0x9000        done
 *   other         a status word for the host: 0x6700, 0x6985, 0x6986, 0x6a80, 0x6a86, 0x6d00, 0x6e00, 0x6f00
 *
 * A reading, a command and a decision have a pair beside it, `fault` and `place`: with 0x6700 they say what is wrong with the length and
 * at which byte (see 'frames'), with every other answer both are 0. They are for the firmware: the host gets the two bytes alone.
 *
 *   R1  moment 2^48 or more, or before the record's last moment     R5  shape cannot carry this data length or Le
 *   R2  buffer too short                                            R6  touch window 0 or above 60,000
 *   R3  signature longer than 72 bytes                              R7  order not of either layout
 *   R4  certificate length is not the order's                       R8  side other than 0 or 1, named or in the record
 *
 * A refusal is for the firmware and no status word: never send it. Put right what was wrong and decide the same frame again, or
 * tell the host 0x6f00. What the host gets is a response, a body and the status word's two bytes, the high one first: see
 * 'responses'. A body goes there cut by what the frame takes; every other status goes out with no body.
 *
 * Whatever a function's own text does not name stays as it was: after R1 to R8 every buffer and every number of record and session, after
 * an order or a status word other than 0x9000 every buffer but an order's block. The status 61 XX is no call's answer: it goes out with
 * its part, inside the response, and changes the buffer for part and status, never the uncut body. Numbers that an answer has no use
 * for are 0.
 *
 * Answers, faults, commands, an Authenticate's P1, kinds of orders, and yes and no are enums of their own, each as wide as its number in
 * the archive: compilers tell in most places where one is put in the place of another (gcc with -Wextra; C++ refuses it) and where two are
 * compared (-Wall; not clang 14 in C). They are silent at a `case` of another enum, at `b ? one : another`, and where a constant is lent as a
 * side or a length. Not told apart: handle and certificate, x and y, two lengths, side and moment. Take the wrapper, where they
 * have names; of a decision and a finishing it also has the bare calls with names (brinecandle_decide_lent, brinecandle_finish_signed).
 */
#ifndef BRINECANDLE_H
#define BRINECANDLE_H

/* docs/CHANGES.md says when these move */
#define BRINECANDLE_VERSION_MAJOR 0
#define BRINECANDLE_VERSION_MINOR 12
#define BRINECANDLE_VERSION "0.12"

#include <stdbool.h>
#include <stddef.h>
#include <stdint.h>

#if !defined(__x86_64__) || defined(__ILP32__) || defined(_WIN32) || defined(__CYGWIN__) || defined(__APPLE__)
#error "brinecandle: the archive is for x86-64 with pointers of 8 bytes and ELF, and this machine is another"
#endif

#if defined(__GNUC__)
#define BRINECANDLE_TAKE_IT __attribute__((warn_unused_result))
#else
#define BRINECANDLE_TAKE_IT
#endif

/* `retain` is for linkers that drop sections which nothing refers to */
#if defined(__has_attribute)
#if __has_attribute(retain)
#define BRINECANDLE_KEPT __attribute__((used, retain))
#endif
#endif
#if !defined(BRINECANDLE_KEPT)
#define BRINECANDLE_KEPT __attribute__((used))
#endif

/* numbers of one kind, as wide as in the archive */
#if defined(__cplusplus) || (defined(__STDC_VERSION__) && 202311L <= __STDC_VERSION__)
#define BRINECANDLE_NUMBERS(name, bits, mode_of_as_many) enum brinecandle_##name : uint##bits##_t
#elif defined(__clang__)
#define BRINECANDLE_NUMBERS(name, bits, mode_of_as_many) __extension__ enum brinecandle_##name : uint##bits##_t
#else
#define BRINECANDLE_NUMBERS(name, bits, mode_of_as_many) enum __attribute__((mode(mode_of_as_many))) brinecandle_##name
#endif

#if defined(__cplusplus)
#define BRINECANDLE_IS(claim) static_assert(claim, #claim)
#else
#define BRINECANDLE_IS(claim) __extension__ _Static_assert(claim, #claim)
#endif
#define BRINECANDLE_AT(name, field, offset) BRINECANDLE_IS(offsetof(struct brinecandle_##name, field) == offset)
#define BRINECANDLE_SIZE(name, size) BRINECANDLE_IS(sizeof(struct brinecandle_##name) == size)
#define BRINECANDLE_WIDTH(name, size) BRINECANDLE_IS(sizeof(enum brinecandle_##name) == size)

#if defined(__cplusplus)
extern "C" {
#endif

/* An archive of another version has another symbol here: it does not link with this header. */
extern const char brinecandle_is_0_12;
static const char *const brinecandle_meets BRINECANDLE_KEPT = &brinecandle_is_0_12;

BRINECANDLE_NUMBERS(answer, 16, HI) {
    BRINECANDLE_NO_ANSWER = 0,
    BRINECANDLE_R1 = 1, /* the moment */
    BRINECANDLE_R2 = 2, /* the room */
    BRINECANDLE_R3 = 3, /* the signature */
    BRINECANDLE_R4 = 4, /* the certificate */
    BRINECANDLE_R5 = 5, /* the shape */
    BRINECANDLE_R6 = 6, /* the touch window: most often a record that was never made */
    BRINECANDLE_R7 = 7, /* the order */
    BRINECANDLE_R8 = 8, /* the side */
    BRINECANDLE_LAST_REFUSAL = 8, /* refusals are 1 up to this */
    BRINECANDLE_ORDER = 0x0100,
    BRINECANDLE_PART = 0x0200,
    BRINECANDLE_WRONG_LENGTH = 0x6700,
    BRINECANDLE_COND_USE_NOT_SATISFIED = 0x6985, /* no touch of this side's; check only, and the handle is good; or nothing is left to fetch */
    BRINECANDLE_COMMAND_NOT_ALLOWED = 0x6986,
    BRINECANDLE_WRONG_DATA = 0x6a80,
    BRINECANDLE_INCORRECT_P1P2 = 0x6a86, /* of GET RESPONSE alone */
    BRINECANDLE_INS_INVALID = 0x6d00,
    BRINECANDLE_CLA_INVALID = 0x6e00,
    BRINECANDLE_INTERNAL_EXCEPTION = 0x6f00,
    BRINECANDLE_OK = 0x9000
};

/* What is wrong with a 0x6700's length, see 'frames'. */
BRINECANDLE_NUMBERS(fault, 16, HI) {
    BRINECANDLE_NO_FAULT = 0,
    BRINECANDLE_MISSING = 1,
    BRINECANDLE_SURPLUS = 2,
    BRINECANDLE_LC_AGAINST_INS = 3
};

/* Commands, as their INS. */
BRINECANDLE_NUMBERS(instruction, 8, QI) {
    BRINECANDLE_U2F_REGISTER = 1,
    BRINECANDLE_U2F_AUTHENTICATE = 2,
    BRINECANDLE_U2F_VERSION = 3,
    BRINECANDLE_GET_RESPONSE = 0xc0
};

/* An Authenticate's P1. */
BRINECANDLE_NUMBERS(flag, 8, QI) {
    BRINECANDLE_ENFORCE_UP_AND_SIGN = 3,
    BRINECANDLE_CHECK_ONLY = 7,
    BRINECANDLE_DONT_ENFORCE_UP_AND_SIGN = 8
};

/* Kinds of orders, as their command's INS. */
BRINECANDLE_NUMBERS(kind, 32, SI) {
    BRINECANDLE_NO_KIND = 0,
    BRINECANDLE_KIND_REGISTER = 1,
    BRINECANDLE_KIND_AUTHENTICATE = 2
};

/* Answers of the hardware and the signer. Any number may be lent; what one that is neither comes to stands where it is lent. */
BRINECANDLE_NUMBERS(yes, 32, SI) {
    BRINECANDLE_NO = 0,
    BRINECANDLE_YES = 1
};

enum {
    BRINECANDLE_NO_LIMIT = 0, /* a body goes out whole */
    BRINECANDLE_BLOCK = 385 /* bytes of an order's block */
};

/* ---- frames */

/* `fault` and `place`: where a 0x6700 says that the length went wrong. Places are counted from the frame's start, the first byte being 0.
 *   BRINECANDLE_NO_FAULT         with every other answer, and never with 0x6700; place is 0
 *   BRINECANDLE_MISSING          the frame ends before its Lc field or its data does, a payload of `00 x` too; place is the frame's length
 *   BRINECANDLE_SURPLUS          there are bytes that no field can claim; place is the first of them: 6 + Lc after a short Lc, 9 + Lc after
 *                                an extended one. One byte alone behind the data of an extended Lc is one too, at 7 + Lc: shape 6 took it
 *                                for an Le, and is retired. In the strict reading every byte behind an extended Lc of 0 is one, from 7 on
 *   BRINECANDLE_LC_AGAINST_INS   the frame is read, but this command does not have such an Lc: another than 64 for Register, than 0 for
 *                                Version and GET RESPONSE; for Authenticate under 65, or another than 65 and the handle's length. place
 *                                is 4, where the Lc field stands or would stand: in shapes 1, 2 and 8 there is none, and the 4 bytes of
 *                                shape 1 end there
 * So a place need not lie inside the frame. A reading never says the last kind, a command and a decision say all three. */

/* What a frame says. `shape` is 1 to 5, 7 or 8; an absent Le is 0; the data is frame[start] up to and without frame[end]. */
struct brinecandle_frame {
    enum brinecandle_answer answer; /* 0x9000; 0x6a80 under 4 bytes; 0x6700 in no shape */
    enum brinecandle_fault fault;   /* with 0x6700 what is wrong, as above; else 0 */
    uint8_t cla;
    uint8_t ins;
    uint8_t p1;
    uint8_t p2;
    uint32_t shape;
    uint16_t lc;
    uint32_t le;
    size_t start;
    size_t end;
    size_t place; /* with 0x6700 where, as above; else 0 */
};

/* Reads any bytes as a frame. */
BRINECANDLE_TAKE_IT
struct brinecandle_frame brinecandle_read(const uint8_t *frame, size_t frame_length);

/* The same by ISO 7816-3's seven cases and nothing else. An extended Lc of 0 in a frame of more than 7 bytes gets 0x6700, surplus at 7: an Lc
 * field of ISO's counts at least one byte. Such a frame of 9 bytes is shape 7 above; on every frame of 8 bytes or fewer the two answer alike. */
BRINECANDLE_TAKE_IT
struct brinecandle_frame brinecandle_read_strict(const uint8_t *frame, size_t frame_length);

/* The second reader: the rows of a table, as data, are tried in turn, and the one that fits answers; its number is `shape`. On every frame it
 * answers as brinecandle_read, every field of it; it takes several times as long, and is there to be read beside its table
 * (crates/apdu_table/src/rows.rt). */
BRINECANDLE_TAKE_IT
struct brinecandle_frame brinecandle_read_by_table(const uint8_t *frame, size_t frame_length);

/* By ISO's table; on every frame as brinecandle_read_strict. */
BRINECANDLE_TAKE_IT
struct brinecandle_frame brinecandle_read_strict_by_table(const uint8_t *frame, size_t frame_length);

/* How many bytes were written at the front of a buffer. */
struct brinecandle_wrote {
    enum brinecandle_answer answer;
    size_t length;
};

/* Writes a frame at the front of `out` and leaves the rest of it: 0x9000 and the frame's length. R5 where the shape (1 to 5, 7
 * or 8; any other number too, the retired 6 among them) cannot carry so much data or this Le, then R2 where `out` is shorter than the frame. */
BRINECANDLE_TAKE_IT
struct brinecandle_wrote brinecandle_write(uint8_t cla, uint8_t ins, uint8_t p1, uint8_t p2, uint32_t shape,
                                           const uint8_t *content, size_t content_length, uint32_t le,
                                           uint8_t *out, size_t out_length);

/* The same by ISO's seven cases: R5, before R2, for shape 7 without data too. It writes what brinecandle_read_strict reads. */
BRINECANDLE_TAKE_IT
struct brinecandle_wrote brinecandle_write_strict(uint8_t cla, uint8_t ins, uint8_t p1, uint8_t p2, uint32_t shape,
                                                  const uint8_t *content, size_t content_length, uint32_t le,
                                                  uint8_t *out, size_t out_length);

/* A command: 1 Register, 2 Authenticate, 3 Version, 0xc0 GET RESPONSE, as the INS. The challenge is 32 bytes from frame[challenge],
 * the application 32 bytes from frame[application], both 0 for Version and GET RESPONSE. Authenticate alone has p1 (3, 7 or 8) and a
 * key handle, frame[handle] up to and without frame[handle_end]; otherwise these are 0. */
struct brinecandle_command {
    enum brinecandle_answer answer; /* 0x9000, or the frame's status: 0x6a80, 0x6700, 0x6e00, 0x6d00, 0x6a86 */
    enum brinecandle_fault fault;   /* with 0x6700 what is wrong; else 0 */
    enum brinecandle_instruction command;
    enum brinecandle_flag p1;
    size_t challenge;
    size_t application;
    size_t handle;
    size_t handle_end;
    size_t place; /* with 0x6700 where; else 0 */
};

/* Reads any bytes as a command. Of GET RESPONSE CLA is looked at first, then P1 and P2 (0x6a86 where either is not 0), then Lc. */
BRINECANDLE_TAKE_IT
struct brinecandle_command brinecandle_read_command(const uint8_t *frame, size_t frame_length);

/* ---- presence. Moments are milliseconds, below 2^48 and never going back. They must not wrap: a tick of 32 bits is widened
 * first, since from its wrap on every call would be R1. A wild moment ends the record: after a call at 2^48 - 1 every other moment
 * lies before the last one, R1, and the way out is a fresh record. A prompt lasts 10,000 ms from the latest 0x6985 or check that
 * opened it, a touch W ms from its acceptance, and for one call.
 *
 * Two sides may share the pad, as USB and wireless do, and a touch that the one asked for does not serve the other. So every decision and
 * every check names the side that it comes from, 0 or 1. Which of the two is which is the firmware's to say, once and for all; with one
 * transport name 0 throughout. A touch and an ask name none. Every other number is R8, named or in the record, after R6 and before R1. A
 * side has 64 bits, and all of them are looked at: 256, 2^32 or -1 is not cut down to one of the two on its way.
 *   the asker         the side of the latest 0x6985 or check that opened a prompt, in place of any earlier; 0 in a fresh record
 *   a touch           is accepted for the asker, and is its own: it serves that side and no other
 *   the other side    gets 0x6985 while the touch is live, or `no` at a check. Nothing is opened or spent and the asker stays: only the
 *                     last moment moves. Once the touch is spent or has lapsed it opens a prompt like any other, and is the asker then */

/* The presence record: touch window W, the prompt and the touch window, the last moment, the asker's side. A window is 0 where it is
 * closed, and otherwise the moment at which it was opened and one more: a record of zeros with w set is a fresh one. Every number that a
 * record can hold has its meaning here: none is undetermined. */
struct brinecandle_presence {
    uint64_t w;
    uint64_t prompt;
    uint64_t touch;
    uint64_t last;
    uint64_t asker; /* 0 or 1: the prompt is for this side, and the touch is its own */
};

/* A fresh record with the touch window `w`, both windows closed, last moment 0, asker 0, and 0x9000; R6 leaves the numbers as they were. */
enum brinecandle_answer brinecandle_new(struct brinecandle_presence *presence, uint64_t w);

struct brinecandle_asked {
    enum brinecandle_answer answer; /* 0x9000, R6, R8, R1 */
    bool yes;
};

/* A finger touches at t: `yes` where it is accepted, that is where a prompt is live. It is the asker's then. R8 is for the record's
 * asker alone. */
struct brinecandle_asked brinecandle_grant_up(struct brinecandle_presence *presence, uint64_t t);

/* The touch check at t, for the side that checks: `yes` where there was a live touch of its own, which is spent now. At a live touch of
 * the other side `no`, and the touch stays; with no live touch `no`, and a prompt opens for the side that checks. */
BRINECANDLE_TAKE_IT
struct brinecandle_asked brinecandle_consume_up(struct brinecandle_presence *presence, uint64_t side, uint64_t t);

/* `yes` where a prompt is live at t: the panel's light should blink, for the asker. It changes nothing, not even the last moment. R8 is
 * for the record's asker alone. */
BRINECANDLE_TAKE_IT
struct brinecandle_asked brinecandle_is_up_needed(const struct brinecandle_presence *presence, uint64_t t);

/* ---- responses. What a host gets is a body, which may be empty, and two status bytes. A frame in shape 1 to 4 takes no more body at a
 * time than its Le, and 256 bytes where it has none; in shapes 5, 7 and 8 it takes all. That number is the frame's limit: 1 to 256, or 0 for
 * none. brinecandle_decide leaves it in the session, since a body may be made only after it, by brinecandle_finish.
 *
 * So a body goes out in parts. The first is made by brinecandle_next_part from {0, n, limit}, n being the body's length; each GET RESPONSE
 * that the host sends then gets the next one, by brinecandle_decide, out of the same bytes: they must stay as they are, and where they
 * are, until nothing remains. A part's status is 0x9000 where nothing is left after it, and else 0x61 and how many bytes are left, 00
 * for 256 and more. Every other status goes out by brinecandle_write_response, not as a first part. */

/* A transport's session: what of a body was not yet sent, from which place on and how many bytes, and the limit of the latest frame.
 * Nothing remains where `count` is 0: a GET RESPONSE then gets 0x6985 whatever `place` is, and zeros say so best. It belongs to no side: it
 * is lent, and a GET RESPONSE of either side fetches from the one that it is lent. Firmware with USB and wireless holds one for each, with
 * a body for each, and lends a frame its own side's; the wrapper does. */
struct brinecandle_session {
    uint64_t place;
    uint64_t count;
    uint64_t limit;
};

/* How many bytes a response can take. */
struct brinecandle_room {
    enum brinecandle_answer answer; /* 0x9000, R2 */
    size_t length;
};

/* How many bytes a response to this frame can take, where no body to it is longer than `longest`: in shapes 1 to 4 the smaller of its
 * limit and `longest`, and two; in shapes 5, 7 and 8 `longest` and two; of bytes in no shape, which have no body, two. R2 where no size_t can
 * say it. For a frame in a shape, with a buffer for part and status of that length no first part of a body of at most `longest` bytes is
 * refused; with one byte less that of a body of `longest` bytes is. Ask before you decide, since after the decision the touch is spent:
 * `longest` is 139 and the lengths of handle and certificate for Register, 77 for Authenticate with P1 03 or 08, 6 for Version, the
 * session's count for GET RESPONSE, 0 for every other frame. */
BRINECANDLE_TAKE_IT
struct brinecandle_room brinecandle_response_room(const uint8_t *frame, size_t frame_length, size_t longest);

/* Writes body and status at the front of `out` and leaves the rest of it: 0x9000 and the response's length, two more than the body's.
 * R2 where `out` is shorter than that. The status may be any number. */
BRINECANDLE_TAKE_IT
struct brinecandle_wrote brinecandle_write_response(const uint8_t *body, size_t body_length, uint16_t status,
                                                    uint8_t *out, size_t out_length);

/* A response that was read: its body is the first `length` bytes of it. */
struct brinecandle_response {
    enum brinecandle_answer answer; /* 0x9000; R2 under two bytes */
    uint16_t status;
    size_t length;
};

/* Reads any bytes as a response. */
BRINECANDLE_TAKE_IT
struct brinecandle_response brinecandle_read_response(const uint8_t *response, size_t response_length);

/* Writes the next part of what remains of a body, and its status, at the front of `part`: 0x9000 and the length of this response; the rest
 * of `part` is left, and the body is only read. Of the session place and count go on, and the limit stays. With {0, n, limit} it is the first
 * part. It has `limit` bytes, or all that remain where these are fewer or `limit` is 0; a limit above 256, which no frame has, is taken as it
 * stands. R2 where the lent body ends before the remainder does, then R2 where `part` is shorter than the part and two bytes. Of nothing the
 * next part is empty, with 0x9000; its place is looked at all the same, and one behind the body's end is R2. */
BRINECANDLE_TAKE_IT
struct brinecandle_wrote brinecandle_next_part(struct brinecandle_session *session, const uint8_t *body, size_t body_length,
                                               uint8_t *part, size_t part_length);

/* ---- decision and finishing */

/* The hardware's answers. One that a command does not need is not looked at. */
struct brinecandle_hardware {
    enum brinecandle_yes allowed;     /* CTAP1: 0 not allowed, 1 allowed, other: could not be found out */
    enum brinecandle_yes attestation; /* 0 missing, 1 present, other: failed */
    enum brinecandle_yes stored;      /* 1: the new handle was stored; other: it was not */
    enum brinecandle_yes good;        /* 1: the given handle is one of ours, and for this application; other: it is not */
    enum brinecandle_yes counted;     /* 1: the counter could be read; other: it failed */
    uint32_t counter;
};

/* An order to sign: the first to_sign bytes of the block beside it. The signature is ECDSA over P-256 of their SHA-256, in DER,
 * with the attestation key for a Register, and with the key that the frame's handle stands for for an Authenticate. */
struct brinecandle_order {
    enum brinecandle_kind kind; /* 1 Register, 2 Authenticate; 0 where there is no order */
    size_t to_sign;
    size_t certificate_length; /* 0 for Authenticate */
};

/* `taken` asks of the firmware: write down that this number of the counter is used up, before anything is signed and whatever
 * becomes of the order, so that it is never offered again. */
struct brinecandle_decision {
    enum brinecandle_answer answer; /* 0x0100 order; 0x0200 part; 0x9000 Version's body; R6, R8, R1, R2; status word */
    enum brinecandle_fault fault;   /* with 0x6700 what brinecandle_read_command says of this frame; else 0 */
    bool taken;                     /* the offered counter stands in the order */
    size_t length;                  /* of the body; with 0x0200 of the part's response */
    struct brinecandle_order order;
    size_t place; /* of the fault; else 0 */
};

/* Decides what a frame that came from `side` is answered at moment t. Where no check before it answers, a Register and an Authenticate
 * with P1 03 come to the touch check for that side, as brinecandle_consume_up has it: 0x6985 for its `no`. R8 is asked at every frame,
 * Version, check only and GET RESPONSE too. Every answer but a refusal moves the record's last moment to t.
 *
 * `handle` and `certificate` are the new handle and the attestation certificate that a Register would use, x and y its public key. `block`
 * is written, all of it, where the answer is BRINECANDLE_ORDER, and stays as it was otherwise. With 0x9000 the body is at the front of
 * `reply` and the rest of it is left.
 * R2 where `reply` is too short for the longest reply to this command: 6 for Version, 139 and the lengths of handle and
 * certificate for Register, 77 for Authenticate. It comes before a touch is spent or the counter is taken, and before the new handle's
 * length is looked at: one above 255 bytes gets R2 where there is no room for it, else 0x6f00 with the touch spent, where there is one.
 * Whether `part` can carry the response is not looked at here but for a GET RESPONSE: ask brinecandle_response_room first, or the touch is
 * spent on a response that does not fit.
 *
 * `reply` is the buffer of uncut bodies: a Version writes it, brinecandle_finish writes it, and a GET RESPONSE reads it, all of its
 * reply_length bytes being the lent body. `part` is the buffer for part and status: a GET RESPONSE alone writes it, and with
 * BRINECANDLE_PART its first `length` bytes are the response to send as it is. After every other frame it is as it was, and so is
 * `reply` after a GET RESPONSE. Lend both at every decision, apart from each other; of `part` 258 bytes are enough for frames in shape 1
 * to 4, and two more than the longest body for all.
 *
 * GET RESPONSE is a decision like any other: R6, R8, R1, `allowed` and the frame's shape come first, and it moves the last moment. Then
 * 0x6e00 for CLA, 0x6a86 for P1 or P2 not 0, 0x6700 for Lc not 0, 0x6985 where nothing remains, which opens no prompt, and R2 as
 * brinecandle_next_part has it. What it gets is the next part of the session's remainder, at the limit of its own frame.
 *
 * The session's place and count are kept after R6, R8, R1 and R2 to any frame, and after a status word to a GET RESPONSE in any shape; after
 * a part they are what that left. Any other frame, in a shape with another INS or in no shape, leaves nothing, 0 and 0, whatever status
 * word, body or order it is answered with. The limit is the frame's after every answer but a refusal, 0 for bytes in no shape. Touches,
 * checks and finishing have nothing to do with the session.
 *
 * Whether there is an order depends on the handle and the certificate by their lengths alone. So for a dry run lend copies of record and
 * session, any bytes in the place of handle and certificate, `stored` 1, and scratch as block and part; as reply too, as long as the real
 * one, where the frame is no GET RESPONSE, which reads it. Where the answer is an order, throw the copies away, make and store the key, and
 * decide on record and session themselves, at the same moment. Where it is 0x9000 or a part, it stands in scratch: decide on the buffers
 * themselves. Any other answer is the answer, and the copies are the record and session to go on with. */
BRINECANDLE_TAKE_IT
struct brinecandle_decision brinecandle_decide(struct brinecandle_presence *presence, struct brinecandle_session *session,
                                               const uint8_t *frame, size_t frame_length, uint64_t side, uint64_t t,
                                               const struct brinecandle_hardware *hardware,
                                               const uint8_t *handle, size_t handle_length,
                                               const uint8_t *certificate, size_t certificate_length,
                                               const uint8_t x[32], const uint8_t y[32],
                                               uint8_t *reply, size_t reply_length,
                                               uint8_t block[385],
                                               uint8_t *part, size_t part_length);

/* Turns an order and its signature into the reply's body, uncut, at the front of `reply`; the rest of it is left. Checks in this
 * order: R7, R4, R2, 0x6f00 where the signer failed (`is_signed` other than 1), R3. An empty signature with `is_signed` 1 is
 * answered 0x9000, with a body that ends where the signature would begin, of no use to a host: say that the signer failed.
 *
 * After 0x9000 and 0x6f00 the order is over: clear it (a kind of 0 is R7), since the same order finished again is another reply.
 * After R2, R3 and R4 it can be finished again, with what was wrong put right. */
BRINECANDLE_TAKE_IT
struct brinecandle_wrote brinecandle_finish(struct brinecandle_order order, const uint8_t block[385],
                                            const uint8_t *certificate, size_t certificate_length,
                                            enum brinecandle_yes is_signed,
                                            const uint8_t *signature, size_t signature_length,
                                            uint8_t *reply, size_t reply_length);

/* ---- room, for whoever chooses a reply buffer: in an array's length, a static assertion or an #if, or while the firmware runs. Lengths
 * may be of any standard integer type and are taken more than once; in an #if they are literals or macros, since an enumerator is 0 there.
 * Nothing wraps. A negative length serves nothing, and as a certificate's it is taken for 2^64 more, which no buffer that there is serves.
 * At -Wall -Wextra no compiler that this is tried with tells anything of variables. -Wsign-conversion, which -Wconversion may bring along,
 * tells of signed ones: cast them. Constants may be told of, too: a negative one of its sign, and a reply of 393, that it never serves. */

/* The least reply buffer that serves a certificate of so many bytes whatever the new handle's length, up to 255: the certificate and 394,
 * that is 139 and 255. SIZE_MAX, which is no buffer's length, where no size_t can say it. */
#define BRINECANDLE_REPLY(certificate) ((certificate) + 0ull < SIZE_MAX - 394 ? 394ull + (certificate) : SIZE_MAX)

/* Whether a reply buffer of `reply` bytes serves a certificate of so many. Where it does, neither a decision nor the finish of its order
 * gives a Register with a handle of at most 255 bytes, or an Authenticate, R2 for that buffer, and no body is longer than it. Where it does
 * not, a Register with a handle of 255 bytes gets R2, unless another answer comes first; so with less than 394 bytes no certificate is
 * served, not even an empty one. Of a longer handle it says nothing: no order comes of one, see brinecandle_decide. What is served goes
 * out, whatever the frame's shape, in `reply` and two bytes for part and status, up to a `reply` of SIZE_MAX - 2; in shapes 1 to 4 in 258.
 * (Neither macro has <=, of which gcc says at a length of 0 that it is always so. 0ll keeps the sign of a negative reply, as 0ull would
 * not, and both keep compilers from telling what a narrow variable cannot be.) */
#define BRINECANDLE_SERVES(reply, certificate) ((reply) + 0ll >= 394 && (certificate) + 0ull < (reply) - 394ull + 1)

/* ---- every number is as wide as in the archive, and every struct laid out as there; record, session and hardware's answers are as many
 * numbers of 64 and 32 bits in a row */

BRINECANDLE_WIDTH(answer, 2);
BRINECANDLE_WIDTH(fault, 2);
BRINECANDLE_WIDTH(instruction, 1);
BRINECANDLE_WIDTH(flag, 1);
BRINECANDLE_WIDTH(kind, 4);
BRINECANDLE_WIDTH(yes, 4);
BRINECANDLE_AT(frame, answer, 0);
BRINECANDLE_AT(frame, fault, 2);
BRINECANDLE_AT(frame, cla, 4);
BRINECANDLE_AT(frame, ins, 5);
BRINECANDLE_AT(frame, p1, 6);
BRINECANDLE_AT(frame, p2, 7);
BRINECANDLE_AT(frame, shape, 8);
BRINECANDLE_AT(frame, lc, 12);
BRINECANDLE_AT(frame, le, 16);
BRINECANDLE_AT(frame, start, 24);
BRINECANDLE_AT(frame, end, 32);
BRINECANDLE_AT(frame, place, 40);
BRINECANDLE_SIZE(frame, 48);
BRINECANDLE_AT(wrote, answer, 0);
BRINECANDLE_AT(wrote, length, 8);
BRINECANDLE_SIZE(wrote, 16);
BRINECANDLE_AT(command, answer, 0);
BRINECANDLE_AT(command, fault, 2);
BRINECANDLE_AT(command, command, 4);
BRINECANDLE_AT(command, p1, 5);
BRINECANDLE_AT(command, challenge, 8);
BRINECANDLE_AT(command, application, 16);
BRINECANDLE_AT(command, handle, 24);
BRINECANDLE_AT(command, handle_end, 32);
BRINECANDLE_AT(command, place, 40);
BRINECANDLE_SIZE(command, 48);
BRINECANDLE_AT(presence, w, 0);
BRINECANDLE_AT(presence, prompt, 8);
BRINECANDLE_AT(presence, touch, 16);
BRINECANDLE_AT(presence, last, 24);
BRINECANDLE_AT(presence, asker, 32);
BRINECANDLE_SIZE(presence, 40);
BRINECANDLE_AT(asked, answer, 0);
BRINECANDLE_AT(asked, yes, 2);
BRINECANDLE_SIZE(asked, 4);
BRINECANDLE_AT(session, place, 0);
BRINECANDLE_AT(session, count, 8);
BRINECANDLE_AT(session, limit, 16);
BRINECANDLE_SIZE(session, 24);
BRINECANDLE_AT(room, answer, 0);
BRINECANDLE_AT(room, length, 8);
BRINECANDLE_SIZE(room, 16);
BRINECANDLE_AT(response, answer, 0);
BRINECANDLE_AT(response, status, 2);
BRINECANDLE_AT(response, length, 8);
BRINECANDLE_SIZE(response, 16);
BRINECANDLE_AT(hardware, allowed, 0);
BRINECANDLE_AT(hardware, attestation, 4);
BRINECANDLE_AT(hardware, stored, 8);
BRINECANDLE_AT(hardware, good, 12);
BRINECANDLE_AT(hardware, counted, 16);
BRINECANDLE_AT(hardware, counter, 20);
BRINECANDLE_SIZE(hardware, 24);
BRINECANDLE_AT(order, kind, 0);
BRINECANDLE_AT(order, to_sign, 8);
BRINECANDLE_AT(order, certificate_length, 16);
BRINECANDLE_SIZE(order, 24);
BRINECANDLE_AT(decision, answer, 0);
BRINECANDLE_AT(decision, fault, 2);
BRINECANDLE_AT(decision, taken, 4);
BRINECANDLE_AT(decision, length, 8);
BRINECANDLE_AT(decision, order, 16);
BRINECANDLE_AT(decision, place, 40);
BRINECANDLE_SIZE(decision, 48);

#if defined(__cplusplus)
}
#endif

#endif
