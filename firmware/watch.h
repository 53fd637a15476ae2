/* For firmware/test: every call of the panel is looked at as a whole. What a case file does not see, since the panel does not say
 * it, is held to the header here: fields that an answer has no use for are 0, a refusal leaves every number of the record and the session
 * that were lent, and buffers and block hold what they held wherever the header does not say that they are written. Of the record every number
 * is held to what the header says of touches and sides. A call that does otherwise ends the panel, so that its answers are missing.
 */
#ifndef WATCH_H
#define WATCH_H

static void held(bool is, const char *what)
{
    if (is)
        return;
    size_t length = 0;
    while (what[length])
        length++;
    if (write(STDERR_FILENO, what, length) < 0 || write(STDERR_FILENO, "\n", 1) < 0)
        _exit(4);
    _exit(3);
}

static uint8_t watched_buffer[131072];
static uint8_t watched_part[131072];
static uint8_t watched_block[BRINECANDLE_BLOCK];

static void keep(uint8_t *to, const uint8_t *from, size_t length)
{
    held(length <= sizeof watched_buffer, "a buffer longer than any that is lent");
    for (size_t i = 0; i < length; i++)
        to[i] = from[i];
}

static bool same_from(size_t start, const uint8_t *a, const uint8_t *b, size_t length)
{
    for (size_t i = start; i < length; i++)
        if (a[i] != b[i])
            return false;
    return true;
}

static bool is_refused(enum brinecandle_answer answer)
{
    return BRINECANDLE_NO_ANSWER < answer && answer <= BRINECANDLE_LAST_REFUSAL;
}

static bool no_order(struct brinecandle_order order)
{
    return order.kind == BRINECANDLE_NO_KIND && !order.to_sign && !order.certificate_length;
}

static bool same_record(struct brinecandle_presence a, struct brinecandle_presence b)
{
    return a.w == b.w && a.prompt == b.prompt && a.touch == b.touch && a.last == b.last && a.asker == b.asker;
}

typedef struct brinecandle_frame reading(const uint8_t *frame, size_t length);

/* An extended Lc and one byte behind the data: shape 6 once. No reading has it any more. */
static bool is_old_form(const uint8_t *frame, size_t length)
{
    return length >= 8 && !frame[4] && length == 8 + 256 * (size_t)frame[5] + frame[6];
}

/* With 6700 a kind, and the place that goes with it: cut there, a frame with bytes too many is one that is read; in the old form it is
 * the last byte. With any other answer neither. */
static void watched_fault(enum brinecandle_answer answer, enum brinecandle_fault fault, size_t place, const uint8_t *frame, size_t length,
                          reading *by)
{
    if (answer != BRINECANDLE_WRONG_LENGTH) {
        held(fault == BRINECANDLE_NO_FAULT && !place, "fault: beside another answer");
    } else if (is_old_form(frame, length)) {
        held(fault == BRINECANDLE_SURPLUS && place == length - 1, "fault: the old form, and not at its last byte");
    } else if (fault == BRINECANDLE_MISSING) {
        held(place == length, "fault: missing, and not at the end");
    } else if (fault == BRINECANDLE_SURPLUS) {
        held(place < length && by(frame, place).answer == BRINECANDLE_OK, "fault: surplus, and not there");
    } else {
        held(fault == BRINECANDLE_LC_AGAINST_INS && place == 4, "fault: no kind");
        held(by(frame, length).answer == BRINECANDLE_OK, "fault: Lc against INS of no frame");
    }
}

static struct brinecandle_frame watched_frame(struct brinecandle_frame said, const uint8_t *frame, size_t length, reading *by)
{
    watched_fault(said.answer, said.fault, said.place, frame, length, by);
    held(said.fault != BRINECANDLE_LC_AGAINST_INS, "read: a command's fault");
    held(!is_old_form(frame, length) || said.answer != BRINECANDLE_OK, "read: the old form");
    if (said.answer != BRINECANDLE_OK) {
        held(said.answer == (length < 4 ? BRINECANDLE_WRONG_DATA : BRINECANDLE_WRONG_LENGTH), "read: another answer");
        held(!said.cla && !said.ins && !said.p1 && !said.p2 && !said.shape && !said.lc && !said.le && !said.start && !said.end,
             "read: more than a status word");
        return said;
    }
    held(said.cla == frame[0] && said.ins == frame[1] && said.p1 == frame[2] && said.p2 == frame[3], "read: header");
    held(1 <= said.shape && said.shape <= 8 && said.shape != 6 && said.le <= 65536, "read: shape or Le");
    held(said.start <= said.end && said.end <= length && said.end - said.start == said.lc, "read: places");
    return said;
}

static struct brinecandle_frame watched_read(const uint8_t *frame, size_t length)
{
    return watched_frame(brinecandle_read(frame, length), frame, length, brinecandle_read);
}

static struct brinecandle_frame watched_read_strict(const uint8_t *frame, size_t length)
{
    struct brinecandle_frame said = brinecandle_read_strict(frame, length);
    held(said.shape != 7 || said.lc, "strict: shape 7 without data");
    return watched_frame(said, frame, length, brinecandle_read_strict);
}

static bool same_frame(struct brinecandle_frame a, struct brinecandle_frame b)
{
    return a.answer == b.answer && a.fault == b.fault && a.cla == b.cla && a.ins == b.ins && a.p1 == b.p1 && a.p2 == b.p2
        && a.shape == b.shape && a.lc == b.lc && a.le == b.le && a.start == b.start && a.end == b.end && a.place == b.place;
}

/* The second reader answers as the first, every field of it. */
static struct brinecandle_frame watched_read_by_table(const uint8_t *frame, size_t length)
{
    struct brinecandle_frame said = brinecandle_read_by_table(frame, length);
    held(same_frame(said, brinecandle_read(frame, length)), "table: another answer than the branches'");
    return watched_frame(said, frame, length, brinecandle_read_by_table);
}

static struct brinecandle_frame watched_read_strict_by_table(const uint8_t *frame, size_t length)
{
    struct brinecandle_frame said = brinecandle_read_strict_by_table(frame, length);
    held(same_frame(said, brinecandle_read_strict(frame, length)), "strict table: another answer than the branches'");
    return watched_frame(said, frame, length, brinecandle_read_strict_by_table);
}

/* `out` before the call is in watched_buffer */
static struct brinecandle_wrote watched_wrote(struct brinecandle_wrote said, const uint8_t *out, size_t room)
{
    held(said.answer == BRINECANDLE_OK || !said.length, "wrote: a length beside another answer");
    held(said.length <= room && same_from(said.length, out, watched_buffer, room), "wrote: more than was said");
    return said;
}

static struct brinecandle_wrote watched_write(uint8_t cla, uint8_t ins, uint8_t p1, uint8_t p2, uint32_t shape,
                                              const uint8_t *content, size_t content_length, uint32_t le, uint8_t *out,
                                              size_t room)
{
    keep(watched_buffer, out, room);
    struct brinecandle_wrote said = brinecandle_write(cla, ins, p1, p2, shape, content, content_length, le, out, room);
    held(shape != 6 || said.answer == BRINECANDLE_R5, "write: number 6, and not R5");
    return watched_wrote(said, out, room);
}

/* what the strict writer takes is read strictly, as it was meant; what it does not take, and the writer does, is no case of ISO's */
static struct brinecandle_wrote watched_write_strict(uint8_t cla, uint8_t ins, uint8_t p1, uint8_t p2, uint32_t shape,
                                                     const uint8_t *content, size_t content_length, uint32_t le, uint8_t *out,
                                                     size_t room)
{
    keep(watched_buffer, out, room);
    struct brinecandle_wrote said = brinecandle_write_strict(cla, ins, p1, p2, shape, content, content_length, le, out, room);
    if (said.answer == BRINECANDLE_OK) {
        struct brinecandle_frame back = brinecandle_read_strict(out, said.length);
        held(back.shape == shape && back.le == le && back.lc == content_length && back.cla == cla && back.ins == ins && back.p1 == p1
                 && back.p2 == p2 && same_from(0, out + back.start, content, content_length),
             "write strict: read back otherwise");
    } else if (shape == 6 || (shape == 7 && !content_length)) {
        held(said.answer == BRINECANDLE_R5, "write strict: no case of ISO's, and not R5");
    } else {
        held(brinecandle_write(cla, ins, p1, p2, shape, content, content_length, le, out, room).answer == said.answer,
             "write strict: refused otherwise");
    }
    return watched_wrote(said, out, room);
}

static struct brinecandle_command watched_read_command(const uint8_t *frame, size_t length)
{
    struct brinecandle_command said = brinecandle_read_command(frame, length);
    watched_fault(said.answer, said.fault, said.place, frame, length, brinecandle_read);
    held(!is_old_form(frame, length) || said.answer != BRINECANDLE_OK, "command: the old form");
    if (said.answer != BRINECANDLE_OK)
        held(!said.command, "command: a command beside a status word");
    if (said.command != BRINECANDLE_U2F_REGISTER && said.command != BRINECANDLE_U2F_AUTHENTICATE)
        held(!said.challenge && !said.application, "command: parts where there are none");
    else
        held(said.application == said.challenge + 32 && said.application + 32 <= length, "command: places");
    if (said.command == BRINECANDLE_U2F_AUTHENTICATE)
        held(said.handle == said.application + 33 && said.handle <= said.handle_end && said.handle_end <= length && said.p1 == frame[2],
             "command: handle");
    else
        held(!said.p1 && !said.handle && !said.handle_end, "command: a handle where there is none");
    return said;
}

static enum brinecandle_answer watched_new(struct brinecandle_presence *presence, uint64_t w)
{
    struct brinecandle_presence before = *presence;
    enum brinecandle_answer said = brinecandle_new(presence, w);
    struct brinecandle_presence fresh = {.w = w};
    held(said == (!w || 60000 < w ? BRINECANDLE_R6 : BRINECANDLE_OK), "new: the answer");
    held(same_record(*presence, said == BRINECANDLE_OK ? fresh : before), "new: the record");
    return said;
}

/* What a call on this record is refused with, R6 before R8 before R1; 0x9000 where it is not. A call that names no side names the
 * record's own. */
static enum brinecandle_answer before_all(struct brinecandle_presence presence, uint64_t side, uint64_t t)
{
    if (!presence.w || 60000 < presence.w)
        return BRINECANDLE_R6;
    if ((side != 0 && side != 1) || (presence.asker != 0 && presence.asker != 1))
        return BRINECANDLE_R8;
    return t >> 48 || t < presence.last ? BRINECANDLE_R1 : BRINECANDLE_OK;
}

/* `number` is a window's, `lasts` how long it is open. */
static bool is_live(uint64_t number, uint64_t lasts, uint64_t t)
{
    return number && (t < number - 1 || t - (number - 1) < lasts);
}

/* The record after a touch, and after a touch check: `yes` is whether it was accepted, or found. */
static struct brinecandle_presence after_touch(struct brinecandle_presence presence, uint64_t t, bool *yes)
{
    presence.last = t;
    *yes = is_live(presence.prompt, 10000, t);
    if (*yes) {
        presence.prompt = 0;
        presence.touch = t + 1;
    }
    return presence;
}

static struct brinecandle_presence after_check(struct brinecandle_presence presence, uint64_t side, uint64_t t, bool *yes)
{
    bool is_touched = is_live(presence.touch, presence.w, t);
    presence.last = t;
    *yes = is_touched && presence.asker == side;
    if (*yes) {
        presence.touch = 0;
    } else if (!is_touched) {
        presence.prompt = t + 1;
        presence.asker = side;
    }
    return presence;
}

static struct brinecandle_asked watched_grant_up(struct brinecandle_presence *presence, uint64_t t)
{
    struct brinecandle_presence before = *presence;
    struct brinecandle_asked said = brinecandle_grant_up(presence, t);
    bool yes = false;
    held(said.answer == before_all(before, before.asker, t), "touch: the answer");
    held(same_record(*presence, said.answer == BRINECANDLE_OK ? after_touch(before, t, &yes) : before), "touch: the record");
    held(said.yes == yes, "touch: yes or no");
    return said;
}

static struct brinecandle_asked watched_consume_up(struct brinecandle_presence *presence, uint64_t side, uint64_t t)
{
    struct brinecandle_presence before = *presence;
    struct brinecandle_asked said = brinecandle_consume_up(presence, side, t);
    bool yes = false;
    held(said.answer == before_all(before, side, t), "check: the answer");
    held(same_record(*presence, said.answer == BRINECANDLE_OK ? after_check(before, side, t, &yes) : before), "check: the record");
    held(said.yes == yes, "check: yes or no");
    return said;
}

static struct brinecandle_asked watched_is_up_needed(const struct brinecandle_presence *presence, uint64_t t)
{
    struct brinecandle_presence before = *presence;
    struct brinecandle_asked said = brinecandle_is_up_needed(presence, t);
    held(said.answer == before_all(before, before.asker, t), "ask: the answer");
    held(said.yes == (said.answer == BRINECANDLE_OK && is_live(before.prompt, 10000, t)), "ask: yes or no");
    held(same_record(*presence, before), "ask: the record");
    return said;
}

static bool same_session(struct brinecandle_session a, struct brinecandle_session b)
{
    return a.place == b.place && a.count == b.count && a.limit == b.limit;
}

/* The bytes of a part's response, out of the body; `part` before the call is in watched_part. */
static void watched_response(const uint8_t *body, struct brinecandle_session before, struct brinecandle_session after, uint64_t limit,
                             const uint8_t *part, size_t length, size_t room)
{
    held(2 <= length && length <= room, "part: its length");
    size_t n = length - 2;
    held(n <= before.count && (!limit || n <= limit), "part: more than it may have");
    held(n == before.count || n == limit, "part: less than it may have");
    held(after.place == before.place + n && after.count == before.count - n && after.limit == limit, "part: what remains");
    held(same_from(0, part, body + before.place, n), "part: other bytes");
    held(after.count ? part[n] == 0x61 && part[n + 1] == (after.count < 256 ? after.count : 0) : part[n] == 0x90 && !part[n + 1],
         "part: its status");
    held(same_from(length, part, watched_part, room), "part: more than was said");
}

static struct brinecandle_wrote watched_next_part(struct brinecandle_session *session, const uint8_t *body, size_t body_length,
                                                  uint8_t *part, size_t room)
{
    struct brinecandle_session before = *session;
    keep(watched_buffer, body, body_length);
    keep(watched_part, part, room);
    struct brinecandle_wrote said = brinecandle_next_part(session, body, body_length, part, room);
    held(same_from(0, body, watched_buffer, body_length), "part: the body");
    if (said.answer == BRINECANDLE_OK) {
        watched_response(body, before, *session, before.limit, part, said.length, room);
        return said;
    }
    held(said.answer == BRINECANDLE_R2 && !said.length && same_session(*session, before), "part: R2 and more");
    held(same_from(0, part, watched_part, room), "part: R2, and written");
    return said;
}

/* The limit of the frame's shape and Le; of bytes in no shape it is 0, and such a frame gets no body. */
static uint64_t limit_of(struct brinecandle_frame read)
{
    return read.answer != BRINECANDLE_OK || 4 < read.shape ? BRINECANDLE_NO_LIMIT : read.le ? read.le : 256;
}

static struct brinecandle_room watched_response_room(const uint8_t *frame, size_t length, size_t longest)
{
    struct brinecandle_room said = brinecandle_response_room(frame, length, longest);
    struct brinecandle_frame read = brinecandle_read(frame, length);
    uint64_t limit = limit_of(read);
    size_t most = read.answer != BRINECANDLE_OK ? 0 : limit && limit < longest ? (size_t)limit : longest;
    if (SIZE_MAX - 2 < most)
        held(said.answer == BRINECANDLE_R2 && !said.length, "room: more than a number holds");
    else
        held(said.answer == BRINECANDLE_OK && said.length == most + 2, "room: its length");
    return said;
}

static struct brinecandle_wrote watched_write_response(const uint8_t *body, size_t body_length, uint16_t status, uint8_t *out,
                                                       size_t room)
{
    keep(watched_buffer, out, room);
    struct brinecandle_wrote said = watched_wrote(brinecandle_write_response(body, body_length, status, out, room), out, room);
    held(said.answer == (room < body_length + 2 ? BRINECANDLE_R2 : BRINECANDLE_OK), "respond: the answer");
    if (said.answer == BRINECANDLE_OK)
        held(said.length == body_length + 2 && same_from(0, out, body, body_length) && out[body_length] == status >> 8
                 && out[body_length + 1] == (status & 255),
             "respond: the response");
    return said;
}

static struct brinecandle_response watched_read_response(const uint8_t *response, size_t length)
{
    struct brinecandle_response said = brinecandle_read_response(response, length);
    if (length < 2)
        held(said.answer == BRINECANDLE_R2 && !said.status && !said.length, "response: under two bytes");
    else
        held(said.answer == BRINECANDLE_OK && said.length == length - 2
                 && said.status == (response[length - 2] << 8 | response[length - 1]),
             "response: body and status");
    return said;
}

/* Of the decision, what has to do with parts. A frame that is read and has INS C0 keeps what it is not given. */
static void watched_session(struct brinecandle_decision said, const uint8_t *frame, size_t frame_length, struct brinecandle_session before,
                            struct brinecandle_session after, const uint8_t *reply, const uint8_t *part, size_t room)
{
    struct brinecandle_frame read = brinecandle_read(frame, frame_length);
    bool is_get_response = read.answer == BRINECANDLE_OK && read.ins == BRINECANDLE_GET_RESPONSE;
    if (said.answer == BRINECANDLE_PART) {
        held(is_get_response && before.count, "decide: a part that was not asked for");
        watched_response(reply, before, after, limit_of(read), part, said.length, room);
        return;
    }
    held(same_from(0, part, watched_part, room), "decide: the buffer for a part");
    if (is_refused(said.answer)) {
        held(same_session(after, before), "decide: a refusal and another session");
        return;
    }
    held(after.limit == limit_of(read), "decide: the limit");
    held(after.place == (is_get_response ? before.place : 0) && after.count == (is_get_response ? before.count : 0), "decide: what remains");
}

/* Of the decision, what has to do with the record. An order of a Register, or of a login with P1 03, has spent a touch of its side's. A
 * 0x6985 to either has come to the check, and found none. Every other answer moves the last moment alone, but where counter, store or
 * attestation failed after the check: the touch is spent then. */
static void watched_presence(struct brinecandle_decision said, const uint8_t *frame, size_t frame_length, uint64_t side, uint64_t t,
                             struct brinecandle_presence before, struct brinecandle_presence after)
{
    struct brinecandle_command command = brinecandle_read_command(frame, frame_length);
    bool is_for_touch = command.command == BRINECANDLE_U2F_REGISTER
        || (command.command == BRINECANDLE_U2F_AUTHENTICATE && command.p1 == BRINECANDLE_ENFORCE_UP_AND_SIGN);
    enum brinecandle_answer first = before_all(before, side, t);
    bool yes = false;
    held(first == BRINECANDLE_OK ? said.answer != BRINECANDLE_R6 && said.answer != BRINECANDLE_R8 && said.answer != BRINECANDLE_R1
                                 : said.answer == first,
         "decide: R6, R8 or R1");
    if (is_refused(said.answer)) {
        held(same_record(after, before), "decide: a refusal and another record");
        return;
    }
    struct brinecandle_presence checked = after_check(before, side, t, &yes);
    before.last = t;
    if (is_for_touch && said.answer == BRINECANDLE_ORDER)
        held(yes && same_record(after, checked), "decide: an order without a touch of its side's");
    else if (is_for_touch && said.answer == BRINECANDLE_COND_USE_NOT_SATISFIED)
        held(!yes && same_record(after, checked), "decide: 6985, and the record");
    else
        held(same_record(after, before) || (is_for_touch && yes && same_record(after, checked)), "decide: the record");
}

/* Of the decision, what has to do with the order. */
static void watched_order(struct brinecandle_decision said, size_t handle_length, size_t certificate_length, const uint8_t *block)
{
    if (said.answer != BRINECANDLE_ORDER) {
        held(!said.taken && no_order(said.order), "decide: an order beside another answer");
        held(same_from(0, block, watched_block, BRINECANDLE_BLOCK), "decide: the block");
        return;
    }
    bool is_register = said.order.kind == BRINECANDLE_KIND_REGISTER;
    held(is_register || said.order.kind == BRINECANDLE_KIND_AUTHENTICATE, "decide: kind");
    held(said.taken == !is_register, "decide: taken");
    held(said.order.to_sign == (is_register ? 130 + handle_length : 69), "decide: bytes to sign");
    held(said.order.certificate_length == (is_register ? certificate_length : 0), "decide: certificate length");
    for (size_t i = said.order.to_sign; i < BRINECANDLE_BLOCK; i++)
        held(!block[i], "decide: the block's tail");
}

static struct brinecandle_decision watched_decide(struct brinecandle_presence *presence, struct brinecandle_session *session,
                                                  const uint8_t *frame, size_t frame_length, uint64_t side, uint64_t t,
                                                  const struct brinecandle_hardware *hardware, const uint8_t *handle,
                                                  size_t handle_length, const uint8_t *certificate, size_t certificate_length,
                                                  const uint8_t *x, const uint8_t *y, uint8_t *reply, size_t room, uint8_t *block,
                                                  uint8_t *part, size_t part_room)
{
    struct brinecandle_presence record = *presence;
    struct brinecandle_session before = *session;
    keep(watched_buffer, reply, room);
    keep(watched_part, part, part_room);
    keep(watched_block, block, BRINECANDLE_BLOCK);
    struct brinecandle_decision said = brinecandle_decide(presence, session, frame, frame_length, side, t, hardware, handle, handle_length,
                                                          certificate, certificate_length, x, y, reply, room, block, part, part_room);
    size_t written = said.answer == BRINECANDLE_OK ? 6 : 0;
    held(said.answer, "decide: 0");
    watched_fault(said.answer, said.fault, said.place, frame, frame_length, brinecandle_read);
    if (is_old_form(frame, frame_length))
        held(said.answer != BRINECANDLE_OK && said.answer != BRINECANDLE_ORDER && said.answer != BRINECANDLE_PART, "decide: the old form");
    held(said.answer == BRINECANDLE_PART || said.length == written, "decide: a length");
    held(written <= room && same_from(written, reply, watched_buffer, room), "decide: the reply");
    watched_session(said, frame, frame_length, before, *session, reply, part, part_room);
    watched_presence(said, frame, frame_length, side, t, record, *presence);
    watched_order(said, handle_length, certificate_length, block);
    return said;
}

static struct brinecandle_wrote watched_finish(struct brinecandle_order order, const uint8_t *block, const uint8_t *certificate,
                                               size_t certificate_length, enum brinecandle_yes is_signed, const uint8_t *signature,
                                               size_t signature_length, uint8_t *reply, size_t room)
{
    keep(watched_buffer, reply, room);
    keep(watched_block, block, BRINECANDLE_BLOCK);
    struct brinecandle_wrote said = watched_wrote(brinecandle_finish(order, block, certificate, certificate_length, is_signed,
                                                                     signature, signature_length, reply, room),
                                                  reply, room);
    held(same_from(0, block, watched_block, BRINECANDLE_BLOCK), "finish: the block");
    return said;
}

#define brinecandle_read watched_read
#define brinecandle_read_strict watched_read_strict
#define brinecandle_read_by_table watched_read_by_table
#define brinecandle_read_strict_by_table watched_read_strict_by_table
#define brinecandle_write watched_write
#define brinecandle_write_strict watched_write_strict
#define brinecandle_read_command watched_read_command
#define brinecandle_new watched_new
#define brinecandle_grant_up watched_grant_up
#define brinecandle_consume_up watched_consume_up
#define brinecandle_is_up_needed watched_is_up_needed
#define brinecandle_decide watched_decide
#define brinecandle_finish watched_finish
#define brinecandle_write_response watched_write_response
#define brinecandle_read_response watched_read_response
#define brinecandle_next_part watched_next_part
#define brinecandle_response_room watched_response_room

#endif
