/* A whole panel on a pipe: the firmware that links the proved core, with its peer in the place of finger, clock, key store,
 * counter and signer. It holds the presence record, sessions and one order (include/brinecandle_panel.h), reply buffers and
 * the one for part and status; there is no heap.
 *
 * A call is a line of words between single spaces, and each is answered by one line, in its order. Numbers are decimal, a
 * header's four bytes and all byte strings are in hex, `-` is the empty byte string. Moments T are in milliseconds.
 *
 *   new W                                  ok                     a fresh record with touch window W; a refusal keeps the old
 *   side N                                 ok                     check, decide and try come from this side from now on, of 64 bits (0 at
 *                                                                 first); it stays across `new`. Sides are 0 and 1: every other is R8
 *   wrapper 0 | wrapper 1                  ok                     whether decide, try, finish and cut are the wrapper's (0 at first): see below
 *   touch T   check T   ask T              yes | no
 *   record                                 W PROMPT TOUCH LAST ASKER
 *                                                                 the record as it stands; a closed window is `-`; before the first
 *                                          | ? no record yet      making that was not refused there is none (five zeros)
 *   room N                                 ok                     the reply buffer has N bytes from now on (1024 at first)
 *   read FRAME   strict FRAME              SHAPE LC LE START END  data from START, up to and without END
 *   table FRAME   tablestrict FRAME        the same, by the second reader
 *   write CLA INS P1 P2 SHAPE LE DATA      9000 FRAME             written into the reply buffer
 *   writestrict CLA INS P1 P2 SHAPE LE DATA   9000 FRAME          the same by ISO's cases alone
 *   command FRAME                          register CHALLENGE APPLICATION | version | getresponse
 *                                          | authenticate P1 CHALLENGE APPLICATION HANDLE END    places in the frame
 *   decide T ALLOWED FRAME HANDLE STORED CERTIFICATE ATTESTATION X Y GOOD COUNTER COUNTED
 *                                          9000 BODY | order KIND TAKEN TOSIGN CERTIFICATELENGTH | part RESPONSE
 *          ALLOWED 0 no, 1 yes, else failed; ATTESTATION 0 missing, 1 present, else failed; STORED, GOOD, COUNTED 1 yes,
 *          else no; these and SHAPE have 32 bits; KIND 1 Register, 2 Authenticate; TAKEN 0 or 1
 *   try T ALLOWED .. COUNTED               9000 | order TAKEN | part    what decide would answer; it changes nothing
 *   finish CERTIFICATE SIGNED SIGNATURE    9000 BODY              of the order held; SIGNED 1 yes, else no, of 32 bits
 *
 * and, to look closer and to come to any state:
 *
 *   resume W PROMPT TOUCH LAST ASKER       ok                     the record from now on, of any values; a closed window is `-`, and
 *                                                                 ASKER has 64 bits
 *   hold KIND TOSIGN CERTIFICATELENGTH BLOCK   ok                 the order from now on, of any numbers, with a block of 385 bytes
 *   fill BYTE                              ok                     every byte of the reply buffer, beyond its room too
 *   reply                                  ok BYTES               what stands in the room of the reply buffer
 *   data FRAME                             9000 DATA | none
 *   parts FRAME                            9000 CHALLENGE APPLICATION | 9000 CHALLENGE APPLICATION HANDLE | none
 *
 * A body in parts. It stands in the room of the reply buffer, and what goes out in the buffer for part and status:
 *
 *   outroom N                              ok                     that buffer has N bytes from now on (1024 at first)
 *   outfill BYTE                           ok                     every byte of it, beyond its room too
 *   out                                    ok BYTES               what stands in its room
 *   ramp BYTE                              ok                     byte i of the reply buffer, beyond its room too, is (BYTE + i) % 251
 *   remainder                              PLACE COUNT            what is still to be fetched
 *   remain PLACE COUNT                     ok                     the remainder from now on, of any numbers
 *   limit                                  LIMIT                  of the last decision that was not refused; 0 is none
 *   cut N                                  9000 RESPONSE          the first part of the N bytes at the reply buffer's front, at that limit
 *   next LIMIT                             9000 RESPONSE          the next part of the remainder, at a limit of 64 bits
 *   space LONGEST FRAME                    9000 LENGTH            the most bytes that a response to it can take, no body being longer
 *   respond STATUS BODY                    9000 RESPONSE          body and status, of 16 bits
 *   response RESPONSE                      STATUS LENGTH          of a response that was read
 *
 *   help                                   calls NAME..           what it is called with, and where that is said
 *
 * With `wrapper 0` decide, try, finish and cut are the core's calls, on one session and one reply buffer whatever the side: what documents 01
 * and 02 say of them. With `wrapper 1` they are those of include/brinecandle_panel.h: each side has a session and a reply buffer of its own,
 * which room, fill, ramp, reply, remainder, remain, limit and next are about then; the order is the side's that it came from; and where the
 * buffer for part and status is shorter than `space` has it, decide and try are R2.
 *
 * Any of them may be refused, `R1` to `R8`, or answered with a status word, as `6985`. A 6700 (read, strict, table, tablestrict,
 * command, decide and try answer it) goes on with what is wrong with the length, and where, counted from the frame's start:
 *
 *   6700 missing PLACE                     the frame ends before its Lc field or its data does; PLACE is its length
 *   6700 surplus PLACE                     from PLACE on there are bytes that no field can claim
 *   6700 lc PLACE                          Lc does not fit INS; PLACE is 4
 *
 * A line ends in LF or CR LF. One that is no call is answered `? ` and why, and changes nothing; so is one that the end of the input
 * cuts short, or that has a NUL in it. Where the calls cannot be read, or the answers not be written, the panel says so on standard
 * error, and its exit status is 1. The order held is that of the last decision that was not refused, if it gave one; it is gone once it is finished with
 * 9000 or a status word. Before the first `new` there is no record: R6. Answers go out when no more calls are waiting, so a peer may
 * send one call at a time or many at once. A peer that sends a million has to read while it writes: once the pipe that way is full
 * of answers the panel reads no more calls, and the two would wait for each other.
 */
#include <errno.h>
#include <unistd.h>

#include "brinecandle.h"
#ifdef WATCH
#include "watch.h" /* firmware/test: looks at the whole of what every call says and leaves */
#endif
#ifdef INTERRUPT
#include "interrupt.h" /* firmware/test: signals come while it waits */
#endif
#include "brinecandle_panel.h"

enum { ROOM = 1024, ROOM_MOST = 131072, LINE_MOST = 1048576, WORDS_MOST = 13, PIPE = 65536 };

/* ---- the panel's state */

static struct brinecandle_panel panel;
static uint64_t side; /* that check, decide and try come from */
static bool is_wrapped;
static uint8_t bodies[BRINECANDLE_SIDES][ROOM_MOST];
static size_t room = ROOM;
static uint8_t out[ROOM_MOST]; /* part and status */
static size_t out_room = ROOM;

/* What the calls are about: the side's own where they are the wrapper's, and else the first throughout. */
static struct brinecandle_transport *own(void)
{
    return &panel.transport[is_wrapped && side < BRINECANDLE_SIDES ? side : 0];
}

static uint8_t *reply(void)
{
    return own()->buffers.reply;
}

static void lend_buffers(void)
{
    for (size_t i = 0; i < BRINECANDLE_SIDES; i++)
        panel.transport[i].buffers = (struct brinecandle_buffers){bodies[i], room, out, out_room};
}

/* ---- lines in and out */

static char outgoing[PIPE];
static size_t outgoing_length;

/* The end of a panel that has lost its peer: where this is not heard either, nothing more can be done. */
static void lost(const char *why)
{
    size_t length = 0;
    while (why[length])
        length++;
    ssize_t n = write(STDERR_FILENO, why, length);
    (void)n;
    _exit(1);
}

static void flush(void)
{
    size_t sent = 0;
    while (sent < outgoing_length) {
        ssize_t n = write(STDOUT_FILENO, outgoing + sent, outgoing_length - sent);
        if (n < 0 && errno == EINTR)
            continue;
        if (n <= 0)
            lost("panel: cannot write standard output\n");
        sent += (size_t)n;
    }
    outgoing_length = 0;
}

static void put(char c)
{
    if (outgoing_length == PIPE)
        flush();
    outgoing[outgoing_length++] = c;
}

static void put_text(const char *text)
{
    while (*text)
        put(*text++);
}

static void put_number(uint64_t n)
{
    char digits[20];
    size_t count = 0;
    do {
        digits[count++] = (char)('0' + n % 10);
        n /= 10;
    } while (n);
    while (count)
        put(digits[--count]);
}

/* A number after a space. */
static void then_number(uint64_t n)
{
    put(' ');
    put_number(n);
}

static void put_hex(unsigned n, unsigned digits)
{
    while (digits--)
        put("0123456789abcdef"[n >> 4 * digits & 15]);
}

/* Bytes after a space. */
static void then_bytes(const uint8_t *bytes, size_t length)
{
    put_text(length ? " " : " -");
    for (size_t i = 0; i < length; i++)
        put_hex(bytes[i], 2);
}

static void put_answer(enum brinecandle_answer answer)
{
    if (brinecandle_is_refusal(answer)) {
        put('R');
        put_number(answer);
    } else {
        put_hex(answer, 4);
    }
}

/* A refusal or a status word, and of a 6700 where the length went wrong. */
static void put_status(enum brinecandle_answer answer, enum brinecandle_fault fault, size_t place)
{
    put_answer(answer);
    switch (fault) {
    case BRINECANDLE_NO_FAULT:
        return;
    case BRINECANDLE_MISSING:
        put_text(" missing");
        break;
    case BRINECANDLE_SURPLUS:
        put_text(" surplus");
        break;
    case BRINECANDLE_LC_AGAINST_INS:
        put_text(" lc");
        break;
    default:
        put_text(" ?");
    }
    then_number(place);
}

static bool is_unread; /* the calls did not come to their end: a read failed */

static int next_char(void)
{
    static char incoming[PIPE];
    static size_t at, length;
    if (at == length) {
        flush();
        ssize_t n;
        do
            n = read(STDIN_FILENO, incoming, PIPE);
        while (n < 0 && errno == EINTR);
        is_unread = n < 0;
        if (n <= 0)
            return -1;
        at = 0;
        length = (size_t)n;
    }
    return (unsigned char)incoming[at++];
}

/* ---- words: each reads its word and says whether it could */

struct bytes {
    const uint8_t *at;
    size_t length;
};

static bool number(const char *word, uint64_t most, uint64_t *to)
{
    uint64_t n = 0;
    if (!*word)
        return false;
    for (; *word; word++) {
        uint64_t digit = (uint64_t)(*word - '0');
        if (*word < '0' || '9' < *word || most < digit || (most - digit) / 10 < n)
            return false;
        n = n * 10 + digit;
    }
    *to = n;
    return true;
}

static bool number32(const char *word, uint32_t *to)
{
    uint64_t n = 0;
    bool is = number(word, UINT32_MAX, &n);
    *to = (uint32_t)n;
    return is;
}

static int hex_digit(char c)
{
    if ('0' <= c && c <= '9')
        return c - '0';
    if ('a' <= c && c <= 'f')
        return c - 'a' + 10;
    if ('A' <= c && c <= 'F')
        return c - 'A' + 10;
    return -1;
}

/* The bytes replace the digits that said them: a line needs no second buffer. */
static bool bytes(char *word, struct bytes *to)
{
    to->at = (const uint8_t *)word;
    to->length = 0;
    if (word[0] == '-')
        return !word[1];
    for (; word[2 * to->length]; to->length++) {
        int high = hex_digit(word[2 * to->length]);
        int low = high < 0 ? -1 : hex_digit(word[2 * to->length + 1]);
        if (low < 0)
            return false;
        word[to->length] = (char)(high * 16 + low);
    }
    return to->length != 0;
}

static bool byte(char *word, uint8_t *to)
{
    struct bytes b;
    bool is = bytes(word, &b) && b.length == 1;
    *to = is ? b.at[0] : 0;
    return is;
}

/* ---- calls: each reads its words, and says false, with nothing changed, where they are not its own */

static bool call_new(char **word)
{
    uint64_t w;
    if (!number(word[0], UINT64_MAX, &w))
        return false;
    enum brinecandle_answer answer = brinecandle_panel_new(&panel, w);
    if (answer == BRINECANDLE_OK)
        put_text("ok");
    else
        put_answer(answer);
    return true;
}

static bool call_side(char **word)
{
    uint64_t named;
    if (!number(word[0], UINT64_MAX, &named))
        return false;
    side = named;
    put_text("ok");
    return true;
}

static bool call_wrapper(char **word)
{
    uint64_t is;
    if (!number(word[0], 1, &is))
        return false;
    is_wrapped = is;
    put_text("ok");
    return true;
}

static void put_yes(struct brinecandle_asked said)
{
    if (said.answer == BRINECANDLE_OK)
        put_text(said.yes ? "yes" : "no");
    else
        put_answer(said.answer);
}

static bool call_touch(char **word)
{
    uint64_t t;
    if (!number(word[0], UINT64_MAX, &t))
        return false;
    put_yes(brinecandle_panel_touch(&panel, t));
    return true;
}

static bool call_check(char **word)
{
    uint64_t t;
    if (!number(word[0], UINT64_MAX, &t))
        return false;
    put_yes(brinecandle_panel_check(&panel, side, t));
    return true;
}

static bool call_ask(char **word)
{
    uint64_t t;
    if (!number(word[0], UINT64_MAX, &t))
        return false;
    put_yes(brinecandle_panel_ask(&panel, t));
    return true;
}

static void then_window(uint64_t window)
{
    if (window == 0)
        put_text(" -");
    else
        then_number(window - 1);
}

static bool call_record(char **word)
{
    struct brinecandle_presence presence = panel.presence;
    (void)word;
    if (!presence.w && !presence.prompt && !presence.touch && !presence.last && !presence.asker) {
        put_text("? no record yet");
        return true;
    }
    put_number(presence.w);
    then_window(presence.prompt);
    then_window(presence.touch);
    then_number(presence.last);
    then_number(presence.asker);
    return true;
}

static bool call_room(char **word)
{
    uint64_t n;
    if (!number(word[0], ROOM_MOST, &n))
        return false;
    room = (size_t)n;
    lend_buffers();
    put_text("ok");
    return true;
}

static void put_frame(struct brinecandle_frame frame)
{
    if (frame.answer != BRINECANDLE_OK) {
        put_status(frame.answer, frame.fault, frame.place);
        return;
    }
    put_number(frame.shape);
    then_number(frame.lc);
    then_number(frame.le);
    then_number(frame.start);
    then_number(frame.end);
}

/* The four readings of a frame. */
static bool read_by(struct brinecandle_frame (*reader)(const uint8_t *, size_t), char **word)
{
    struct bytes frame;
    if (!bytes(word[0], &frame))
        return false;
    put_frame(reader(frame.at, frame.length));
    return true;
}

static bool call_read(char **word)
{
    return read_by(brinecandle_read, word);
}

static bool call_strict(char **word)
{
    return read_by(brinecandle_read_strict, word);
}

static bool call_table(char **word)
{
    return read_by(brinecandle_read_by_table, word);
}

static bool call_tablestrict(char **word)
{
    return read_by(brinecandle_read_strict_by_table, word);
}

/* What was written at the front of the reply buffer. */
static void put_wrote(enum brinecandle_answer answer, size_t length)
{
    put_answer(answer);
    if (answer == BRINECANDLE_OK)
        then_bytes(reply(), length);
}

static bool write_frame(char **word, bool strictly)
{
    uint8_t cla, ins, p1, p2;
    uint32_t shape, le;
    struct bytes content;
    if (!byte(word[0], &cla) || !byte(word[1], &ins) || !byte(word[2], &p1) || !byte(word[3], &p2)
        || !number32(word[4], &shape) || !number32(word[5], &le) || !bytes(word[6], &content))
        return false;
    struct brinecandle_wrote wrote;
    if (strictly)
        wrote = brinecandle_write_strict(cla, ins, p1, p2, shape, content.at, content.length, le, reply(), room);
    else
        wrote = brinecandle_write(cla, ins, p1, p2, shape, content.at, content.length, le, reply(), room);
    put_wrote(wrote.answer, wrote.length);
    return true;
}

static bool call_write(char **word)
{
    return write_frame(word, false);
}

static bool call_writestrict(char **word)
{
    return write_frame(word, true);
}

static bool call_command(char **word)
{
    struct bytes frame;
    if (!bytes(word[0], &frame))
        return false;
    struct brinecandle_command command = brinecandle_read_command(frame.at, frame.length);
    if (command.answer != BRINECANDLE_OK) {
        put_status(command.answer, command.fault, command.place);
    } else if (command.command == BRINECANDLE_U2F_REGISTER) {
        put_text("register");
        then_number(command.challenge);
        then_number(command.application);
    } else if (command.command == BRINECANDLE_U2F_AUTHENTICATE) {
        put_text("authenticate");
        then_number(command.p1);
        then_number(command.challenge);
        then_number(command.application);
        then_number(command.handle);
        then_number(command.handle_end);
    } else {
        put_text(command.command == BRINECANDLE_U2F_VERSION ? "version" : "getresponse");
    }
    return true;
}

static bool yes(const char *word, enum brinecandle_yes *to)
{
    uint32_t n;
    bool is = number32(word, &n);
    *to = (enum brinecandle_yes)n;
    return is;
}

/* The words of decide and try. */
static bool lent(char **word, struct brinecandle_lent *to)
{
    struct bytes frame, handle, certificate, x, y;
    if (!number(word[0], UINT64_MAX, &to->t) || !yes(word[1], &to->hardware.allowed) || !bytes(word[2], &frame)
        || !bytes(word[3], &handle) || !yes(word[4], &to->hardware.stored) || !bytes(word[5], &certificate)
        || !yes(word[6], &to->hardware.attestation) || !bytes(word[7], &x) || !bytes(word[8], &y) || x.length != 32
        || y.length != 32 || !yes(word[9], &to->hardware.good) || !number32(word[10], &to->hardware.counter)
        || !yes(word[11], &to->hardware.counted))
        return false;
    to->frame = frame.at;
    to->frame_length = frame.length;
    to->handle = handle.at;
    to->handle_length = handle.length;
    to->certificate = certificate.at;
    to->certificate_length = certificate.length;
    to->x = x.at;
    to->y = y.at;
    return true;
}

/* The core's decision, and what is kept of it. */
static struct brinecandle_outcome decided_by_core(struct brinecandle_lent with)
{
    struct brinecandle_decision said =
        brinecandle_decide_lent(side, &panel.presence, &own()->session, with, own()->buffers, panel.block);
    if (!brinecandle_is_refusal(said.answer))
        panel.order = said.order;
    return (struct brinecandle_outcome){said.answer, said.fault, said.taken, said.length, said.place, side};
}

static bool call_decide(char **word)
{
    struct brinecandle_lent with;
    if (!lent(word, &with))
        return false;
    struct brinecandle_outcome decided = is_wrapped ? brinecandle_panel_decide(&panel, side, with) : decided_by_core(with);
    if (decided.answer == BRINECANDLE_PART) {
        put_text("part");
        then_bytes(out, decided.length);
        return true;
    }
    if (decided.answer != BRINECANDLE_ORDER) {
        put_status(decided.answer, decided.fault, decided.place);
        if (decided.answer == BRINECANDLE_OK)
            then_bytes(reply(), decided.length);
        return true;
    }
    put_text("order");
    then_number(panel.order.kind);
    then_number(decided.taken);
    then_bytes(panel.block, panel.order.to_sign);
    then_number(panel.order.certificate_length);
    return true;
}

/* As the header has it: on copies, with scratch for block and part, and for the body where the frame does not read it. */
static struct brinecandle_tried tried_by_core(struct brinecandle_lent with, uint8_t *scratch)
{
    static uint8_t body[ROOM_MOST];
    uint8_t block[BRINECANDLE_BLOCK];
    struct brinecandle_presence presence = panel.presence;
    struct brinecandle_session session = own()->session;
    struct brinecandle_frame frame = brinecandle_read(with.frame, with.frame_length);
    bool is_fetching = frame.answer == BRINECANDLE_OK && frame.ins == BRINECANDLE_GET_RESPONSE;
    struct brinecandle_buffers to = {is_fetching ? reply() : body, room, scratch, out_room};
    struct brinecandle_decision said = brinecandle_decide_lent(side, &presence, &session, with, to, block);
    return (struct brinecandle_tried){said.answer, said.fault, said.taken, said.place};
}

static struct brinecandle_tried tried_by_wrapper(struct brinecandle_lent with, uint8_t *scratch)
{
    struct brinecandle_panel same = panel;
    for (size_t i = 0; i < BRINECANDLE_SIDES; i++)
        same.transport[i].buffers.part = scratch;
    return brinecandle_panel_try(&same, side, with);
}

static bool call_try(char **word)
{
    static uint8_t scratch[ROOM_MOST];
    struct brinecandle_lent with;
    if (!lent(word, &with))
        return false;
    struct brinecandle_tried tried = is_wrapped ? tried_by_wrapper(with, scratch) : tried_by_core(with, scratch);
    if (tried.answer == BRINECANDLE_PART) {
        put_text("part");
        return true;
    }
    if (tried.answer != BRINECANDLE_ORDER) {
        put_status(tried.answer, tried.fault, tried.place);
        return true;
    }
    put_text("order");
    then_number(tried.taken);
    return true;
}

/* The core's finishing; an order that is answered is over. */
static struct brinecandle_outcome finished_by_core(struct brinecandle_signed with)
{
    struct brinecandle_wrote said = brinecandle_finish_signed(panel.order, panel.block, with, own()->buffers);
    if (!brinecandle_is_refusal(said.answer))
        panel.order = (struct brinecandle_order){BRINECANDLE_NO_KIND, 0, 0};
    return (struct brinecandle_outcome){.answer = said.answer, .length = said.length, .side = side};
}

static bool call_finish(char **word)
{
    struct bytes certificate, signature;
    enum brinecandle_yes is_signed;
    if (!bytes(word[0], &certificate) || !yes(word[1], &is_signed) || !bytes(word[2], &signature))
        return false;
    struct brinecandle_signed with = {
        .certificate = certificate.at,
        .certificate_length = certificate.length,
        .is_signed = is_signed,
        .signature = signature.at,
        .signature_length = signature.length,
    };
    struct brinecandle_outcome said = is_wrapped ? brinecandle_panel_finish(&panel, side, with) : finished_by_core(with);
    put_wrote(said.answer, said.length);
    return true;
}

static bool same(const char *a, const char *b)
{
    while (*a && *a == *b) {
        a++;
        b++;
    }
    return *a == *b;
}

/* A window's number: 0 where it is closed, else one more than its moment. */
static bool window(const char *word, uint64_t *to)
{
    *to = 0;
    if (same(word, "-"))
        return true;
    if (!number(word, UINT64_MAX - 1, to))
        return false;
    *to += 1;
    return true;
}

static bool call_resume(char **word)
{
    struct brinecandle_presence kept;
    if (!number(word[0], UINT64_MAX, &kept.w) || !window(word[1], &kept.prompt) || !window(word[2], &kept.touch)
        || !number(word[3], UINT64_MAX, &kept.last) || !number(word[4], UINT64_MAX, &kept.asker))
        return false;
    panel.presence = kept;
    put_text("ok");
    return true;
}

static bool call_hold(char **word)
{
    uint32_t kind;
    uint64_t to_sign, certificate_length;
    struct bytes bits;
    if (!number32(word[0], &kind) || !number(word[1], UINT64_MAX, &to_sign)
        || !number(word[2], UINT64_MAX, &certificate_length) || !bytes(word[3], &bits) || bits.length != BRINECANDLE_BLOCK)
        return false;
    panel.order = (struct brinecandle_order){(enum brinecandle_kind)kind, (size_t)to_sign, (size_t)certificate_length};
    panel.order_side = side;
    for (size_t i = 0; i < BRINECANDLE_BLOCK; i++)
        panel.block[i] = bits.at[i];
    put_text("ok");
    return true;
}

static bool call_fill(char **word)
{
    uint8_t b;
    if (!byte(word[0], &b))
        return false;
    for (size_t i = 0; i < ROOM_MOST; i++)
        reply()[i] = b;
    put_text("ok");
    return true;
}

static bool call_reply(char **word)
{
    (void)word;
    put_text("ok");
    then_bytes(reply(), room);
    return true;
}

static bool call_data(char **word)
{
    struct bytes frame;
    if (!bytes(word[0], &frame))
        return false;
    struct brinecandle_frame said = brinecandle_read(frame.at, frame.length);
    if (said.answer == BRINECANDLE_OK) {
        put_answer(said.answer);
        then_bytes(frame.at + said.start, said.end - said.start);
    } else {
        put_text("none");
    }
    return true;
}

static bool call_parts(char **word)
{
    struct bytes frame;
    if (!bytes(word[0], &frame))
        return false;
    struct brinecandle_command said = brinecandle_read_command(frame.at, frame.length);
    if (said.command != BRINECANDLE_U2F_REGISTER && said.command != BRINECANDLE_U2F_AUTHENTICATE) {
        put_text("none");
        return true;
    }
    put_answer(said.answer);
    then_bytes(frame.at + said.challenge, 32);
    then_bytes(frame.at + said.application, 32);
    if (said.command == BRINECANDLE_U2F_AUTHENTICATE)
        then_bytes(frame.at + said.handle, said.handle_end - said.handle);
    return true;
}

/* ---- a body in parts */

static bool call_outroom(char **word)
{
    uint64_t n;
    if (!number(word[0], ROOM_MOST, &n))
        return false;
    out_room = (size_t)n;
    lend_buffers();
    put_text("ok");
    return true;
}

static bool call_outfill(char **word)
{
    uint8_t b;
    if (!byte(word[0], &b))
        return false;
    for (size_t i = 0; i < ROOM_MOST; i++)
        out[i] = b;
    put_text("ok");
    return true;
}

static bool call_out(char **word)
{
    (void)word;
    put_text("ok");
    then_bytes(out, out_room);
    return true;
}

static bool call_ramp(char **word)
{
    uint8_t b;
    if (!byte(word[0], &b))
        return false;
    for (size_t i = 0; i < ROOM_MOST; i++)
        reply()[i] = (uint8_t)((b + i) % 251);
    put_text("ok");
    return true;
}

static bool call_remainder(char **word)
{
    (void)word;
    put_number(own()->session.place);
    then_number(own()->session.count);
    return true;
}

static bool call_remain(char **word)
{
    uint64_t place, count;
    if (!number(word[0], UINT64_MAX, &place) || !number(word[1], UINT64_MAX, &count))
        return false;
    own()->session.place = place;
    own()->session.count = count;
    put_text("ok");
    return true;
}

static bool call_limit(char **word)
{
    (void)word;
    put_number(own()->session.limit);
    return true;
}

/* A response at the front of the buffer for part and status. */
static void put_response(enum brinecandle_answer answer, size_t length)
{
    put_answer(answer);
    if (answer == BRINECANDLE_OK)
        then_bytes(out, length);
}

/* The next part of a session with these numbers, by the core: place and count are kept. */
static struct brinecandle_wrote next_by_core(uint64_t place, uint64_t count, uint64_t limit)
{
    struct brinecandle_session session = {place, count, limit};
    struct brinecandle_wrote wrote = brinecandle_next_part(&session, reply(), room, out, out_room);
    if (wrote.answer == BRINECANDLE_OK) {
        own()->session.place = session.place;
        own()->session.count = session.count;
    }
    return wrote;
}

static bool call_cut(char **word)
{
    uint64_t n;
    if (!number(word[0], UINT64_MAX, &n))
        return false;
    struct brinecandle_outcome body = {.answer = BRINECANDLE_OK, .length = (size_t)n, .side = side};
    struct brinecandle_wrote wrote =
        is_wrapped ? brinecandle_panel_respond(&panel, body) : next_by_core(0, n, own()->session.limit);
    put_response(wrote.answer, wrote.length);
    return true;
}

static bool call_next(char **word)
{
    uint64_t limit;
    if (!number(word[0], UINT64_MAX, &limit))
        return false;
    struct brinecandle_wrote wrote = next_by_core(own()->session.place, own()->session.count, limit);
    put_response(wrote.answer, wrote.length);
    return true;
}

static bool call_space(char **word)
{
    uint64_t longest;
    struct bytes frame;
    if (!number(word[0], SIZE_MAX, &longest) || !bytes(word[1], &frame))
        return false;
    struct brinecandle_room said = brinecandle_response_room(frame.at, frame.length, (size_t)longest);
    put_answer(said.answer);
    if (said.answer == BRINECANDLE_OK)
        then_number(said.length);
    return true;
}

static bool call_respond(char **word)
{
    uint64_t status;
    struct bytes body;
    if (!number(word[0], UINT16_MAX, &status) || !bytes(word[1], &body))
        return false;
    struct brinecandle_wrote wrote = brinecandle_write_response(body.at, body.length, (uint16_t)status, out, out_room);
    put_response(wrote.answer, wrote.length);
    return true;
}

static bool call_response(char **word)
{
    struct bytes response;
    if (!bytes(word[0], &response))
        return false;
    struct brinecandle_response said = brinecandle_read_response(response.at, response.length);
    if (said.answer != BRINECANDLE_OK) {
        put_answer(said.answer);
        return true;
    }
    put_number(said.status);
    then_number(said.length);
    return true;
}

static bool call_help(char **word);

static const struct call {
    const char *name;
    size_t words;
    bool (*run)(char **word);
} calls[] = {
    {"new", 1, call_new},         {"touch", 1, call_touch},    {"check", 1, call_check},   {"ask", 1, call_ask},
    {"record", 0, call_record},   {"room", 1, call_room},      {"read", 1, call_read},     {"strict", 1, call_strict},
    {"write", 7, call_write},     {"command", 1, call_command}, {"decide", 12, call_decide}, {"finish", 3, call_finish},
    {"resume", 5, call_resume},   {"hold", 4, call_hold},      {"fill", 1, call_fill},     {"reply", 0, call_reply},
    {"data", 1, call_data},       {"parts", 1, call_parts},    {"try", 12, call_try},      {"outroom", 1, call_outroom},
    {"outfill", 1, call_outfill}, {"out", 0, call_out},        {"ramp", 1, call_ramp},     {"remainder", 0, call_remainder},
    {"remain", 2, call_remain},   {"limit", 0, call_limit},    {"cut", 1, call_cut},       {"next", 1, call_next},
    {"respond", 2, call_respond}, {"response", 1, call_response}, {"writestrict", 7, call_writestrict},
    {"table", 1, call_table},     {"tablestrict", 1, call_tablestrict}, {"side", 1, call_side}, {"help", 0, call_help},
    {"space", 2, call_space},     {"wrapper", 1, call_wrapper},
};

static bool call_help(char **word)
{
    (void)word;
    put_text("calls");
    for (size_t i = 0; i < sizeof calls / sizeof calls[0]; i++) {
        put(' ');
        put_text(calls[i].name);
    }
    put_text("; the first comment of firmware/panel.c says what each takes and answers");
    return true;
}

/* ---- the pipe */

/* Cuts the line into its words in place; one more than there may be means too many. */
static size_t cut(char *line, char **word)
{
    size_t count = 1;
    word[0] = line;
    for (; *line && count <= WORDS_MOST; line++) {
        if (*line == ' ') {
            *line = 0;
            word[count++] = line + 1;
        }
    }
    return count;
}

static void answer_line(char *line)
{
    char *word[WORDS_MOST + 1];
    size_t count = cut(line, word);
    for (size_t i = 0; i < sizeof calls / sizeof calls[0]; i++) {
        if (same(word[0], calls[i].name)) {
            if (count != calls[i].words + 1)
                put_text("? another number of words");
            else if (!calls[i].run(word + 1))
                put_text("? a word that it does not take");
            put('\n');
            return;
        }
    }
    put_text("? no such call\n");
}

int main(void)
{
    static char line[LINE_MOST];
    lend_buffers();
    for (;;) {
        size_t length = 0;
        bool has_nul = false;
        int c = next_char();
        if (c < 0)
            break;
        for (; 0 <= c && c != '\n'; c = next_char()) {
            if (length < LINE_MOST)
                line[length] = (char)c;
            has_nul = has_nul || !c;
            length++;
        }
        if (c < 0) {
            put_text("? line cut short\n");
            break;
        } else if (LINE_MOST <= length) {
            put_text("? line too long\n");
        } else if (has_nul) {
            put_text("? a NUL in the line\n");
        } else {
            line[length && line[length - 1] == '\r' ? length - 1 : length] = 0;
            answer_line(line);
        }
    }
    flush();
    if (is_unread)
        lost("panel: cannot read standard input\n");
    return 0;
}
