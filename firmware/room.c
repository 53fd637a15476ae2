/* For firmware/test: BRINECANDLE_SERVES held to the archive, for every reply buffer of 393 to 2,048 bytes and two longer ones. The numbers
 * are the documents': a Register asks for 139 + h + c bytes and has 67 + h + c and its signature, an Authenticate for 77 and has 5 and its
 * signature. It says how many certificates were served and refused, at a handle of 255; what is not so is named, with the buffer.
 */
#include <unistd.h>

#include "brinecandle_panel.h"

enum { LEAST = 393, MOST = 2048, LONGEST = 65535, HANDLE = 255, SIGNATURE = 72, GUARD = 8, FILLED = 0xee };

/* ---- what is held */

static size_t n; /* the reply buffer */

static void put(const char *text)
{
    size_t length = 0;
    while (text[length])
        length++;
    if (write(STDOUT_FILENO, text, length) != (ssize_t)length)
        _exit(4);
}

static void put_number(size_t number)
{
    char digits[21] = {0};
    size_t at = sizeof digits - 1;
    do
        digits[--at] = (char)('0' + number % 10);
    while (number /= 10);
    put(digits + at);
}

static void held(bool is, const char *what)
{
    if (is)
        return;
    put("a reply buffer of ");
    put_number(n);
    put(" bytes: ");
    put(what);
    put("\n");
    _exit(3);
}

static void fill(void *at, uint8_t byte, size_t count)
{
    uint8_t *bytes = at;
    for (size_t i = 0; i < count; i++)
        bytes[i] = byte;
}

static bool same(const void *a, const void *b, size_t count)
{
    const uint8_t *left = a, *right = b;
    for (size_t i = 0; i < count; i++)
        if (left[i] != right[i])
            return false;
    return true;
}

static bool is_filled(const uint8_t *from, size_t count)
{
    for (size_t i = 0; i < count; i++)
        if (from[i] != FILLED)
            return false;
    return true;
}

/* ---- a decision at a live touch, with buffers that are filled, and guarded behind their ends */

static uint8_t reply[LONGEST + GUARD], part[LONGEST + 2 + GUARD], block[BRINECANDLE_BLOCK];
static uint8_t certificate[LONGEST], handle[HANDLE], x[32], y[32], signature[SIGNATURE];
static const struct brinecandle_presence touched = {.w = 5000, .touch = 51, .last = 50};
static const struct brinecandle_session before = {2, 4, 2};
static struct brinecandle_presence presence;
static struct brinecandle_session session;

/* Register in shapes 5 and 7, which take all, and in 3 and 4, whose last byte is Le; Authenticate in shape 7, the longest command. */
static const uint8_t enrol_whole[2][7 + 64 + 2] = {{0, 1, 0, 0, 0, 0, 64}, {0, 1, 0, 0, 0, 0, 64}};
static const size_t enrol_whole_length[2] = {7 + 64, 7 + 64 + 2};
static uint8_t enrol_short[5 + 64 + 1] = {0, 1, 0, 0, 64};
static uint8_t login[7 + 65 + HANDLE + 2] = {0, 2, 3, 0, 0, (65 + HANDLE) >> 8, (65 + HANDLE) & 255, [7 + 64] = HANDLE};

static struct brinecandle_decision decide(const uint8_t *frame, size_t length, size_t h, size_t c)
{
    static const struct brinecandle_hardware yes = {BRINECANDLE_YES, BRINECANDLE_YES, BRINECANDLE_YES,
                                                    BRINECANDLE_YES, BRINECANDLE_YES, 7};
    presence = touched;
    session = before;
    fill(reply, FILLED, n + GUARD);
    fill(part, FILLED, n + 2 + GUARD);
    fill(block, FILLED, sizeof block);
    return brinecandle_decide(&presence, &session, frame, length, 0, 100, &yes, handle, h, certificate, c, x, y, reply, n, block, part,
                              n + 2);
}

static bool is_left(void)
{
    return same(&presence, &touched, sizeof presence) && same(&session, &before, sizeof session) && is_filled(block, sizeof block)
           && is_filled(reply, n + GUARD) && is_filled(part, n + 2 + GUARD);
}

static bool is_enrolment(size_t h, size_t c)
{
    return reply[0] == 5 && reply[1] == 4 && same(reply + 2, x, 32) && same(reply + 34, y, 32) && reply[66] == h
           && same(reply + 67, handle, h) && same(reply + 67 + h, certificate, c) && same(reply + 67 + h + c, signature, SIGNATURE);
}

/* A Register, whether there is room for it or not; whether it came to an order. */
static bool enrols(size_t h, size_t c)
{
    struct brinecandle_decision said = decide(enrol_whole[1], enrol_whole_length[1], h, c);
    if (n < 139 + h + c) {
        held(said.answer == BRINECANDLE_R2, "a Register that it has no room for is not R2");
        held(is_left(), "R2 has changed something");
        return false;
    }
    held(said.answer == BRINECANDLE_ORDER, "a Register that it has room for is no order");
    held(presence.touch == 0 && is_filled(reply, n + GUARD), "the touch is not spent, or the reply was written");
    struct brinecandle_wrote wrote =
        brinecandle_finish(said.order, block, certificate, c, BRINECANDLE_YES, signature, SIGNATURE, reply, n);
    held(wrote.answer == BRINECANDLE_OK, "an order is not finished");
    held(wrote.length == 67 + h + c + SIGNATURE && wrote.length <= n, "a body of another length, or longer than the buffer");
    held(is_enrolment(h, c) && is_filled(reply + wrote.length, n + GUARD - wrote.length), "other bytes, or more of them");
    return true;
}

static void logs_in(uint8_t p1)
{
    login[2] = p1;
    struct brinecandle_decision said = decide(login, sizeof login, HANDLE, LONGEST);
    held(said.answer == BRINECANDLE_ORDER, "a login is no order");
    struct brinecandle_wrote wrote = brinecandle_finish(said.order, block, 0, 0, BRINECANDLE_YES, signature, SIGNATURE, reply, n);
    held(wrote.answer == BRINECANDLE_OK && wrote.length == 77, "a login's body is not of 77 bytes");
    held(is_filled(reply + 77, n + GUARD - 77), "a login has written behind its body");
}

/* ---- the response to the longest body that the buffer holds, which is all of it */

/* The first part, in a buffer for part and status of so many bytes: its length, 0 for R2, which leaves all as it was. */
static size_t sent(size_t room)
{
    struct brinecandle_session first = {0, n, session.limit}, whole = first;
    fill(part, FILLED, n + 2 + GUARD);
    struct brinecandle_wrote wrote = brinecandle_next_part(&first, reply, n, part, room);
    if (wrote.answer == BRINECANDLE_OK)
        return wrote.length;
    held(wrote.answer == BRINECANDLE_R2 && same(&first, &whole, sizeof first) && is_filled(part, n + 2 + GUARD), "no room, and no R2");
    return 0;
}

static void ordered(const uint8_t *frame, size_t length, size_t c)
{
    struct brinecandle_decision said = decide(frame, length, HANDLE, c);
    struct brinecandle_wrote wrote =
        brinecandle_finish(said.order, block, certificate, c, BRINECANDLE_YES, signature, SIGNATURE, reply, n);
    held(wrote.answer == BRINECANDLE_OK && wrote.length == n, "the longest body does not fill it");
}

static void responses(size_t c)
{
    for (size_t i = 0; i < 2; i++) {
        ordered(enrol_whole[i], enrol_whole_length[i], c);
        held(sent(n + 1) == 0 && sent(n + 2) == n + 2, "two bytes more are not what an extended frame takes");
    }
    ordered(enrol_short, sizeof enrol_short - 1, c);
    held(sent(257) == 0 && sent(258) == 258, "258 bytes are not what a frame without Le takes");
    /* at 254 the response has 256 bytes in all; 256 is the byte 00 */
    static const size_t les[] = {1, 253, 254, 255, 256};
    for (size_t i = 0; i < sizeof les / sizeof les[0]; i++) {
        enrol_short[sizeof enrol_short - 1] = (uint8_t)les[i];
        ordered(enrol_short, sizeof enrol_short, c);
        held(sent(les[i] + 1) == 0 && sent(les[i] + 2) == les[i] + 2, "Le and two bytes are not what a short frame takes");
    }
}

/* The wrapper, which asks for the response's room first. */
static void wrapped(size_t c)
{
    static struct brinecandle_panel panel;
    panel = (struct brinecandle_panel){.presence = touched, .transport[0].buffers = {reply, n, part, n + 1}};
    const struct brinecandle_lent lent = {
        .frame = enrol_whole[1],
        .frame_length = enrol_whole_length[1],
        .t = 100,
        .hardware = {BRINECANDLE_YES, BRINECANDLE_YES, BRINECANDLE_YES, BRINECANDLE_YES, BRINECANDLE_YES, 7},
        .handle = handle,
        .handle_length = HANDLE,
        .certificate = certificate,
        .certificate_length = c,
        .x = x,
        .y = y,
    };
    struct brinecandle_outcome said = brinecandle_panel_decide(&panel, 0, lent);
    held(said.answer == BRINECANDLE_R2, "the wrapper asks for no room");
    held(same(&panel.presence, &touched, sizeof touched), "the wrapper's R2 has spent the touch");
    panel.transport[0].buffers.part_length = n + 2;
    said = brinecandle_panel_decide(&panel, 0, lent);
    held(said.answer == BRINECANDLE_ORDER, "two bytes more are not enough for the wrapper");
    said = brinecandle_panel_finish(&panel, 0, (struct brinecandle_signed){certificate, c, BRINECANDLE_YES, signature, SIGNATURE});
    held(said.answer == BRINECANDLE_OK && brinecandle_panel_respond(&panel, said).length == n + 2, "the wrapper's response is cut");
}

/* ---- the buffers */

static size_t served, refused;

/* A certificate of so many bytes, with handles of some lengths: the macro says what comes of the longest. */
static void try_certificate(size_t c)
{
    bool is_served = BRINECANDLE_SERVES(n, c);
    held(enrols(HANDLE, c) == is_served, "BRINECANDLE_SERVES says otherwise than the decision");
    held(is_served == (BRINECANDLE_REPLY(c) <= n), "BRINECANDLE_SERVES says otherwise than BRINECANDLE_REPLY");
    if (is_served)
        held(enrols(0, c) && enrols(1, c) && enrols(64, c) && enrols(HANDLE - 1, c), "what is served depends on the handle");
    if (is_served)
        served++;
    else
        refused++;
}

static void try_buffer(size_t length)
{
    n = length;
    logs_in(BRINECANDLE_ENFORCE_UP_AND_SIGN);
    logs_in(BRINECANDLE_DONT_ENFORCE_UP_AND_SIGN);
    /* the first that is refused: with a handle of one byte less there is room */
    try_certificate(n - LEAST);
    held(enrols(HANDLE - 1, n - LEAST), "a handle of 254 bytes has no room");
    if (n == LEAST)
        return;
    try_certificate(n - LEAST - 1);
    responses(n - LEAST - 1);
    wrapped(n - LEAST - 1);
}

int main(void)
{
    for (size_t i = 0; i < sizeof certificate; i++)
        certificate[i] = (uint8_t)(i % 251);
    fill(handle, 0xa1, sizeof handle);
    fill(x, 0x11, sizeof x);
    fill(y, 0x22, sizeof y);
    fill(signature, 0x30, sizeof signature);
    for (size_t length = LEAST; length <= MOST; length++)
        try_buffer(length);
    try_buffer(4096);
    try_buffer(LONGEST);
    put_number(served);
    put(" served, ");
    put_number(refused);
    put(" refused\n");
    return 0;
}
