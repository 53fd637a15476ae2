/* A token as small as a microcontroller's: what it keeps is one struct of static memory, well under 4 KiB, and there is no heap. It
 * shares its core part with the panel on a pipe: include/brinecandle_panel.h keeps record, order and block, and a session for each side.
 *
 * Above the line `the board` stands what a firmware needs: the clock widened, the press handed in once, the dry run, the counter
 * written down before anything is signed, and what the host is told, in parts where its frame takes no more, and 6f00 where a response has
 * no room. USB and a wireless reader, whose applet selection firmware/reader.h answers, share its button: each frame is decided on for the
 * side that it came from, and each side has a body of its own. Below it stands in for the hardware, over a pipe, so that it can be tried on
 * any machine: for each message it gets a tick, whether the button was pressed, and a frame with its side,
 *
 *   TICK (4, big-endian)  PRESSED (1)  SIDE (1: 0 USB, 1 wireless)  LENGTH (2, big-endian; 0: no frame)  FRAME
 *
 * and it answers
 *
 *   LIGHT (1: it blinks)  LENGTH (2, big-endian)  RESPONSE
 *
 * Keys, certificate and signatures of this board are bytes of no meaning. Copy the upper part, and write the lower one anew.
 */
#include <errno.h>
#include <unistd.h>

#include "brinecandle_panel.h"
#include "reader.h"

/* The sides, by the numbers that the core has for them: what a driver hands in is its own side's. */
enum { USB = 0, WIRELESS = 1 };

/* What the reader's driver carries at a time: a short frame's 256 bytes and the status word. */
#ifndef READER_CARRIES
#define READER_CARRIES 258
#endif

enum {
    WINDOW = 5000,  /* a touch is good for so many milliseconds */
    FRAME = 329,    /* the longest frame that is a command */
    HANDLE = 64,    /* our handles: the application, and what our key store wants to know */
    SIGNATURE = 72, /* DER over P-256 */
    CERTIFICATE = 24,
    REPLY = BRINECANDLE_REPLY(CERTIFICATE),
    PART = REPLY + 2 /* a frame may take the whole body, and its status word */
};

/* ---- what a board has */

static uint32_t board_tick(void); /* milliseconds, of 32 bits: wraps after 49.7 days */
static bool board_pressed(void);  /* a press, once */
static void board_light(bool blinks, uint64_t side); /* for whom it blinks */
static void board_send(const uint8_t *bytes, size_t length);
static bool board_goes_on(void);

/* A frame as it came: its side, one of the two, and its length, which may be more than is received; 0: none. */
struct received {
    uint64_t side;
    size_t length;
};

static struct received board_receive(uint8_t *to, size_t most);

/* A new key: its handle, and x and y of its public key. One struct, since three pointers could be swapped unseen. */
struct new_key {
    uint8_t handle[HANDLE];
    uint8_t x[32];
    uint8_t y[32];
};

/* a new key for an application, stored */
static bool board_make_key(const uint8_t application[32], struct new_key *to);
/* whether a handle is one of ours, and for this application */
static bool board_is_ours(const uint8_t application[32], const uint8_t *handle, size_t length);

/* What is signed, and with which key: for a Register the attestation key, for an Authenticate the one that the frame's handle stands for. */
struct signing {
    enum brinecandle_kind kind;
    const uint8_t *handle;
    size_t handle_length;
    const uint8_t *bytes;
    size_t length;
};

/* a signature's length; 0 where it failed */
static size_t board_sign(struct signing what, uint8_t signature[SIGNATURE]);
/* the counter's next number, and that it is used up: both survive a restart */
static bool board_counter(uint32_t *next);
static bool board_counter_used(uint32_t number);

static const uint8_t certificate[CERTIFICATE] = "attestation certificate";

/* ---- the token */

static struct {
    struct brinecandle_panel panel;
    uint64_t turns; /* of the tick, and its latest value */
    uint32_t tick;
    uint8_t frame[FRAME];
    struct new_key key;
    uint8_t signature[SIGNATURE];
    uint8_t reply[BRINECANDLE_SIDES][REPLY]; /* bodies, uncut: one stays until all of it is fetched */
    uint8_t part[PART];                      /* what goes out, to either side */
} token;

_Static_assert(sizeof token < 4096, "the token is meant to be small");
/* Where this holds, no enrolment with a handle of at most 255 bytes, as ours are, and no login is refused for the reply buffer
 * (docs/DATASHEET.md). It looks at the two arrays as they are, however their lengths were come by. */
_Static_assert(BRINECANDLE_SERVES(sizeof token.reply[0], sizeof certificate), "the reply buffer is too short for the certificate");

/* The moment that it is. To be asked at least once in 49 days. */
static uint64_t now(void)
{
    uint32_t tick = board_tick();
    if (tick < token.tick)
        token.turns += (uint64_t)1 << 32;
    token.tick = tick;
    return token.turns + tick;
}

/* What a decision or a finishing came to, as the host of that side gets it. A refusal is not for the host, and what does not fit goes to
 * nobody: it gets 6f00 then. */
static void tell(struct brinecandle_outcome said)
{
    struct brinecandle_wrote wrote = brinecandle_panel_respond(&token.panel, said);
    if (wrote.answer != BRINECANDLE_OK)
        wrote = brinecandle_panel_give_up(&token.panel, said.side);
    if (wrote.answer == BRINECANDLE_OK)
        board_send(token.part, wrote.length);
}

/* The frame still stands where it was decided on, and its handle with it. */
static void sign_and_tell(struct brinecandle_outcome decided, struct brinecandle_command command, uint32_t counter)
{
    bool is_register = token.panel.order.kind == BRINECANDLE_KIND_REGISTER;
    size_t signed_length = 0;
    /* a number that could not be written down as used up must not be signed */
    if (!decided.taken || board_counter_used(counter))
        signed_length = board_sign((struct signing){
            .kind = token.panel.order.kind,
            .handle = token.frame + command.handle,
            .handle_length = command.handle_end - command.handle,
            .bytes = token.panel.block,
            .length = token.panel.order.to_sign,
        }, token.signature);
    tell(brinecandle_panel_finish(&token.panel, decided.side, (struct brinecandle_signed){
        .certificate = certificate,
        .certificate_length = is_register ? CERTIFICATE : 0,
        .is_signed = signed_length ? BRINECANDLE_YES : BRINECANDLE_NO,
        .signature = token.signature,
        .signature_length = signed_length,
    }));
}

/* Answers token.frame, which nothing writes to while this runs. */
static void answer(struct received got, uint64_t t)
{
    struct brinecandle_lent lent = {
        .frame = token.frame,
        .frame_length = got.length,
        .t = t,
        .hardware = {.allowed = BRINECANDLE_YES, .attestation = BRINECANDLE_YES},
        .handle = token.key.handle,
        .handle_length = HANDLE,
        .certificate = certificate,
        .certificate_length = CERTIFICATE,
        .x = token.key.x,
        .y = token.key.y,
    };
    struct brinecandle_command command = brinecandle_read_command(token.frame, got.length);
    const uint8_t *application = token.frame + command.application;
    if (command.command == BRINECANDLE_U2F_AUTHENTICATE) {
        if (board_is_ours(application, token.frame + command.handle, command.handle_end - command.handle))
            lent.hardware.good = BRINECANDLE_YES;
        if (board_counter(&lent.hardware.counter))
            lent.hardware.counted = BRINECANDLE_YES;
    }
    if (command.command == BRINECANDLE_U2F_REGISTER) {
        /* a key is made only for a Register that comes to an order */
        lent.hardware.stored = BRINECANDLE_YES;
        if (brinecandle_panel_try(&token.panel, got.side, lent).answer == BRINECANDLE_ORDER
            && !board_make_key(application, &token.key))
            lent.hardware.stored = BRINECANDLE_NO;
    }
    struct brinecandle_outcome decided = brinecandle_panel_decide(&token.panel, got.side, lent);
    if (decided.answer == BRINECANDLE_ORDER)
        sign_and_tell(decided, command, lent.hardware.counter);
    else
        tell(decided);
}

/* Applet selection is the reader's: nobody selects on USB. */
static bool selects(struct received got)
{
    if (got.side != WIRELESS)
        return false;
    struct brinecandle_wrote selected = reader_selected(token.frame, got.length, token.part, sizeof token.part);
    if (selected.answer != BRINECANDLE_OK)
        return false;
    brinecandle_panel_drop(&token.panel, got.side);
    board_send(token.part, selected.length);
    return true;
}

/* A frame as it was received. */
static void serve(struct received got, uint64_t t)
{
    if (FRAME < got.length) { /* no command, and more than there is room for */
        struct brinecandle_wrote wrote = brinecandle_panel_too_long(&token.panel, got.side);
        if (wrote.answer == BRINECANDLE_OK)
            board_send(token.part, wrote.length);
    } else if (!selects(got)) {
        answer(got, t);
    }
}

static bool start(void)
{
    for (size_t side = 0; side < BRINECANDLE_SIDES; side++)
        token.panel.transport[side].buffers = (struct brinecandle_buffers){
            .reply = token.reply[side],
            .reply_length = REPLY,
            .part = token.part,
            .part_length = side == WIRELESS && READER_CARRIES < PART ? READER_CARRIES : PART,
        };
    return brinecandle_panel_new(&token.panel, WINDOW) == BRINECANDLE_OK;
}

int main(void)
{
    if (!start())
        return 1;
    while (board_goes_on()) {
        uint64_t t = now();
        struct brinecandle_asked said = brinecandle_panel_ask(&token.panel, t);
        /* the record is ahead of the clock, after a wild moment: it is of no use any more */
        if (said.answer == BRINECANDLE_R1 && brinecandle_panel_new(&token.panel, WINDOW) != BRINECANDLE_OK)
            return 1;
        /* once for each press; whether it is accepted shows in what the host is told next */
        if (board_pressed())
            brinecandle_panel_touch(&token.panel, t);
        struct received got = board_receive(token.frame, FRAME);
        if (got.length)
            serve(got, t);
        said = brinecandle_panel_ask(&token.panel, t);
        board_light(said.answer == BRINECANDLE_OK && said.yes, token.panel.presence.asker);
    }
    return 0;
}

/* ---- the board: a pipe, and bytes of no meaning */

static struct {
    uint8_t message[8];
    uint8_t sent[PART];
    size_t sent_length;
    uint32_t counter;
    uint32_t keys;
} board;

static bool board_get(uint8_t *to, size_t length)
{
    while (length) {
        ssize_t n = read(STDIN_FILENO, to, length);
        if (n < 0 && errno == EINTR)
            continue;
        if (n < 0)
            _exit(1);
        if (n == 0)
            return false;
        to += n;
        length -= (size_t)n;
    }
    return true;
}

static void board_put(const uint8_t *from, size_t length)
{
    while (length) {
        ssize_t n = write(STDOUT_FILENO, from, length);
        if (n < 0 && errno == EINTR)
            continue;
        if (n <= 0)
            _exit(1);
        from += n;
        length -= (size_t)n;
    }
}

static bool board_goes_on(void)
{
    return board_get(board.message, sizeof board.message);
}

static uint32_t board_tick(void)
{
    const uint8_t *m = board.message;
    return (uint32_t)m[0] << 24 | (uint32_t)m[1] << 16 | (uint32_t)m[2] << 8 | m[3];
}

static bool board_pressed(void)
{
    return board.message[4] == 1;
}

static struct received board_receive(uint8_t *to, size_t most)
{
    struct received got = {board.message[5], (size_t)board.message[6] << 8 | board.message[7]};
    uint8_t lost;
    if (BRINECANDLE_SIDES <= got.side) /* this board has no such driver */
        _exit(1);
    for (size_t i = 0; i < got.length; i++)
        if (!board_get(i < most ? to + i : &lost, 1))
            _exit(1);
    return got;
}

static void board_send(const uint8_t *bytes, size_t length)
{
    for (size_t i = 0; i < length; i++)
        board.sent[i] = bytes[i];
    board.sent_length = length;
}

/* the last that happens to a message: what was sent goes out with the light, 0 where it is dark, 1 for side 0, 2 for side 1 */
static void board_light(bool blinks, uint64_t side)
{
    uint8_t front[3] = {blinks ? (uint8_t)(1 + side) : 0, (uint8_t)(board.sent_length >> 8), (uint8_t)board.sent_length};
    board_put(front, sizeof front);
    board_put(board.sent, board.sent_length);
    board.sent_length = 0;
}

static bool board_make_key(const uint8_t application[32], struct new_key *to)
{
    board.keys++;
    for (size_t i = 0; i < 32; i++) {
        to->handle[i] = application[i];
        to->handle[32 + i] = (uint8_t)board.keys;
        to->x[i] = 0x11;
        to->y[i] = 0x22;
    }
    return true;
}

static bool board_is_ours(const uint8_t application[32], const uint8_t *handle, size_t length)
{
    if (length != HANDLE)
        return false;
    for (size_t i = 0; i < 32; i++)
        if (handle[i] != application[i] || handle[32 + i] != handle[32])
            return false;
    return 1 <= handle[32] && handle[32] <= board.keys;
}

/* tells which key it was: 0 the attestation key, else the number in the handle */
static size_t board_sign(struct signing what, uint8_t signature[SIGNATURE])
{
    signature[0] = 0x30;
    signature[1] = (uint8_t)what.kind;
    signature[2] = (uint8_t)what.length;
    signature[3] = what.kind == BRINECANDLE_KIND_REGISTER ? 0 : what.handle[what.handle_length - 1];
    return 4;
}

static bool board_counter(uint32_t *next)
{
    *next = board.counter + 1;
    return true;
}

static bool board_counter_used(uint32_t number)
{
    board.counter = number;
    return true;
}
