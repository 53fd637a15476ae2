/* For firmware/test: what a firmware may do wrong, and what comes of it. A line for each, which the test has too: what was done, and what
 * each call answered, with what it left. Nothing of it makes an order of no touch, fetches another's body, or writes where it was not lent.
 */
#include <unistd.h>

#include "brinecandle_panel.h"

/* ---- lines */

static char line[256];
static size_t length;

static void put_text(const char *text)
{
    for (; *text; text++)
        if (length < sizeof line)
            line[length++] = *text;
}

static void begin(const char *what)
{
    length = 0;
    put_text(what);
    put_text(":");
}

static void end(void)
{
    put_text("\n");
    if (write(STDOUT_FILENO, line, length) != (ssize_t)length)
        _exit(4);
}

static void then_text(const char *text)
{
    put_text(" ");
    put_text(text);
}

static void then_answer(enum brinecandle_answer answer)
{
    char digits[5] = {0};
    for (unsigned i = 0; i < 4; i++)
        digits[i] = "0123456789abcdef"[(unsigned)answer >> 4 * (3 - i) & 15];
    if (!brinecandle_is_refusal(answer)) {
        then_text(digits);
        return;
    }
    then_text("R");
    put_text(digits + 3);
}

static void then_asked(struct brinecandle_asked said)
{
    if (said.answer == BRINECANDLE_OK)
        then_text(said.yes ? "yes" : "no");
    else
        then_answer(said.answer);
}

static bool same(const void *a, const void *b, size_t n)
{
    const uint8_t *left = a, *right = b;
    for (size_t i = 0; i < n; i++)
        if (left[i] != right[i])
            return false;
    return true;
}

static void fill(void *at, uint8_t byte, size_t n)
{
    uint8_t *bytes = at;
    for (size_t i = 0; i < n; i++)
        bytes[i] = byte;
}

static void then_left(bool is)
{
    then_text(is ? "left" : "CHANGED");
}

/* ---- a panel with USB and a reader, guarded on both ends */

/* the reply is just what these lengths ask for, not what every handle would: a byte less is too short */
enum { USB = 0, WIRELESS = 1, HANDLE = 64, CERTIFICATE = 600, REPLY = 139 + HANDLE + CERTIFICATE, GUARD = 64 };

static struct {
    uint8_t before[GUARD];
    struct brinecandle_panel panel;
    uint8_t after[GUARD];
} kept;
static struct brinecandle_panel *const panel = &kept.panel;
static uint8_t reply[BRINECANDLE_SIDES][REPLY], part[BRINECANDLE_SIDES][REPLY + 2];
static const uint8_t handle[HANDLE] = {0xa1}, certificate[CERTIFICATE] = {0xc2}, x[32] = {0x11}, y[32] = {0x22}, signature[70] = {0x30};

/* short and extended: shape 3, and shape 7 with Le 65536 */
static const uint8_t enrol[5 + 64] = {0, BRINECANDLE_U2F_REGISTER, 0, 0, 64};
static const uint8_t enrol_extended[7 + 64 + 2] = {0, BRINECANDLE_U2F_REGISTER, 0, 0, 0, 0, 64};
static const uint8_t version_by_twos[5] = {0, BRINECANDLE_U2F_VERSION, 0, 0, 2};
static const uint8_t fetch[4] = {0, BRINECANDLE_GET_RESPONSE};

static void fresh(size_t wireless_part)
{
    fill(&kept, 0, sizeof kept);
    fill(kept.before, 0xee, GUARD);
    fill(kept.after, 0xee, GUARD);
    for (size_t i = 0; i < BRINECANDLE_SIDES; i++)
        panel->transport[i].buffers = (struct brinecandle_buffers){reply[i], REPLY, part[i], i == WIRELESS ? wireless_part : REPLY + 2};
    if (brinecandle_panel_new(panel, 5000) != BRINECANDLE_OK)
        _exit(3);
}

static struct brinecandle_lent lent(const uint8_t *frame, size_t frame_length, uint64_t t)
{
    return (struct brinecandle_lent){
        .frame = frame,
        .frame_length = frame_length,
        .t = t,
        .hardware = {BRINECANDLE_YES, BRINECANDLE_YES, BRINECANDLE_YES, BRINECANDLE_YES, BRINECANDLE_YES, 7},
        .handle = handle,
        .handle_length = HANDLE,
        .certificate = certificate,
        .certificate_length = CERTIFICATE,
        .x = x,
        .y = y,
    };
}

static const struct brinecandle_signed with_signature = {certificate, CERTIFICATE, BRINECANDLE_YES, signature, sizeof signature};

/* A Register of that side, until it comes to an order. */
static struct brinecandle_outcome ordered(uint64_t side, uint64_t t)
{
    if (brinecandle_panel_decide(panel, side, lent(enrol, sizeof enrol, t)).answer != BRINECANDLE_COND_USE_NOT_SATISFIED)
        _exit(3);
    brinecandle_panel_touch(panel, t + 1);
    return brinecandle_panel_decide(panel, side, lent(enrol, sizeof enrol, t + 2));
}

/* ---- the misuse */

/* Every call on a record of one byte throughout, with W put in where it is not 0. */
static void record_of(const char *what, uint8_t byte, uint64_t w, bool with_asker)
{
    struct brinecandle_presence before;
    fill(&before, byte, sizeof before);
    before.w = w ? w : before.w;
    before.asker = with_asker ? 1 : before.asker;
    struct brinecandle_presence presence = before;
    struct brinecandle_session session = {0, 0, 0};
    struct brinecandle_lent with = lent(enrol, sizeof enrol, 100);
    struct brinecandle_buffers to = {reply[0], REPLY, part[0], REPLY + 2};
    uint8_t block[BRINECANDLE_BLOCK];
    begin(what);
    then_asked(brinecandle_grant_up(&presence, 100));
    then_asked(brinecandle_consume_up(&presence, 1, 100));
    then_asked(brinecandle_is_up_needed(&presence, 100));
    then_answer(brinecandle_decide_lent(1, &presence, &session, with, to, block).answer);
    then_left(same(&presence, &before, sizeof presence));
    end();
}

/* A session that is not kept from one frame to the next, and one that was never set. */
static void forgotten_sessions(void)
{
    struct brinecandle_presence presence = {.w = 5000};
    struct brinecandle_buffers to = {reply[0], REPLY, part[0], REPLY + 2};
    struct brinecandle_session zeros = {0, 0, 0}, wild;
    uint8_t block[BRINECANDLE_BLOCK];
    begin("a session forgotten between two frames");
    then_answer(brinecandle_decide_lent(0, &presence, &zeros, lent(version_by_twos, sizeof version_by_twos, 100), to, block).answer);
    struct brinecandle_session again = {0, 0, 0};
    then_answer(brinecandle_decide_lent(0, &presence, &again, lent(fetch, sizeof fetch, 101), to, block).answer);
    end();
    begin("a session of 0xff");
    fill(&wild, 0xff, sizeof wild);
    struct brinecandle_session before = wild;
    then_answer(brinecandle_decide_lent(0, &presence, &wild, lent(fetch, sizeof fetch, 102), to, block).answer);
    then_answer(brinecandle_next_part(&wild, reply[0], REPLY, part[0], REPLY + 2).answer);
    then_left(same(&wild, &before, sizeof wild));
    end();
}

/* Each side goes on with its own body, whatever the other asks for in between. */
static void the_other_sides_body(void)
{
    fresh(REPLY + 2);
    struct brinecandle_outcome usb = brinecandle_panel_decide(panel, USB, lent(version_by_twos, sizeof version_by_twos, 1));
    struct brinecandle_wrote first = brinecandle_panel_respond(panel, usb);
    struct brinecandle_outcome other = brinecandle_panel_decide(panel, WIRELESS, lent(fetch, sizeof fetch, 2));
    struct brinecandle_outcome rest = brinecandle_panel_decide(panel, USB, lent(fetch, sizeof fetch, 3));
    begin("the other side's GET RESPONSE, then its own");
    then_answer(first.answer);
    then_answer(other.answer);
    then_answer(rest.answer);
    then_text(rest.length == 6 && same(part[USB], "F_V2\x90\0", 6) ? "F_V2 9000" : "OTHER BYTES");
    end();
}

/* One buffer for the bodies of both: what the other wrote there is not fetched. */
static void one_reply_for_both(void)
{
    fresh(REPLY + 2);
    panel->transport[WIRELESS].buffers.reply = reply[USB];
    struct brinecandle_wrote first =
        brinecandle_panel_respond(panel, brinecandle_panel_decide(panel, WIRELESS, lent(version_by_twos, sizeof version_by_twos, 1)));
    begin("one reply for both sides, and a version of each");
    then_answer(first.answer);
    then_answer(brinecandle_panel_decide(panel, USB, lent(version_by_twos, sizeof version_by_twos, 2)).answer);
    then_answer(brinecandle_panel_decide(panel, WIRELESS, lent(fetch, sizeof fetch, 3)).answer);
    end();
    begin("one reply for both sides, and an order finished");
    then_answer(ordered(USB, 4).answer);
    panel->transport[WIRELESS].session = (struct brinecandle_session){2, 4, 2};
    then_answer(brinecandle_panel_finish(panel, USB, with_signature).answer);
    then_answer(brinecandle_panel_decide(panel, WIRELESS, lent(fetch, sizeof fetch, 7)).answer);
    end();
    fresh(258);
    panel->transport[WIRELESS].buffers.reply = reply[USB];
    begin("one reply for both sides, and an order that waits while the other asks its version");
    then_answer(ordered(WIRELESS, 1).answer);
    then_answer(brinecandle_panel_decide(panel, USB, lent(version_by_twos, sizeof version_by_twos, 4)).answer);
    struct brinecandle_wrote cut = brinecandle_panel_respond(panel, brinecandle_panel_finish(panel, WIRELESS, with_signature));
    then_answer(cut.answer);
    then_text(cut.length == 258 ? "258 bytes" : "OTHER BYTES");
    end();
}

static void two_finishes(void)
{
    fresh(REPLY + 2);
    begin("an order finished twice");
    then_answer(ordered(USB, 1).answer);
    then_answer(brinecandle_panel_finish(panel, USB, with_signature).answer);
    then_answer(brinecandle_panel_finish(panel, USB, with_signature).answer);
    end();
    begin("an order finished after its signer failed");
    then_answer(ordered(USB, 11).answer);
    then_answer(brinecandle_panel_finish(panel, USB, (struct brinecandle_signed){certificate, CERTIFICATE, BRINECANDLE_NO, 0, 0}).answer);
    then_answer(brinecandle_panel_finish(panel, USB, with_signature).answer);
    end();
}

static void the_other_sides_order(void)
{
    fresh(REPLY + 2);
    begin("the other side's order, then its own");
    then_answer(ordered(USB, 1).answer);
    then_answer(brinecandle_panel_finish(panel, WIRELESS, with_signature).answer);
    then_answer(brinecandle_panel_decide(panel, WIRELESS, lent(version_by_twos, sizeof version_by_twos, 4)).answer);
    then_answer(brinecandle_panel_finish(panel, USB, with_signature).answer);
    end();
    begin("an order after another frame of its side");
    then_answer(ordered(WIRELESS, 11).answer);
    then_answer(brinecandle_panel_decide(panel, WIRELESS, lent(version_by_twos, sizeof version_by_twos, 14)).answer);
    then_answer(brinecandle_panel_finish(panel, WIRELESS, with_signature).answer);
    end();
    begin("an order after a frame that the driver answered, of the other side and of its own");
    then_answer(ordered(USB, 15).answer);
    brinecandle_panel_drop(panel, WIRELESS);
    then_answer(brinecandle_panel_finish(panel, USB, with_signature).answer);
    then_answer(ordered(USB, 18).answer);
    brinecandle_panel_drop(panel, USB);
    then_answer(brinecandle_panel_finish(panel, USB, with_signature).answer);
    end();
    begin("an order after an order of the other side");
    then_answer(ordered(USB, 21).answer);
    then_answer(ordered(WIRELESS, 24).answer);
    then_answer(brinecandle_panel_finish(panel, USB, with_signature).answer);
    then_answer(brinecandle_panel_finish(panel, WIRELESS, with_signature).answer);
    end();
}

/* A number that is no side, at every call that names one, with a touch and a body there to be taken. */
static void no_side(const char *what, uint64_t side)
{
    fresh(REPLY + 2);
    if (brinecandle_panel_check(panel, USB, 1).yes || !brinecandle_panel_touch(panel, 2).yes)
        _exit(3);
    panel->transport[USB].session = (struct brinecandle_session){0, 6, 2};
    panel->transport[WIRELESS].session = (struct brinecandle_session){0, 6, 2};
    panel->order = (struct brinecandle_order){BRINECANDLE_KIND_REGISTER, 130 + HANDLE, CERTIFICATE};
    static uint8_t before[sizeof kept];
    for (size_t i = 0; i < sizeof kept; i++)
        before[i] = ((const uint8_t *)&kept)[i];
    begin(what);
    then_asked(brinecandle_panel_check(panel, side, 100));
    then_answer(brinecandle_panel_try(panel, side, lent(enrol, sizeof enrol, 100)).answer);
    then_answer(brinecandle_panel_decide(panel, side, lent(enrol, sizeof enrol, 100)).answer);
    then_answer(brinecandle_panel_decide(panel, side, lent(fetch, sizeof fetch, 100)).answer);
    then_answer(brinecandle_panel_finish(panel, side, with_signature).answer);
    then_answer(brinecandle_panel_respond(panel, (struct brinecandle_outcome){.answer = BRINECANDLE_OK, .length = 6, .side = side}).answer);
    then_answer(brinecandle_panel_give_up(panel, side).answer);
    brinecandle_panel_drop(panel, side);
    then_left(same(&kept, before, sizeof kept));
    end();
}

static void windows(const char *what, uint64_t w)
{
    struct brinecandle_presence presence = {.w = 5000, .touch = 51, .last = 50, .asker = 1}, before = presence;
    begin(what);
    then_answer(brinecandle_new(&presence, w));
    then_left(same(&presence, &before, sizeof presence));
    presence.w = w;
    then_asked(brinecandle_consume_up(&presence, 1, 100));
    end();
}

/* What is lent to be read may overlap: handle, certificate and key out of the frame itself give what copies of these bytes give. */
static void overlapping(void)
{
    static uint8_t frame[sizeof enrol], copies[4][32], order[2][BRINECANDLE_BLOCK], body[2][139 + 64];
    const uint8_t *at[2][4];
    for (size_t i = 0; i < sizeof frame; i++)
        frame[i] = i < 5 ? enrol[i] : (uint8_t)i;
    for (size_t i = 0; i < 4; i++)
        for (size_t k = 0; k < 32; k++)
            copies[i][k] = frame[5 + 8 * i + k];
    for (size_t i = 0; i < 4; i++) {
        at[0][i] = frame + 5 + 8 * i;
        at[1][i] = copies[i];
    }
    begin("handle, certificate and key out of the frame");
    for (size_t i = 0; i < 2; i++) {
        struct brinecandle_presence presence = {.w = 5000, .touch = 51, .last = 50};
        struct brinecandle_session session = {0, 0, 0};
        const struct brinecandle_hardware yes = {BRINECANDLE_YES, BRINECANDLE_YES, BRINECANDLE_YES, BRINECANDLE_YES, BRINECANDLE_YES, 7};
        struct brinecandle_decision said = brinecandle_decide(&presence, &session, frame, sizeof frame, 0, 100, &yes, at[i][0], 32, at[i][1],
                                                              32, at[i][2], at[i][3], body[i], sizeof body[i], order[i], 0, 0);
        then_answer(said.answer);
        /* the certificate for a signature too */
        then_answer(brinecandle_finish(said.order, order[i], at[i][1], 32, BRINECANDLE_YES, at[i][1], 32, body[i], sizeof body[i]).answer);
    }
    then_text(same(order[0], order[1], BRINECANDLE_BLOCK) && same(body[0], body[1], sizeof body[0]) ? "alike" : "OTHERWISE");
    end();
}

/* The enrolment that was lost: a reader that carries a short frame's 256 bytes and the status word, and an extended Register. */
static void lost_enrolment(void)
{
    const struct brinecandle_lent with = lent(enrol_extended, sizeof enrol_extended, 40);
    fresh(258);
    if (brinecandle_panel_check(panel, WIRELESS, 10).yes || !brinecandle_panel_touch(panel, 20).yes)
        _exit(3);
    struct brinecandle_presence before = panel->presence;
    begin("an extended Register, and 258 bytes for part and status");
    then_answer(brinecandle_panel_try(panel, WIRELESS, with).answer);
    then_answer(brinecandle_panel_decide(panel, WIRELESS, with).answer);
    then_left(same(&panel->presence, &before, sizeof before));
    end();
    begin("with one byte less than its room, then with its room");
    panel->transport[WIRELESS].buffers.part_length = REPLY + 1;
    then_answer(brinecandle_panel_decide(panel, WIRELESS, with).answer);
    then_left(same(&panel->presence, &before, sizeof before));
    panel->transport[WIRELESS].buffers.part_length = REPLY + 2;
    then_answer(brinecandle_panel_decide(panel, WIRELESS, with).answer);
    struct brinecandle_wrote said = brinecandle_panel_respond(panel, brinecandle_panel_finish(panel, WIRELESS, with_signature));
    then_answer(said.answer);
    then_text(said.length == 67 + HANDLE + CERTIFICATE + 70 + 2 && same(part[WIRELESS] + said.length - 2, "\x90\0", 2) ? "whole" : "CUT");
    end();
    fresh(258);
    begin("the same in a short frame, and 258 bytes");
    then_answer(ordered(WIRELESS, 1).answer);
    then_answer(brinecandle_panel_respond(panel, brinecandle_panel_finish(panel, WIRELESS, with_signature)).answer);
    then_text(same(part[WIRELESS] + 256, "\x61\0", 2) ? "6100" : "ANOTHER STATUS");
    end();
    begin("lengths whose sum no number holds");
    struct brinecandle_lent wild = lent(enrol, sizeof enrol, 50);
    wild.handle_length = SIZE_MAX;
    wild.certificate_length = SIZE_MAX;
    then_answer(brinecandle_panel_decide(panel, WIRELESS, wild).answer);
    wild.frame = enrol_extended;
    wild.frame_length = sizeof enrol_extended;
    then_answer(brinecandle_panel_decide(panel, WIRELESS, wild).answer);
    end();
}

int main(void)
{
    record_of("a record of zeros", 0, 0, false);
    record_of("a record of 0xff", 0xff, 0, false);
    record_of("a record of 0xff but for W", 0xff, 5000, false);
    record_of("a record of 0xff but for W and asker", 0xff, 5000, true);
    forgotten_sessions();
    the_other_sides_body();
    one_reply_for_both();
    two_finishes();
    the_other_sides_order();
    const int minus = -1;
    no_side("side 2", 2);
    no_side("side 256", 256);
    no_side("side 2^31", (uint64_t)1 << 31);
    no_side("side 2^31 + 1", ((uint64_t)1 << 31) + 1);
    no_side("side 2^32", (uint64_t)1 << 32);
    no_side("side 2^32 + 1", ((uint64_t)1 << 32) + 1);
    no_side("side -1", (uint64_t)minus);
    windows("W of 0", 0);
    windows("W of 60,001", 60001);
    windows("W of 65,536", 65536);
    windows("W of 65,536 and 5,000", 65536 + 5000);
    windows("W of 2^32 and 5,000", ((uint64_t)1 << 32) + 5000);
    windows("W of -1", (uint64_t)minus);
    overlapping();
    lost_enrolment();
    return 0;
}
