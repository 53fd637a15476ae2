/* For firmware/test: what no line of the panel on a pipe can lend. Null pointers with length 0, and memory of zeros as record, session, order,
 * outcome and panel: the header says what each of them is answered, and that none of it makes an order. The first that is not so is
 * named. */
#include <unistd.h>

#include "brinecandle_panel.h"

static void held(bool is, const char *what)
{
    if (is)
        return;
    size_t length = 0;
    while (what[length])
        length++;
    if (write(STDERR_FILENO, what, length) < 0 || write(STDERR_FILENO, "\n", 1) < 0)
        _exit(4);
    _exit(3);
}

static const uint8_t enrol[5 + 64] = {0, BRINECANDLE_U2F_REGISTER, 0, 0, 64};
static const uint8_t x[32], y[32];
static uint8_t block[BRINECANDLE_BLOCK], reply[139], part[2];

/* A Register with neither handle nor certificate, all answers yes. */
static struct brinecandle_decision enrolled(struct brinecandle_presence presence, uint8_t *to, size_t room)
{
    const struct brinecandle_hardware yes = {.allowed = BRINECANDLE_YES, .attestation = BRINECANDLE_YES, .stored = BRINECANDLE_YES};
    struct brinecandle_session nothing = {0, 0, 0};
    return brinecandle_decide(&presence, &nothing, enrol, sizeof enrol, 0, 100, &yes, 0, 0, 0, 0, x, y, to, room, block, 0, 0);
}

/* A GET RESPONSE with no buffer at all. */
static enum brinecandle_answer fetched(struct brinecandle_session session)
{
    static const uint8_t fetch[4] = {0, BRINECANDLE_GET_RESPONSE};
    const struct brinecandle_hardware yes = {.allowed = BRINECANDLE_YES};
    struct brinecandle_presence presence = {.w = 5000};
    return brinecandle_decide(&presence, &session, fetch, sizeof fetch, 0, 100, &yes, 0, 0, 0, 0, x, y, 0, 0, block, 0, 0).answer;
}

static struct brinecandle_decision no_frame(struct brinecandle_presence presence, uint64_t t)
{
    const struct brinecandle_hardware yes = {.allowed = BRINECANDLE_YES};
    struct brinecandle_session nothing = {0, 0, 0};
    return brinecandle_decide(&presence, &nothing, 0, 0, 0, t, &yes, 0, 0, 0, 0, x, y, 0, 0, block, 0, 0);
}

static struct brinecandle_wrote next(uint64_t place, uint64_t count, uint8_t *to, size_t room)
{
    struct brinecandle_session session = {place, count, 1};
    return brinecandle_next_part(&session, 0, 0, to, room);
}

static void no_frames(void)
{
    const struct brinecandle_presence touched = {.w = 5000, .touch = 51, .last = 50};
    held(brinecandle_read(0, 0).answer == BRINECANDLE_WRONG_DATA, "read of no frame");
    held(brinecandle_read(0, 0).fault == BRINECANDLE_NO_FAULT, "read of no frame, and a fault");
    held(brinecandle_read_strict(0, 0).answer == BRINECANDLE_WRONG_DATA, "strict of no frame");
    held(brinecandle_read_by_table(0, 0).answer == BRINECANDLE_WRONG_DATA, "table of no frame");
    held(brinecandle_read_strict_by_table(0, 0).answer == BRINECANDLE_WRONG_DATA, "strict table of no frame");
    held(brinecandle_read_command(0, 0).answer == BRINECANDLE_WRONG_DATA, "command of no frame");
    held(brinecandle_response_room(0, 0, SIZE_MAX).length == 2, "room for no frame");
    held(no_frame(touched, 1).answer == BRINECANDLE_R1, "decide on no frame, too early");
    held(no_frame(touched, 50).answer == BRINECANDLE_WRONG_DATA, "decide on no frame");
    held(brinecandle_write(0, 3, 0, 0, 1, 0, 0, 0, reply, sizeof reply).length == 4, "write of no data");
    held(brinecandle_write(0, 3, 0, 0, 1, 0, 0, 0, 0, 0).answer == BRINECANDLE_R2, "write into no buffer");
    held(brinecandle_write_strict(0, 3, 0, 0, 1, 0, 0, 0, reply, sizeof reply).length == 4, "strict write of no data");
    held(brinecandle_write_strict(0, 3, 0, 0, 1, 0, 0, 0, 0, 0).answer == BRINECANDLE_R2, "strict write into no buffer");
    held(brinecandle_write_strict(0, 3, 0, 0, 7, 0, 0, 5, 0, 0).answer == BRINECANDLE_R5, "strict write of no data in shape 7, into no buffer");
}

static void no_bodies(void)
{
    const struct brinecandle_presence touched = {.w = 5000, .touch = 51, .last = 50};
    held(fetched((struct brinecandle_session){0, 0, 0}) == BRINECANDLE_COND_USE_NOT_SATISFIED, "nothing fetched");
    held(fetched((struct brinecandle_session){0, 1, 0}) == BRINECANDLE_R2, "fetched from no body");
    held(brinecandle_read_response(0, 0).answer == BRINECANDLE_R2, "response of no bytes");
    held(brinecandle_write_response(0, 0, BRINECANDLE_OK, 0, 0).answer == BRINECANDLE_R2, "response into no buffer");
    held(brinecandle_write_response(0, 0, BRINECANDLE_OK, part, sizeof part).length == 2 && part[0] == 0x90 && !part[1], "response of no body");
    held(next(0, 0, 0, 0).answer == BRINECANDLE_R2, "a part into no buffer");
    held(next(0, 0, part, sizeof part).length == 2, "a part of no body");
    held(next(SIZE_MAX, 1, part, sizeof part).answer == BRINECANDLE_R2, "a remainder whose end has no number");
    held(enrolled(touched, 0, 0).answer == BRINECANDLE_R2, "decide with no buffer");
    struct brinecandle_order order = enrolled(touched, reply, sizeof reply).order;
    held(order.kind == BRINECANDLE_KIND_REGISTER && order.to_sign == 130, "decide with neither handle nor certificate");
    held(brinecandle_finish(order, block, 0, 0, BRINECANDLE_YES, 0, 0, 0, 0).answer == BRINECANDLE_R2, "finish with no buffer");
    held(brinecandle_finish(order, block, 0, 0, BRINECANDLE_NO, 0, 0, reply, sizeof reply).answer == BRINECANDLE_INTERNAL_EXCEPTION,
         "finish, not signed");
    held(brinecandle_finish(order, block, 0, 0, BRINECANDLE_YES, 0, 0, reply, sizeof reply).length == 67, "finish with an empty signature");
}

static void zeros(void)
{
    static const struct brinecandle_presence none;
    static const struct brinecandle_decision decision;
    held(enrolled((struct brinecandle_presence){.w = 5000}, reply, sizeof reply).answer == BRINECANDLE_COND_USE_NOT_SATISFIED,
         "a record of zeros with w set has no touch");
    held(enrolled(none, reply, sizeof reply).answer == BRINECANDLE_R6, "a record of zeros");
    held(decision.answer == BRINECANDLE_NO_ANSWER && !brinecandle_is_refusal(decision.answer), "a decision of zeros");
    held(decision.fault == BRINECANDLE_NO_FAULT, "a decision of zeros, and a fault");
    held(brinecandle_finish(decision.order, block, 0, 0, BRINECANDLE_YES, 0, 0, reply, sizeof reply).answer == BRINECANDLE_R7, "an order of zeros");
}

/* A panel of zeros has no buffers either. */
static void a_panel_of_zeros(void)
{
    static struct brinecandle_panel panel;
    const struct brinecandle_lent version = {.frame = (const uint8_t[4]){0, 3}, .frame_length = 4, .hardware = {.allowed = BRINECANDLE_YES},
                                             .x = x, .y = y};
    const struct brinecandle_signed with = {.is_signed = BRINECANDLE_YES};
    held(brinecandle_panel_touch(&panel, 1).answer == BRINECANDLE_R6, "a panel of zeros, touched");
    held(brinecandle_panel_ask(&panel, 1).answer == BRINECANDLE_R6, "a panel of zeros, asked");
    held(brinecandle_panel_check(&panel, 2, 1).answer == BRINECANDLE_R6, "a panel of zeros, checked by no side");
    held(brinecandle_panel_try(&panel, 0, version).answer == BRINECANDLE_R6, "a panel of zeros, tried");
    held(brinecandle_panel_decide(&panel, 0, version).answer == BRINECANDLE_R6, "a panel of zeros, decided on");
    held(brinecandle_panel_finish(&panel, 0, with).answer == BRINECANDLE_R7, "a panel of zeros, finished");
    held(brinecandle_panel_new(&panel, 5000) == BRINECANDLE_OK, "a record");
    held(brinecandle_panel_try(&panel, 1, version).answer == BRINECANDLE_R2, "a panel without buffers, tried");
    held(brinecandle_panel_decide(&panel, 1, version).answer == BRINECANDLE_R2 && !panel.presence.last, "a panel without buffers, decided on");
    held(brinecandle_panel_give_up(&panel, 1).answer == BRINECANDLE_R2, "a panel without buffers, given up");
    panel.transport[0].buffers = (struct brinecandle_buffers){reply, sizeof reply, part, sizeof part};
    part[0] = part[1] = 0xee;
    held(!brinecandle_panel_respond(&panel, (struct brinecandle_outcome){.length = 6}).answer, "an outcome of zeros, told");
    held(brinecandle_panel_respond(&panel, (struct brinecandle_outcome){.answer = BRINECANDLE_ORDER}).answer == BRINECANDLE_ORDER,
         "an order, told");
    held(!brinecandle_panel_respond(&panel, (struct brinecandle_outcome){.answer = BRINECANDLE_OK}).answer, "9000 with no body, told");
    held(part[0] == 0xee && part[1] == 0xee, "nothing told, and written");
    held(brinecandle_panel_give_up(&panel, 0).length == 2 && part[0] == 0x6f && !part[1], "given up");
}

int main(void)
{
    no_frames();
    no_bodies();
    zeros();
    a_panel_of_zeros();
    return 0;
}
