/* Brinecandle for C, the part that every firmware would write for itself: one panel, which keeps the presence record, for each side a session
 * and its buffers, and one order with its block. It is C: tried by firmware/test, and not proved. Nothing here decides anything but for R2
 * where a response would have no room: it is over brinecandle.h, whose contracts hold for the answers.
 *
 * - The order has one life. There is one at a time, bound to the side that it came from, and it is cleared once it is answered: it is
 *   finished once, for that side. A decision of the same side that is not refused puts its own, or none, in the place; one of the other side
 *   leaves it, unless it gives an order itself.
 * - Each side has a session and buffers of its own, chosen by the side that a call names: no GET RESPONSE fetches the other side's body. A
 *   side other than 0 or 1 is R8, and touches nothing.
 * - The room for the response is asked for before the decision, so that no touch is spent on a response that does not fit.
 * - What goes to the host is made of what a decision or a finishing came to, as a whole: a length cannot be forgotten.
 *
 *   static struct brinecandle_panel panel;                 zeros: no record yet (R6), no order (R7), nothing to fetch, no buffers (R2)
 *   panel.transport[0].buffers = ..                        once, for each side that there is
 *   brinecandle_panel_new(&panel, 5000);
 *   brinecandle_panel_try, brinecandle_panel_decide        by what they answer: sign panel.block, up to panel.order.to_sign
 *   brinecandle_panel_finish
 *   brinecandle_panel_respond                              what the host gets, of either, at the front of that side's buffer `part`
 *
 * All calls on one panel belong in one thread of control: a touch that an interrupt reports is put aside for the main loop.
 *
 * The side that a call is for is an argument, and no field of what is lent by name: a field that is left out is 0, which is a side, and the
 * other side's login would go out on this one's touch. An argument that is left out does not compile.
 */
#ifndef BRINECANDLE_PANEL_H
#define BRINECANDLE_PANEL_H

#include "brinecandle.h"

enum { BRINECANDLE_SIDES = 2 };

/* A side's buffers. They stay the panel's, `reply` as the core leaves it: a body stands there until all of it is fetched. So give each side a
 * `reply` of its own; where both have the same one, a body of the one side ends what is left for the other (replies that overlap otherwise are
 * not noticed). One buffer for part and status may serve both. Where a buffer serves both, respond and send what a call came to before the
 * next call for either side, a dry run too: or the one host gets the other's bytes. */
struct brinecandle_buffers {
    uint8_t *reply; /* uncut bodies */
    size_t reply_length;
    uint8_t *part; /* part and status: what goes out */
    size_t part_length;
};

struct brinecandle_transport {
    struct brinecandle_session session;
    struct brinecandle_buffers buffers;
};

struct brinecandle_panel {
    struct brinecandle_presence presence;
    struct brinecandle_transport transport[BRINECANDLE_SIDES];
    struct brinecandle_order order;
    uint64_t order_side;              /* that it came from */
    uint8_t block[BRINECANDLE_BLOCK]; /* the bytes to sign, where the order's kind is not 0 */
};

/* What a decision is lent, by name. `handle`, `certificate`, `x` and `y` are those that a Register would use, x and y of 32 bytes. */
struct brinecandle_lent {
    const uint8_t *frame;
    size_t frame_length;
    uint64_t t;
    struct brinecandle_hardware hardware;
    const uint8_t *handle;
    size_t handle_length;
    const uint8_t *certificate;
    size_t certificate_length;
    const uint8_t *x;
    const uint8_t *y;
};

/* What a finishing is lent, by name. */
struct brinecandle_signed {
    const uint8_t *certificate; /* as it was lent to the decision; none, length 0, for Authenticate */
    size_t certificate_length;
    enum brinecandle_yes is_signed; /* 1: the signer signed; other: it failed */
    const uint8_t *signature;
    size_t signature_length;
};

/* What a dry run comes to: a decision without order and body. It is for no host, so brinecandle_panel_respond does not take it. */
struct brinecandle_tried {
    enum brinecandle_answer answer;
    enum brinecandle_fault fault; /* with BRINECANDLE_WRONG_LENGTH: what is wrong with the length */
    bool taken;                   /* the counter's number would be used up */
    size_t place;                 /* of the fault */
};

/* What a decision or a finishing came to: to be lent to brinecandle_panel_respond as it is. */
struct brinecandle_outcome {
    enum brinecandle_answer answer;
    enum brinecandle_fault fault; /* with BRINECANDLE_WRONG_LENGTH: what is wrong with the length */
    bool taken;                   /* write the counter's number down as used up, before anything is signed */
    size_t length;                /* of the body, with BRINECANDLE_OK; of the response, with BRINECANDLE_PART */
    size_t place;                 /* of the fault */
    uint64_t side;                /* that it is for */
};

BRINECANDLE_TAKE_IT
static inline bool brinecandle_is_refusal(enum brinecandle_answer answer)
{
    return BRINECANDLE_NO_ANSWER < answer && answer <= BRINECANDLE_LAST_REFUSAL;
}

/* A fresh record. After R6 the panel goes on with the one that it has. An order that waits, and what is left to fetch, are kept: they ask
 * for no record. */
static inline enum brinecandle_answer brinecandle_panel_new(struct brinecandle_panel *panel, uint64_t w)
{
    return brinecandle_new(&panel->presence, w);
}

/* A finger touches at t, for the side that asked: once for each press. */
static inline struct brinecandle_asked brinecandle_panel_touch(struct brinecandle_panel *panel, uint64_t t)
{
    return brinecandle_grant_up(&panel->presence, t);
}

/* The touch check at t, for the side that checks. */
BRINECANDLE_TAKE_IT
static inline struct brinecandle_asked brinecandle_panel_check(struct brinecandle_panel *panel, uint64_t side, uint64_t t)
{
    return brinecandle_consume_up(&panel->presence, side, t);
}

/* Whether a prompt is live at t. */
BRINECANDLE_TAKE_IT
static inline struct brinecandle_asked brinecandle_panel_ask(const struct brinecandle_panel *panel, uint64_t t)
{
    return brinecandle_is_up_needed(&panel->presence, t);
}

/* brinecandle_decide and brinecandle_finish, lent by name: for a firmware that keeps record, session and order by itself. Nothing is kept
 * here, and no room asked for. */
BRINECANDLE_TAKE_IT
static inline struct brinecandle_decision brinecandle_decide_lent(uint64_t side, struct brinecandle_presence *presence,
                                                                  struct brinecandle_session *session, struct brinecandle_lent lent,
                                                                  struct brinecandle_buffers to, uint8_t block[BRINECANDLE_BLOCK])
{
    return brinecandle_decide(presence, session, lent.frame, lent.frame_length, side, lent.t, &lent.hardware, lent.handle,
                              lent.handle_length, lent.certificate, lent.certificate_length, lent.x, lent.y, to.reply,
                              to.reply_length, block, to.part, to.part_length);
}

BRINECANDLE_TAKE_IT
static inline struct brinecandle_wrote brinecandle_finish_signed(struct brinecandle_order order,
                                                                 const uint8_t block[BRINECANDLE_BLOCK],
                                                                 struct brinecandle_signed with, struct brinecandle_buffers to)
{
    return brinecandle_finish(order, block, with.certificate, with.certificate_length, with.is_signed, with.signature,
                              with.signature_length, to.reply, to.reply_length);
}

/* The longest body that this frame can come to, in a session with so many bytes left. */
BRINECANDLE_TAKE_IT
static inline size_t brinecandle_longest(struct brinecandle_lent lent, uint64_t left)
{
    struct brinecandle_command said = brinecandle_read_command(lent.frame, lent.frame_length);
    if (said.answer != BRINECANDLE_OK)
        return 0;
    if (said.command == BRINECANDLE_U2F_REGISTER) {
        /* a sum that no size_t holds is no buffer's length either */
        size_t rest = SIZE_MAX - 139;
        if (rest < lent.handle_length || rest - lent.handle_length < lent.certificate_length)
            return SIZE_MAX;
        return 139 + lent.handle_length + lent.certificate_length;
    }
    if (said.command == BRINECANDLE_U2F_AUTHENTICATE)
        return said.p1 == BRINECANDLE_CHECK_ONLY ? 0 : 77;
    return said.command == BRINECANDLE_U2F_VERSION ? 6 : left;
}

/* Decides where the buffer for part and status has the room that a response to this frame can take, and answers R2 where it has not, with
 * nothing changed, whatever else it would have been answered. R6, R8 and R1 come before that, as in brinecandle_decide: they are found on a copy, with no frame. */
BRINECANDLE_TAKE_IT
static inline struct brinecandle_decision brinecandle_decide_in_room(uint64_t side, struct brinecandle_presence *presence,
                                                                     struct brinecandle_session *session,
                                                                     struct brinecandle_lent lent, struct brinecandle_buffers to,
                                                                     uint8_t block[BRINECANDLE_BLOCK])
{
    struct brinecandle_room room =
        brinecandle_response_room(lent.frame, lent.frame_length, brinecandle_longest(lent, session->count));
    if (room.answer == BRINECANDLE_OK && room.length <= to.part_length)
        return brinecandle_decide_lent(side, presence, session, lent, to, block);
    struct brinecandle_presence record = *presence;
    struct brinecandle_session scratch = *session;
    lent.frame_length = 0;
    struct brinecandle_decision refused = brinecandle_decide_lent(side, &record, &scratch, lent, to, block);
    if (!brinecandle_is_refusal(refused.answer)) {
        struct brinecandle_decision no_room = {BRINECANDLE_R2, BRINECANDLE_NO_FAULT, false, 0, {BRINECANDLE_NO_KIND, 0, 0}, 0};
        refused = no_room;
    }
    return refused;
}

/* A copy of what a side has; of a number that is no side nothing. */
BRINECANDLE_TAKE_IT
static inline struct brinecandle_transport brinecandle_panel_transport(const struct brinecandle_panel *panel, uint64_t side)
{
    struct brinecandle_transport none = {{0, 0, 0}, {0, 0, 0, 0}};
    return side < BRINECANDLE_SIDES ? panel->transport[side] : none;
}

/* A dry run: what brinecandle_panel_decide would answer, with nothing changed: not the panel, and not the reply in the end, of which
 * a Version's six bytes are put back. The buffer for part and status holds what a GET RESPONSE would leave there. For a Register lend
 * handle and certificate of the lengths that they will have and `stored` 1. */
BRINECANDLE_TAKE_IT
static inline struct brinecandle_tried brinecandle_panel_try(const struct brinecandle_panel *panel, uint64_t side,
                                                             struct brinecandle_lent lent)
{
    uint8_t block[BRINECANDLE_BLOCK];
    uint8_t front[6];
    struct brinecandle_presence presence = panel->presence;
    struct brinecandle_transport own = brinecandle_panel_transport(panel, side);
    size_t kept = own.buffers.reply_length < sizeof front ? own.buffers.reply_length : sizeof front;
    for (size_t i = 0; i < kept; i++)
        front[i] = own.buffers.reply[i];
    struct brinecandle_decision decision = brinecandle_decide_in_room(side, &presence, &own.session, lent, own.buffers, block);
    for (size_t i = 0; i < kept; i++)
        own.buffers.reply[i] = front[i];
    struct brinecandle_tried said = {decision.answer, decision.fault, decision.taken, decision.place};
    return said;
}

/* A body was written for this side: in a `reply` that is the other's too, nothing is left of the other's. The other's limit is kept: its
 * order may wait, whose body will be cut by it. */
static inline void brinecandle_panel_overwrote(struct brinecandle_panel *panel, uint64_t side)
{
    for (uint64_t other = 0; other < BRINECANDLE_SIDES; other++)
        if (other != side && panel->transport[other].buffers.reply == panel->transport[side].buffers.reply)
            panel->transport[other].session.place = panel->transport[other].session.count = 0;
}

/* Decides, for the side that the frame came from. With BRINECANDLE_ORDER sign the first panel->order.to_sign bytes of panel->block. A
 * refusal keeps everything: the touch, what is left to fetch, and the order that waits for its signature. R2 is for either buffer: where
 * it is the one for part and status, which carries less than this frame may take, tell the host 0x6f00 (brinecandle_panel_give_up). */
BRINECANDLE_TAKE_IT
static inline struct brinecandle_outcome brinecandle_panel_decide(struct brinecandle_panel *panel, uint64_t side,
                                                                  struct brinecandle_lent lent)
{
    struct brinecandle_transport own = brinecandle_panel_transport(panel, side);
    struct brinecandle_decision decision =
        brinecandle_decide_in_room(side, &panel->presence, &own.session, lent, own.buffers, panel->block);
    if (side < BRINECANDLE_SIDES && !brinecandle_is_refusal(decision.answer)) {
        panel->transport[side].session = own.session;
        if (decision.answer == BRINECANDLE_OK)
            brinecandle_panel_overwrote(panel, side);
        if (decision.answer == BRINECANDLE_ORDER || panel->order_side == side) {
            panel->order = decision.order;
            panel->order_side = side;
        }
    }
    struct brinecandle_outcome said = {decision.answer, decision.fault, decision.taken, decision.length, decision.place, side};
    return said;
}

/* Finishes the order that the panel keeps, which must be this side's: R7 where it is not, as where there is none. It is over with
 * BRINECANDLE_OK and with BRINECANDLE_INTERNAL_EXCEPTION (the signer failed), and is kept on R2, R3 and R4, to be finished again. */
BRINECANDLE_TAKE_IT
static inline struct brinecandle_outcome brinecandle_panel_finish(struct brinecandle_panel *panel, uint64_t side,
                                                                  struct brinecandle_signed with)
{
    const struct brinecandle_order none = {BRINECANDLE_NO_KIND, 0, 0};
    struct brinecandle_wrote wrote = {BRINECANDLE_R8, 0};
    if (side < BRINECANDLE_SIDES)
        wrote = brinecandle_finish_signed(panel->order_side == side ? panel->order : none, panel->block, with,
                                          panel->transport[side].buffers);
    if (!brinecandle_is_refusal(wrote.answer))
        panel->order = none;
    if (wrote.answer == BRINECANDLE_OK)
        brinecandle_panel_overwrote(panel, side);
    struct brinecandle_outcome said = {wrote.answer, BRINECANDLE_NO_FAULT, false, wrote.length, 0, side};
    return said;
}

/* Makes what the host gets, at the front of the side's buffer for part and status: with BRINECANDLE_OK the first part of the body, cut by
 * the limit of its frame, and the session keeps what remains; with BRINECANDLE_PART nothing is to be done, since the response stands there;
 * with a status word it alone. It says BRINECANDLE_OK and the response's length, or R2: never where the buffers are those of the decision.
 * A refusal and an order are for no host: they are handed back as they are, and nothing is written. A BRINECANDLE_OK without a body, and a
 * BRINECANDLE_PART without a response, come from no call, and are BRINECANDLE_NO_ANSWER. */
BRINECANDLE_TAKE_IT
static inline struct brinecandle_wrote brinecandle_panel_respond(struct brinecandle_panel *panel, struct brinecandle_outcome with)
{
    struct brinecandle_wrote said = {with.answer, 0};
    if (with.answer <= BRINECANDLE_ORDER) /* refusals lie below it, and so does memory of zeros */
        return said;
    said.answer = BRINECANDLE_SIDES <= with.side ? BRINECANDLE_R8 : BRINECANDLE_NO_ANSWER;
    if (said.answer == BRINECANDLE_R8 || (with.length == 0 && (with.answer == BRINECANDLE_OK || with.answer == BRINECANDLE_PART)))
        return said;
    struct brinecandle_transport *own = &panel->transport[with.side];
    struct brinecandle_buffers to = own->buffers;
    if (with.answer == BRINECANDLE_PART) {
        said.answer = BRINECANDLE_OK;
        said.length = with.length;
    } else if (with.answer == BRINECANDLE_OK) {
        struct brinecandle_session first = {0, with.length, own->session.limit};
        said = brinecandle_next_part(&first, to.reply, to.reply_length, to.part, to.part_length);
        if (said.answer == BRINECANDLE_OK)
            own->session = first;
    } else {
        said = brinecandle_write_response(0, 0, with.answer, to.part, to.part_length);
    }
    return said;
}

/* Nothing is left to fetch for this side, and its order is over: for a frame that the driver answers by itself, as applet selection, since
 * the core has not seen it. */
static inline void brinecandle_panel_drop(struct brinecandle_panel *panel, uint64_t side)
{
    const struct brinecandle_session nothing = {0, 0, 0};
    const struct brinecandle_order none = {BRINECANDLE_NO_KIND, 0, 0};
    if (BRINECANDLE_SIDES <= side)
        return;
    panel->transport[side].session = nothing;
    if (panel->order_side == side)
        panel->order = none;
}

/* A status word with no body, for a side. */
BRINECANDLE_TAKE_IT
static inline struct brinecandle_wrote brinecandle_panel_status(struct brinecandle_panel *panel, uint64_t side,
                                                                enum brinecandle_answer status)
{
    struct brinecandle_outcome said = {status, BRINECANDLE_NO_FAULT, false, 0, 0, side};
    return brinecandle_panel_respond(panel, said);
}

/* What the host gets in the place of a refusal: 0x6f00. What is left to fetch, and an order that waits, are kept, as the refusal kept them:
 * where the host's command is given up for good, brinecandle_panel_drop ends both. */
BRINECANDLE_TAKE_IT
static inline struct brinecandle_wrote brinecandle_panel_give_up(struct brinecandle_panel *panel, uint64_t side)
{
    return brinecandle_panel_status(panel, side, BRINECANDLE_INTERNAL_EXCEPTION);
}

/* What the host gets to a frame of which the driver could not receive all: 0x6700, and nothing is left to fetch. */
BRINECANDLE_TAKE_IT
static inline struct brinecandle_wrote brinecandle_panel_too_long(struct brinecandle_panel *panel, uint64_t side)
{
    brinecandle_panel_drop(panel, side);
    return brinecandle_panel_status(panel, side, BRINECANDLE_WRONG_LENGTH);
}

#endif
