#include "session.h"

#include <errno.h>
#include <stdlib.h>
#include <string.h>

struct session *session_new(struct capture *capture) {
    static const uint8_t zero[16] = {0};
    struct session *session = calloc(1, sizeof *session);
    if (session == NULL)
        return NULL;
    session->capture = capture;
    plan_compile(&session->none, zero, NULL, 0);
    return session;
}

void session_free(struct session *session) {
    for (unsigned i = 0; i < SIDES; i++)
        free(session->sides[i]);
    free(session);
}

/* The last fields of the message, counted back from the end: 1 is the last. */
static size_t field_start(const struct message *message, size_t back) {
    return rembulfose_word(message->fields, message->answer.second - 2 * back);
}

static size_t field_length(const struct message *message, size_t back) {
    return rembulfose_word(message->fields, message->answer.second - 2 * back + 1);
}

/* A new part that lies in the field so far back from the message's end. */
static struct part *add_part(struct message *message, const char *name, size_t back) {
    struct part *part = &message->parts[message->part_count++];
    const struct sent *sent = &message->sent;
    size_t start = field_start(message, back);
    *part = (struct part){.kind = UNREAD_PART,
                          .sent = {name, sent->bytes + start, field_length(message, back), sent->side,
                                   sent->at + start}};
    return part;
}

/* A descriptor whose id is the field before it; whether it is accepted. */
static bool compile_part(struct message *message, const char *name, size_t back,
                         struct plan *plan) {
    struct part *part = add_part(message, name, back);
    part->kind = DESCRIPTOR_PART;
    part->plan = plan;
    part->answer = plan_compile(plan, message->sent.bytes + field_start(message, back + 1),
                                part->sent.bytes, part->sent.length);
    return part->answer.number == 0;
}

/* Since this message it is not certain what values are read by. If it was not before, the first message
 * that left it open counts. */
static void lose(struct description *description, unsigned long message) {
    description->plan.known = false;
    if (description->lost == 0)
        description->lost = message;
}

static void lose_both(struct session *session, unsigned long message) {
    lose(&session->output, message);
    lose(&session->state, message);
}

/* A T or s that was read. If a descriptor in it is refused it describes nothing, and what was described
 * before is out of date all the same. */
static void settle(struct session *session, struct description *description, bool accepted) {
    if (accepted)
        description->lost = 0;
    else
        lose_both(session, session->message.number);
}

/* Whether a message that is refused may have been a newer description, or hide one: a T or an s, whoever
 * is said to have sent it; one whose type is not known, unless it is the client's, who sends many that
 * are none of the ten; and one behind which the rest of its side is not read. */
static bool may_describe(const struct message *message) {
    bool describes = message->sent.bytes[0] == 'T' || message->sent.bytes[0] == 's';
    bool unknown = message->answer.number == REMBULFOSE_UNKNOWN_TYPE;
    bool ends_side = message->answer.number == REMBULFOSE_BAD_LENGTH;
    return describes || (unknown && message->sent.side != CLIENT) || ends_side;
}

/* A value in the last field, by a plan; without one it is not described, since a message or at all. */
static void run_part(struct message *message, const char *name, struct plan *plan,
                     unsigned long lost) {
    struct part *part = add_part(message, name, 1);
    if (plan == NULL || !plan->known) {
        part->lost = lost;
        return;
    }
    part->kind = VALUE_PART;
    part->plan = plan;
    part->answer = rembulfose_run(plan->words, plan->length, part->sent.bytes, part->sent.length,
                                  message->list, sizeof message->list);
}

/* The plan of state data: that of the last s, if it has this id; id zero is "no type". */
static struct plan *state_plan(struct session *session, const uint8_t *id) {
    struct plan *plan = &session->state.plan;
    if (memcmp(id, session->none.id, sizeof session->none.id) == 0)
        return &session->none;
    return memcmp(id, plan->id, sizeof plan->id) == 0 ? plan : NULL;
}

/* Looks into a message of the server that was read. */
static void take_parts(struct session *session, struct message *message) {
    bool good;
    switch (message->sent.bytes[0]) {
    case 'T':
        good = compile_part(message, "input descriptor", 3, &session->input);
        good = compile_part(message, "output descriptor", 1, &session->output.plan) && good;
        settle(session, &session->output, good);
        return;
    case 's':
        good = compile_part(message, "state descriptor", 1, &session->state.plan);
        settle(session, &session->state, good);
        return;
    case 'C':
        run_part(message, "state data",
                 state_plan(session, message->sent.bytes + field_start(message, 2)),
                 session->state.lost);
        return;
    case 'D':
        message->row = ++session->rows;
        run_part(message, "row", &session->output.plan, session->output.lost);
        return;
    default:
        return;
    }
}

/* The message that a side has at hand, whole or refused. The intake lists no fields, so one that it
 * accepted is read once more. */
static void take_message(struct session *session, const struct side *side,
                         rembulfose_answer answer) {
    struct message *message = &session->message;
    const struct part *part;
    message->number = ++session->messages;
    message->sent = (struct sent){"message", side->bytes, side->held, side->number, side->at};
    message->part_count = 0;
    message->row = 0;
    if (answer.number == 0)
        answer = rembulfose_read_message(side->number, side->bytes, side->held, message->fields,
                                         sizeof message->fields);
    message->answer = answer;
    if (answer.number == 0 && side->number == SERVER)
        take_parts(session, message);
    else if (answer.number != 0 && may_describe(message))
        lose_both(session, message->number);
    session->refused += session_refusal(session, &part) != NULL;
}

/* Bytes behind a length that is not permitted. They may hide a newer description, whenever they come. */
static void leave_unread(struct session *session, struct side *side) {
    lose_both(session, side->ended);
    side->unread += session->piece.length;
    session->piece.length = 0;
}

/* Takes bytes of the piece; whether a message is whole with them, or refused. */
static bool take_bytes(struct session *session, struct side *side) {
    rembulfose_answer answer;
    if (side->ended != 0) {
        leave_unread(session, side);
        return false;
    }
    if (!side_take(side, &session->piece, &answer))
        return false;
    take_message(session, side, answer);
    if (answer.number == REMBULFOSE_BAD_LENGTH)
        side->ended = session->messages;
    side_pass(side);
    return true;
}

/* The side whose bytes are in the piece; null if there are none any more, or no memory. */
static struct side *next_side(struct session *session) {
    struct capture *capture = session->capture;
    if (session->piece.length == 0 && !capture_next(capture, &session->piece))
        return NULL;
    struct side **side = &session->sides[session->piece.side % SIDES];
    if (*side == NULL && (*side = side_new(session->piece.side)) == NULL)
        capture->error = ENOMEM;
    return *side;
}

/* What is to be said at the end: a cut record, then of each side that it is unfinished or was not read to
 * its end, client and server first. */
static bool next_end(struct session *session) {
    if (session->event == MESSAGE && capture_cut(session->capture) != NOT_CUT) {
        session->event = CUT_RECORD;
        session->unfinished++;
        return true;
    }
    while (session->sides_ended < SIDES) {
        const struct side *side = session->sides[session->sides_ended++];
        if (side != NULL && (side->held > 0 || side->unread > 0)) {
            session->event = side->held > 0 ? UNFINISHED : UNREAD_REST;
            session->unfinished += side->held > 0;
            session->side = side;
            return true;
        }
    }
    return false;
}

bool session_next(struct session *session) {
    struct side *side;
    while ((side = next_side(session)) != NULL)
        if (take_bytes(session, side))
            return true;
    return session->capture->error == 0 && next_end(session);
}

const rembulfose_answer *session_refusal(const struct session *session, const struct part **part) {
    const struct message *message = &session->message;
    *part = NULL;
    if (message->answer.number != 0)
        return &message->answer;
    for (unsigned i = 0; i < message->part_count; i++)
        if (message->parts[i].answer.number != 0) {
            *part = &message->parts[i];
            return &message->parts[i].answer;
        }
    return NULL;
}
