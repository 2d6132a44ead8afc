#include "messages.h"

#include "hexview.h"
#include "layouts.h"
#include "tree.h"

#include <inttypes.h>

enum { FIELD_WIDTH = 18 };

/* The fields of a message that are still to be printed. */
struct fields {
    const struct message *message;
    size_t next; /* a word of the list */
};

/* "server D Data": who sent it, its type byte, and its name. */
static void print_title(const struct screen *screen, enum ink ink, uint32_t side, uint8_t type) {
    const struct layout *layout = layout_of(side, type);
    bool letter = type > 0x20 && type < 0x7f;
    print_side(screen, ink, side);
    print(screen, ink, letter ? " %c" : " %02x", type);
    print(screen, ink, " %s", layout == NULL ? "(unknown)" : layout->name);
}

void print_message_head(const struct screen *screen, const struct message *message) {
    const struct sent *sent = &message->sent;
    print(screen, STRONG, "message %lu: ", message->number);
    print_title(screen, STRONG, sent->side, sent->bytes[0]);
    print(screen, FAINT, message->answer.number == REMBULFOSE_BAD_LENGTH ? ", a head of " : ", ");
    print_size(screen, FAINT, sent->length);
    print(screen, FAINT, " at %" PRIu64, sent->at);
    if (message->row > 0)
        print(screen, GOOD, ", row %lu", message->row);
    fputc('\n', screen->out);
}

static uint64_t number_of(const uint8_t *bytes, size_t length) {
    uint64_t number = 0;
    for (size_t i = 0; i < length; i++)
        number = number << 8 | bytes[i];
    return number;
}

static void print_code(const struct screen *screen, const struct code *codes, uint8_t code) {
    while (codes->meaning != NULL && codes->code != code)
        codes++;
    fprintf(screen->out, "%s (%02x)", codes->meaning == NULL ? "unknown" : codes->meaning, code);
}

/* Bytes that are printable letters only are more often meant as text. */
static bool looks_like_text(const uint8_t *bytes, size_t length) {
    for (size_t i = 0; i < length; i++)
        if (bytes[i] < 0x20 || bytes[i] > 0x7e)
            return false;
    return length > 0;
}

static void print_field(const struct screen *screen, const struct field *field,
                        const uint8_t *bytes, size_t length) {
    if (field->form == TEXT || (field->form == BYTES_FIELD && looks_like_text(bytes, length)))
        print_text(screen, bytes, length, QUOTED);
    else if (field->form == BYTES_FIELD)
        print_size(screen, PLAIN, length);
    else if (field->form == UUID_FIELD && length == 16)
        print_uuid(screen, bytes);
    else if (field->form == CODE && length == 1)
        print_code(screen, field->codes, bytes[0]);
    else if (field->form == BITS)
        fprintf(screen->out, "%0*" PRIx64, (int)(2 * length), number_of(bytes, length));
    else
        fprintf(screen->out, "%" PRIu64, number_of(bytes, length));
    fputc('\n', screen->out);
}

static void print_fields(const struct screen *screen, unsigned depth, const struct field *field,
                         struct fields *fields);

/* A run's items, each with its number. */
static void print_items(const struct screen *screen, unsigned depth, const struct field *items,
                        uint64_t count, struct fields *fields) {
    for (uint64_t i = 0; i < count; i++) {
        print_indent(screen, depth);
        fprintf(screen->out, "%" PRIu64 ":\n", i);
        print_fields(screen, depth + 1, items, fields);
    }
}

static void print_fields(const struct screen *screen, unsigned depth, const struct field *field,
                         struct fields *fields) {
    const struct message *message = fields->message;
    for (; field->name != NULL && fields->next + 2 <= message->answer.second; field++) {
        const uint8_t *bytes = message->sent.bytes + rembulfose_word(message->fields, fields->next);
        size_t length = rembulfose_word(message->fields, fields->next + 1);
        fields->next += 2;
        print_indent(screen, depth);
        fprintf(screen->out, "%-*s ", FIELD_WIDTH, field->name);
        print_field(screen, field, bytes, length);
        if (field->form == RUN)
            print_items(screen, depth + 1, field->items, number_of(bytes, length), fields);
    }
}

void print_message_refusal(const struct screen *screen, unsigned depth,
                           const struct message *message) {
    print_refusal(screen, depth, message->answer, &message->sent);
}

void print_part_refusal(const struct screen *screen, unsigned depth, const struct part *part) {
    print_refusal(screen, depth, part->answer, &part->sent);
}

static void print_descriptor(const struct screen *screen, const struct part *part) {
    print_indent(screen, 1);
    fprintf(screen->out, "%s: ", part->sent.name);
    print_size(screen, PLAIN, part->sent.length);
    if (plan_root(part->plan) == 0)
        fputs(", no type\n", screen->out);
    else
        fprintf(screen->out, ", a plan of %u words\n", (unsigned)part->answer.first);
    print_plan(screen, 2, part->plan);
}

static void print_value(const struct screen *screen, const struct message *message,
                        const struct part *part) {
    struct listed listed = {part->plan, part->sent.bytes, message->list,
                            part->answer.first / REMBULFOSE_ENTRY_WORDS};
    print_indent(screen, 1);
    fprintf(screen->out, "%s: ", part->sent.name);
    print_size(screen, PLAIN, part->sent.length);
    fputs(listed.entries == 0 ? ", no type\n" : "\n", screen->out);
    print_tree(screen, 2, &listed, 0, 0);
}

void print_undescribed(const struct screen *screen, const struct part *part) {
    if (part->lost == 0)
        print(screen, BAD, "not described, as no description of it was met");
    else
        print(screen, BAD, "not described, since message %lu was refused", part->lost);
    fputc('\n', screen->out);
}

/* The bytes of a value that is not described. */
static void print_unread(const struct screen *screen, const struct part *part) {
    print_indent(screen, 1);
    print(screen, BAD, "%s: ", part->sent.name);
    print_undescribed(screen, part);
    print_indent(screen, 2);
    print_bytes(screen, part->sent.bytes, part->sent.length);
    fputc('\n', screen->out);
}

static void print_part(const struct screen *screen, const struct message *message,
                       const struct part *part) {
    if (part->answer.number != 0)
        print_part_refusal(screen, 2, part);
    else if (part->kind == DESCRIPTOR_PART)
        print_descriptor(screen, part);
    else if (part->kind == VALUE_PART)
        print_value(screen, message, part);
    else
        print_unread(screen, part);
}

static void print_message(const struct screen *screen, const struct message *message) {
    const struct sent *sent = &message->sent;
    print_message_head(screen, message);
    if (message->answer.number != 0) {
        print_message_refusal(screen, 2, message);
        return;
    }
    struct fields fields = {message, 0};
    print_fields(screen, 1, layout_of(sent->side, sent->bytes[0])->fields, &fields);
    for (unsigned i = 0; i < message->part_count; i++)
        print_part(screen, message, &message->parts[i]);
}

static void print_cut_record(const struct screen *screen, const struct capture *capture) {
    bool in_head = capture_cut(capture) == CUT_IN_HEAD;
    size_t whole = in_head ? RECORD_HEAD : capture->record.promised;
    size_t there = in_head ? capture->end - capture->start : capture->record.given;
    print(screen, BAD, "the capture ends inside %s: of its %zu bytes %zu are there",
          in_head ? "the head of a record" : "a record", whole, there);
    fputc('\n', screen->out);
}

/* A side's last message, which is not whole: what is there of it, and what lacks, of the head as long as
 * that is not whole. */
static void print_unfinished(const struct screen *screen, const struct side *side) {
    print(screen, BAD, "unfinished: ");
    print_title(screen, BAD, side->number, side->bytes[0]);
    print(screen, BAD, ", ");
    print_size(screen, BAD, side->held);
    print(screen, BAD, " held at %" PRIu64 ", ", side->at);
    print_size(screen, BAD, side->lacks);
    print(screen, BAD, side->held < MESSAGE_HEAD ? " of its head lacking" : " lacking");
    fputc('\n', screen->out);
}

static void print_unread_rest(const struct screen *screen, const struct side *side) {
    print(screen, BAD, "not read: %" PRIu64 " byte%s from the ", side->unread,
          side->unread == 1 ? "" : "s");
    print_side(screen, BAD, side->number);
    print(screen, BAD, ", behind message %lu", side->ended);
    fputc('\n', screen->out);
}

void print_event(const struct screen *screen, const struct session *session) {
    switch (session->event) {
    case MESSAGE:
        print_message(screen, &session->message);
        return;
    case CUT_RECORD:
        print_cut_record(screen, session->capture);
        return;
    case UNFINISHED:
        print_unfinished(screen, session->side);
        return;
    case UNREAD_REST:
        print_unread_rest(screen, session->side);
        return;
    }
}

void print_sum(const struct screen *screen, const struct session *session) {
    print(screen, STRONG, "%lu message%s, %lu row%s, ", session->messages,
          session->messages == 1 ? "" : "s", session->rows, session->rows == 1 ? "" : "s");
    print(screen, session->refused > 0 ? BAD : GOOD, "%lu refused", session->refused);
    if (session->unfinished > 0)
        print(screen, BAD, ", %lu unfinished", session->unfinished);
    fputc('\n', screen->out);
}
