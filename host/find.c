#include "commands.h"
#include "hexview.h"
#include "messages.h"
#include "progress.h"
#include "tree.h"

#include <inttypes.h>

/* Moves to the message with a row; false if there is none. */
static bool go_to_row(struct session *session, unsigned long row) {
    struct progress progress = progress_for(session->capture->whole, false);
    bool found = false;
    while (!found && session_next(session)) {
        progress_at(&progress, session->capture->position);
        found = session->event == MESSAGE && session->message.row == row;
    }
    progress_end(&progress);
    return found;
}

/* The element as one number, where it is one. */
static void print_one_number(const struct screen *screen, rembulfose_number number) {
    if (number.number == 0)
        fprintf(screen->out, "as one number: format %u, bits %016" PRIx64 "\n",
                (unsigned)number.format, number.bits);
}

/* Prints the element that was found. A value with too many entries to be listed has no tree, and
 * the element's bytes are printed instead. */
static void print_found(const struct screen *screen, const struct message *message,
                        rembulfose_answer found, const uint8_t *path, size_t path_words) {
    const struct part *part = &message->parts[0];
    struct listed listed = {part->plan, part->sent.bytes, message->list,
                            part->answer.first / REMBULFOSE_ENTRY_WORDS};
    size_t entry;
    uint32_t parent;
    print_size(screen, PLAIN, found.second);
    fprintf(screen->out, " at %u of row %lu ", (unsigned)found.first, message->row);
    print_place(screen, part->sent.side, part->sent.at + found.first);
    fputc('\n', screen->out);
    if (part->answer.number == 0 && tree_entry(&listed, path, path_words, &entry, &parent)) {
        print_tree(screen, 0, &listed, entry, parent);
    } else {
        print_bytes(screen, part->sent.bytes + found.first, found.second);
        fputc('\n', screen->out);
    }
}

/* Faults of the value have their place in it; 35 and 36 are about the path alone. */
static int print_not_found(const struct screen *screen, const struct part *part,
                           rembulfose_answer answer) {
    if (answer.number == REMBULFOSE_NO_ENTRY || answer.number == REMBULFOSE_ABSENT_ELEMENT) {
        print(screen, BAD, "refused with %u: %s", (unsigned)answer.number,
              rembulfose_refusal_text(answer.number));
        fputc('\n', screen->out);
    } else {
        print_part_refusal(screen, 0, part);
    }
    return REFUSED;
}

static int find_in_row(const struct screen *screen, const struct message *message,
                       const uint8_t *path, size_t path_words) {
    const struct part *part = &message->parts[0];
    if (part->kind == UNREAD_PART) {
        print(screen, BAD, "row %lu is ", message->row);
        print_undescribed(screen, part);
        return REFUSED;
    }
    const struct plan *plan = part->plan;
    const struct sent *row = &part->sent;
    rembulfose_answer found = rembulfose_find(plan->words, plan->length, row->bytes, row->length,
                                              path, 4 * path_words);
    if (found.number != 0)
        return print_not_found(screen, part, found);
    print_found(screen, message, found, path, path_words);
    print_one_number(screen, rembulfose_find_number(plan->words, plan->length, row->bytes,
                                                    row->length, path, 4 * path_words));
    return DONE;
}

int command_find(struct capture *capture, unsigned long row, const uint8_t *path,
                 size_t path_words) {
    struct screen screen = screen_on(stdout, SIZE_MAX);
    struct session *session = session_new(capture);
    int status = REFUSED;
    if (session == NULL)
        return no_memory();
    if (go_to_row(session, row))
        status = find_in_row(&screen, &session->message, path, path_words);
    else if (capture->error == 0)
        print(&screen, BAD, "there is no row %lu: the capture has %lu\n", row, session->rows);
    session_free(session);
    return finished(status);
}
