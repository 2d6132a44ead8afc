#include "commands.h"
#include "messages.h"
#include "progress.h"

/* Of a message its head and the first refusal in it. */
static void print_refused(const struct screen *screen, const struct session *session) {
    const struct message *message = &session->message;
    const struct part *part;
    if (session->event != MESSAGE) {
        print_event(screen, session);
        return;
    }
    print_message_head(screen, message);
    if (session_refusal(session, &part) != NULL && part != NULL)
        print_part_refusal(screen, 2, part);
    else
        print_message_refusal(screen, 2, message);
}

/* Whether the current message holds a value that is not described. */
static bool unread(const struct session *session) {
    const struct message *message = &session->message;
    return session->event == MESSAGE && message->part_count > 0 &&
           message->parts[0].kind == UNREAD_PART;
}

/* The closing lines where nothing was refused. A capture without a message has not been found good. */
static int print_outcome(const struct screen *screen, const struct session *session,
                         unsigned long unread_values) {
    print_sum(screen, session);
    if (session->messages > 0 && unread_values == 0)
        return DONE;
    if (session->messages == 0)
        print(screen, BAD, "there was nothing to check");
    else
        print(screen, BAD, "not checked, as no description of them was met: %lu value%s",
              unread_values, unread_values == 1 ? "" : "s");
    fputc('\n', screen->out);
    return REFUSED;
}

int command_check(struct capture *capture) {
    struct screen screen = screen_on(stdout, MOST_TEXT);
    struct progress progress = progress_for(capture->whole, false);
    struct session *session = session_new(capture);
    unsigned long unread_values = 0;
    int status = DONE;
    if (session == NULL)
        return no_memory();
    while (status == DONE && session_next(session)) {
        progress_at(&progress, capture->position);
        unread_values += unread(session);
        status = session->refused + session->unfinished > 0 ? REFUSED : DONE;
    }
    progress_end(&progress);
    if (status == REFUSED)
        print_refused(&screen, session);
    else if (capture->error == 0)
        status = print_outcome(&screen, session, unread_values);
    session_free(session);
    return finished(status);
}
