#include "commands.h"
#include "messages.h"
#include "progress.h"

int print_capture(struct capture *capture, bool live) {
    struct screen screen = screen_on(stdout, MOST_TEXT);
    struct progress progress = progress_for(live ? 0 : capture->whole, true);
    struct session *session = session_new(capture);
    bool printed = true;
    if (session == NULL)
        return no_memory();
    while (printed && session_next(session)) {
        print_event(&screen, session);
        progress_at(&progress, capture->position);
        printed = !live || fflush(stdout) == 0;
    }
    progress_end(&progress);
    if (capture->error == 0)
        print_sum(&screen, session);
    session_free(session);
    return finished(DONE);
}

int command_show(struct capture *capture) {
    return print_capture(capture, false);
}
