/* A bar on the terminal while a long capture is read. */
#ifndef PROGRESS_H
#define PROGRESS_H

#include <stdbool.h>
#include <stdint.h>

struct progress {
    bool shown;
    uint64_t whole;
    unsigned percent; /* last drawn */
};

/* A bar for so many bytes. It is drawn on standard error, only if that is a terminal, the capture
 * is long, and standard output does not fill the same terminal (`busy`: the command prints much). */
struct progress progress_for(uint64_t whole, bool busy);

void progress_at(struct progress *progress, uint64_t done);

/* Clears the bar's line. */
void progress_end(struct progress *progress);

#endif
