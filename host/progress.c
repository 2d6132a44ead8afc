#define _POSIX_C_SOURCE 200809L
#include "progress.h"

#include <stdio.h>
#include <unistd.h>

enum { LONG_CAPTURE = 1 << 20, WIDTH = 40 };

struct progress progress_for(uint64_t whole, bool busy) {
    bool same_terminal = busy && isatty(STDOUT_FILENO);
    bool shown = whole >= LONG_CAPTURE && isatty(STDERR_FILENO) && !same_terminal;
    return (struct progress){shown, whole, 101};
}

void progress_at(struct progress *progress, uint64_t done) {
    if (!progress->shown)
        return;
    unsigned percent = (unsigned)(done / (progress->whole / 100));
    percent = percent > 100 ? 100 : percent;
    if (percent == progress->percent)
        return;
    progress->percent = percent;
    fputs("\r[", stderr);
    for (unsigned i = 0; i < WIDTH; i++)
        fputc(i * 100 < percent * WIDTH ? '#' : '.', stderr);
    fprintf(stderr, "] %3u%%", percent);
    fflush(stderr);
}

void progress_end(struct progress *progress) {
    if (progress->shown)
        fprintf(stderr, "\r%*s\r", WIDTH + 8, "");
    progress->shown = false;
}
