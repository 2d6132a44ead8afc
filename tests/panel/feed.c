/* Sends a capture down a pipe in pieces, each when the one before it was taken, so that the reader is given
 * one piece at a time.
 *
 *     feed SIZE CAPTURE | reader
 *
 * Pieces have SIZE bytes, or any number at random if SIZE is 0. */
#define _DEFAULT_SOURCE
#include "records.h"

#include <sched.h>
#include <signal.h>
#include <sys/ioctl.h>
#include <unistd.h>

enum { MOST_AT_RANDOM = 500 };

/* Waits until the pipe is empty; false if nobody reads it any more. */
static bool taken(void) {
    int left = 1;
    while (left > 0) {
        if (ioctl(STDOUT_FILENO, FIONREAD, &left) != 0)
            return false;
        sched_yield();
    }
    return true;
}

int main(int count, char **words) {
    must(count == 3, "usage: feed SIZE CAPTURE");
    struct bytes capture = load(words[2]);
    size_t size = (size_t)atoi(words[1]);
    signal(SIGPIPE, SIG_IGN); /* a reader that stops early is told by what it prints */
    for (size_t at = 0; at < capture.length && taken();) {
        size_t most = size > 0 ? size : 1 + draw() % MOST_AT_RANDOM;
        size_t next = most < capture.length - at ? most : capture.length - at;
        if (write(STDOUT_FILENO, capture.at + at, next) != (ssize_t)next)
            break;
        at += next;
    }
    free(capture.at);
    return 0;
}
