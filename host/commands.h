/* What the program does. Each command gives the exit status. */
#ifndef COMMANDS_H
#define COMMANDS_H

#include "capture.h"

enum { DONE = 0, REFUSED = 1, TROUBLE = 2 };

/* Texts and bytes are cut after so many bytes; `find` prints them whole. */
enum { MOST_TEXT = 160 };

/* Prints every message. */
int command_show(struct capture *capture);

/* Prints the same of a line that is still going on. */
int command_follow(struct capture *capture);

/* What both do. Of a live line each message is to be seen as soon as it is whole, and there is no bar, as
 * nothing tells how much is to come. */
int print_capture(struct capture *capture, bool live);

/* Reads every message and prints the first that is refused, or what is unfinished; REFUSED if there is
 * any. */
int command_check(struct capture *capture);

/* Prints the element of a row that a path leads to. */
int command_find(struct capture *capture, unsigned long row, const uint8_t *path,
                 size_t path_words);

/* Whether all that was printed reached standard output; if not, it says so. */
int finished(int status);

/* Says that there is no memory. */
int no_memory(void);

#endif
