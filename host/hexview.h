/* Bytes in hex with one place marked, and the words for a refusal. */
#ifndef HEXVIEW_H
#define HEXVIEW_H

#include "side.h"

/* Prints the lines of bytes around a place, 16 to a line or as many as the terminal is wide enough
 * for, with that byte marked. A place just past the last byte is marked as the end. */
void hexview(const struct screen *screen, unsigned depth, const uint8_t *bytes, size_t length,
             size_t place);

/* Prints where a byte stands in all that its side sent: "(byte 10082 from the server)". */
void print_place(const struct screen *screen, uint32_t side, uint64_t at);

/* Prints a refusal: number, meaning, place, and the bytes around it. */
void print_refusal(const struct screen *screen, unsigned depth, rembulfose_answer answer,
                   const struct sent *sent);

#endif
