/* Where the program prints, and whether in colour. */
#ifndef SCREEN_H
#define SCREEN_H

#include <stdbool.h>
#include <stddef.h>
#include <stdint.h>
#include <stdio.h>

enum ink { PLAIN, STRONG, FAINT, GOOD, BAD };

struct screen {
    FILE *out;
    bool colour;
    size_t most_text; /* texts and bytes longer than this are cut, and the cut is said */
    size_t columns;   /* of the terminal */
};

/* A screen on a stream: in colour only if that is a terminal and NO_COLOR is not set. */
struct screen screen_on(FILE *out, size_t most_text);

/* Prints as printf does, in a colour. */
void print(const struct screen *screen, enum ink ink, const char *format, ...)
    __attribute__((format(printf, 3, 4)));

/* "1 byte", "2 bytes". */
void print_size(const struct screen *screen, enum ink ink, size_t bytes);

/* Spaces at the start of a line. */
void print_indent(const struct screen *screen, unsigned depth);

/* How a text stands on its line. QUOTED: in quotation marks, with those inside and backslashes
 * escaped. BARE: backslashes and spaces escaped. AS_IT_IS: for JSON, which has escapes of its own. */
enum writing { QUOTED, BARE, AS_IT_IS };

/* Prints UTF-8 text. Control characters, blanks and all else that shows nothing, and marks that turn the
 * direction of writing are printed as escapes, so that no text can move the cursor or hide a part of
 * itself. Bytes that are no UTF-8 are printed as \xNN. */
void print_text(const struct screen *screen, const uint8_t *text, size_t length,
                enum writing writing);

/* How many characters a UTF-8 text has. */
size_t text_width(const uint8_t *text, size_t length);

/* Prints bytes in hex. */
void print_bytes(const struct screen *screen, const uint8_t *bytes, size_t length);

/* Prints a uuid's 16 bytes. */
void print_uuid(const struct screen *screen, const uint8_t *bytes);

#endif
