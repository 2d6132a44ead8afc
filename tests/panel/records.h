/* Captures in memory, record by record, for the tests: with none of the panel program's code that reads
 * them. Any failure ends the program. */
#ifndef RECORDS_H
#define RECORDS_H

#include "../../host/capture.h"

#include <stdio.h>
#include <stdlib.h>

/* Bytes that grow. */
struct bytes {
    uint8_t *at;
    size_t length, room;
};

/* Ends the program, and says why, if something is not so. */
static inline void must(int good, const char *what) {
    if (good)
        return;
    perror(what);
    exit(2);
}

void append(struct bytes *bytes, const uint8_t *from, size_t length);

/* A file's bytes; to be freed. */
struct bytes load(const char *name);

/* Writes bytes to FOLDER/NAME.capture. */
void save(const char *folder, const char *name, const uint8_t *bytes, size_t length);

/* A record, with the place of its head and of what is behind it. */
struct found {
    uint8_t side;
    size_t head, at, length;
};

bool is_marked(const struct bytes *capture);

/* The record at `*position`, which moves past it; false where no whole one is. The first stands behind
 * the first line. */
bool next_record(const struct bytes *capture, size_t *position, struct found *record);

/* Appends a record. */
void append_record(struct bytes *capture, uint8_t side, const uint8_t *bytes, size_t length);

/* The capture with every record cut into records of the same side: of so many bytes each, or of any
 * number at random if that is 0. A record that the end cuts off stays as it is. A one-sided capture
 * counts as one record of `side`. To be freed. */
struct bytes cut_records(const struct bytes *capture, uint8_t side, size_t size);

/* The same numbers everywhere. */
uint64_t draw(void);

#endif
