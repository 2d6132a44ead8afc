/* Captures whose records cut messages, made from the short form of the demo. */
#ifndef JOINED_H
#define JOINED_H

#include "records.h"

enum { MOST_RECORDS = 64 };

/* The records of the short form, a message each, counted from 0: the client's handshake and a parameter,
 * the state's description, the client's Sync, the description of rows, two rows, and the closing
 * messages. */
enum { HANDSHAKE, PARAMETER, STATE, READY, SYNC, DESCRIPTION, ROW_1, ROW_2, COMPLETE, TWICE = 12 };

/* A capture in memory, with the place of each record's head. */
struct copy {
    uint8_t *bytes;
    size_t length;
    size_t records[MOST_RECORDS + 1]; /* the last is the end */
    size_t count;
};

void save_joined(const char *folder, const struct copy *two_rows);

#endif
