/* A capture of the wire, from a file or standard input, read as it comes.
 *
 * Side-marked: the line "rembulfose-capture 1", then records, each of
 *     1 byte    the side that sent it: 0 client, 1 server
 *     4 bytes   how many bytes follow, big-endian
 *     bytes     what that side sent next, cut anywhere
 * One-sided: anything else is the bytes of one side as they went over the wire, of the server
 * unless the user says --client.
 *
 * No message starts with an 'r', so the two cannot be confused.
 */
#ifndef CAPTURE_H
#define CAPTURE_H

#include "../include/rembulfose.h"

#include <stdbool.h>
#include <stddef.h>
#include <stdint.h>

#define CAPTURE_MAGIC "rembulfose-capture 1\n"

enum { CLIENT = REMBULFOSE_CLIENT, SERVER = REMBULFOSE_SERVER };
enum { RECORD_HEAD = 5, CAPTURE_BUFFER = 65536 };

/* The record whose bytes are given. A one-sided capture has none. */
struct record {
    uint32_t side;
    size_t promised, given; /* how many bytes its head says, and how many were given so far */
};

struct capture {
    const char *name;  /* for errors */
    int file;
    bool marked;
    bool ended;        /* nothing more is to be read */
    int error;         /* why it could not be read on, as errno has it; 0 if it could */
    uint32_t side;     /* whose bytes a one-sided capture holds */
    uint64_t whole;    /* bytes of the file; 0 if that is not known, as of a pipe */
    uint64_t position; /* bytes taken so far */
    struct record record;
    size_t start, end; /* what was read and is not taken yet, in the buffer */
    uint8_t buffer[CAPTURE_BUFFER];
};

/* Opens a capture and reads as much of it as tells whether it is side-marked. A null name, or "-", is
 * standard input. If it cannot be read `error` says why. To be closed either way. */
bool capture_open(struct capture *capture, const char *name, uint32_t side);

void capture_close(struct capture *capture);

/* Bytes that one side sent, at least one. */
struct piece {
    uint32_t side;
    const uint8_t *bytes;
    size_t length;
};

/* The next bytes, as soon as there are any; they stand until the next call. False at the end, and if the
 * capture cannot be read on. */
bool capture_next(struct capture *capture, struct piece *piece);

/* Whether the capture ends inside a record, or inside the head of one. To be asked at the end. */
enum cut { NOT_CUT, CUT_IN_HEAD, CUT_IN_RECORD };
enum cut capture_cut(const struct capture *capture);

#endif
