/* One side of the line: its bytes, which an intake of the library joins to messages. */
#ifndef SIDE_H
#define SIDE_H

#include "capture.h"
#include "screen.h"

enum { MESSAGE_HEAD = 5 };

struct side {
    uint32_t number;         /* as a record says it: CLIENT, SERVER, or one that knows no type */
    rembulfose_intake intake;
    uint32_t lacks;          /* bytes: of a head while fewer than 5 are held, then of the message */
    uint32_t held;           /* bytes of the message at hand */
    uint64_t at;             /* bytes of this side before it */
    unsigned long ended;     /* the message whose length is not permitted, or 0; nobody knows where the
                              * next one starts */
    uint64_t unread;         /* bytes that came behind that */
    const uint8_t *bytes;    /* the message at hand, in `kept` */
    uint8_t room[REMBULFOSE_MOST_MESSAGE]; /* the intake's, which promises nothing of it after a refusal */
    uint8_t kept[REMBULFOSE_MOST_MESSAGE]; /* so here are the bytes as they came. They end where the memory
                                            * does, so that a sanitizer finds whatever reads past them */
};

/* A side from which nothing has come; null if there is no memory. To be freed. */
struct side *side_new(uint32_t number);

/* Takes bytes from the front of a piece, none of them past the end of the message at hand. Whether that
 * is whole now, or refused: a number and a place if it is, else zeros, and its bytes stand until the
 * next call. */
bool side_take(struct side *side, struct piece *piece, rembulfose_answer *answer);

/* Passes over the message at hand: the next one starts behind it. */
void side_pass(struct side *side);

/* Bytes that a side has sent: a message, or a part of one. */
struct sent {
    const char *name; /* "message", "row", .. */
    const uint8_t *bytes;
    size_t length;
    uint32_t side;
    uint64_t at;      /* how many bytes the side sent before them */
};

/* Prints who sends: "client", "server", "unknown side 7". */
void print_side(const struct screen *screen, enum ink ink, uint32_t side);

#endif
