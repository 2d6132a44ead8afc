/* A line whose deliveries go through an intake: the state that the last call gave, the room, and what
 * the room must hold. Rooms and deliveries are on the heap with exactly their length, so that valgrind
 * tells of a byte past them. */
#ifndef LINE_H
#define LINE_H

#include "samples.h"

/* The bytes of a head, which are what is lacking while nothing is held. */
enum { HEAD = 5 };

/* Messages of 5, 8 and 14 bytes: the first is the client's, the others are the server's. */
#define SYNC "53 00000004"
#define READY "5a 00000007 0000 49"
#define DATA "44 0000000d 0001 00000003 010203"

static rembulfose_intake state;
static uint8_t *room, must_hold[MOST_MESSAGE];
static size_t room_length;

/* Memory for so many bytes; for none a null pointer, which may be lent too (R9.2). */
static inline uint8_t *exactly(size_t length) {
    uint8_t *memory = length > 0 ? malloc(length) : NULL;
    if (memory == NULL && length > 0) {
        perror("memory");
        exit(1);
    }
    return memory;
}

static inline uint8_t *copied(const uint8_t *bytes, size_t length) {
    uint8_t *memory = exactly(length);
    if (length > 0)
        memcpy(memory, bytes, length);
    return memory;
}

static inline int same_bytes(const uint8_t *one, const uint8_t *other, size_t length) {
    return length == 0 || memcmp(one, other, length) == 0;
}

static inline int same_state(rembulfose_intake one, rembulfose_intake other) {
    return one.room == other.room && one.side == other.side && one.held == other.held &&
           one.number == other.number && one.place == other.place;
}

static inline int same_delivery(rembulfose_delivery one, rembulfose_delivery other) {
    return same_state(one.intake, other.intake) && one.number == other.number &&
           one.place == other.place && one.taken == other.taken && one.length == other.length &&
           one.lacks == other.lacks;
}

/* What a call may answer, with the state that it returns. Bytes are lacking (R10.3, rows 1, 3, 6). */
static inline rembulfose_delivery waits(size_t taken, size_t held, size_t lacks) {
    rembulfose_intake after = {state.room, state.side, (uint32_t)held, 0, 0};
    return (rembulfose_delivery){after, 0, 0, (uint32_t)taken, 0, (uint32_t)lacks};
}

/* A message is given (row 8). */
static inline rembulfose_delivery gives(size_t taken, size_t length) {
    rembulfose_intake after = {state.room, state.side, 0, 0, 0};
    return (rembulfose_delivery){after, 0, 0, (uint32_t)taken, (uint32_t)length, HEAD};
}

/* A refusal ends the intake (rows 2, 4, 5 and 7; R10.5). */
static inline rembulfose_delivery ends(uint32_t number, uint32_t place) {
    rembulfose_intake after = {state.room, state.side, 0, number, place};
    return (rembulfose_delivery){after, number, place, 0, 0, 0};
}

/* A refusal that leaves the state alone: one that is repeated (R10.5), or another room (R10.6). */
static inline rembulfose_delivery stays(uint32_t number, uint32_t place) {
    return (rembulfose_delivery){state, number, place, 0, 0, 0};
}

/* A start, with a room that is filled (R10.2). */
static inline void begin(uint32_t side, size_t length) {
    free(room);
    memset(must_hold, FILL, sizeof must_hold);
    room = copied(must_hold, length);
    room_length = length;
    state = rembulfose_intake_start(side, length);
    count("start", same_state(state, (rembulfose_intake){length, side, 0, 0, 0}));
}

/* A reset, which is not told of the room (R10.2). */
static inline void reset(const char *name) {
    rembulfose_intake expected = {state.room, state.side, 0, 0, 0};
    state = rembulfose_intake_reset(state);
    count(name, same_state(state, expected));
}

/* Hands in a delivery. The room must then begin with `front` and be as it was behind that (R10.7). */
static inline void deliver(const char *name, const uint8_t *delivery, size_t length,
                           rembulfose_delivery expected, const uint8_t *front, size_t front_length) {
    uint8_t *src = copied(delivery, length);
    memcpy(must_hold, front, front_length);
    rembulfose_delivery got = rembulfose_intake_take(state, src, length, room, room_length);
    count(name, same_delivery(got, expected) && same_bytes(src, delivery, length) &&
                    same_bytes(room, must_hold, room_length));
    state = got.intake;
    free(src);
}

/* The same, in hex. */
static inline void take(const char *name, const char *delivery, rembulfose_delivery expected,
                        const char *front) {
    uint8_t bytes[MOST], front_bytes[MOST];
    size_t length = bytes_of(delivery, bytes), front_length = bytes_of(front, front_bytes);
    deliver(name, bytes, length, expected, front_bytes, front_length);
}

static inline void end_line(void) {
    free(room);
    room = NULL;
}

#endif
