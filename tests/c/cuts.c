/* An intake gives the same however its deliveries are cut (docs/RULES.md, R10.3 to R10.5, R10.7, R10.8): each
 * sample message in two parts and byte by byte, and several messages with every two cuts.
 *
 *     cc -std=c11 -Wall -Wextra -pthread tests/c/cuts.c target/staticlib/libc_panel.a -o target/c-cuts
 *
 * Messages are written in hex, spaces for the eye only.
 */
#define _DEFAULT_SOURCE
#include "line.h"

/* ---- one message */

/* A message with a byte behind it, what it comes to, and how many of its bytes decide that. */
struct tried {
    const char *name;
    uint8_t bytes[MOST];
    size_t length, deciding;
    uint32_t side, number, place;
};

static struct tried tried_of(const char *name, uint32_t side, const char *message, uint32_t number,
                             uint32_t place) {
    struct tried tried = {.name = name, .side = side, .number = number, .place = place};
    tried.length = bytes_of(message, tried.bytes);
    tried.bytes[tried.length] = 0xff;
    tried.deciding = number == REMBULFOSE_BAD_LENGTH ? HEAD : tried.length;
    return tried;
}

/* The bytes from one place to another, which do not decide yet. */
static void part(const struct tried *tried, size_t from, size_t to) {
    size_t lacks = to < HEAD ? HEAD - to : tried->length - to;
    deliver(tried->name, tried->bytes + from, to - from, waits(to - from, to, lacks), tried->bytes, to);
}

/* The bytes that decide, and perhaps some behind them. A message that 2 or 32 refuses is not put in the
 * room; one that is given or refused when it is whole is (R10.7). */
static void decision(const struct tried *tried, size_t from, size_t to) {
    int by_head = tried->number == REMBULFOSE_BAD_LENGTH || tried->number == REMBULFOSE_OUTPUT_ROOM;
    rembulfose_delivery expected = tried->number == 0 ? gives(tried->length - from, tried->length)
                                                      : ends(tried->number, tried->place);
    deliver(tried->name, tried->bytes + from, to - from, expected, tried->bytes,
            by_head ? from : tried->length);
}

/* A call after the decision, with nothing to take. */
static void afterwards(const struct tried *tried) {
    rembulfose_delivery expected =
        tried->number == 0 ? waits(0, 0, HEAD) : stays(tried->number, tried->place);
    deliver(tried->name, NULL, 0, expected, tried->bytes, 0);
}

/* Cut at each place before the one that decides; all that is left comes with the second part. */
static void cut_once(const struct tried *tried, size_t room_len) {
    for (size_t cut = 0; cut < tried->deciding; cut++) {
        begin(tried->side, room_len);
        part(tried, 0, cut);
        decision(tried, cut, tried->length + 1);
        afterwards(tried);
    }
}

/* Byte by byte, with an empty delivery in front of each. */
static void single_bytes(const struct tried *tried, size_t room_len) {
    begin(tried->side, room_len);
    for (size_t at = 0; at + 1 < tried->deciding; at++) {
        part(tried, at, at);
        part(tried, at, at + 1);
    }
    decision(tried, tried->deciding - 1, tried->deciding);
    afterwards(tried);
}

static void in_parts(const struct tried *tried, size_t room_len) {
    cut_once(tried, room_len);
    single_bytes(tried, room_len);
}

/* In a room that just fits, in a larger one, and in one that is a byte short: 32 with the head, or at the
 * first byte if no head fits. A length that is not permitted goes before 32, but for a room of four. */
static void in_rooms(struct tried tried) {
    in_parts(&tried, tried.length);
    in_parts(&tried, tried.length + 3);
    tried.deciding = tried.length - 1 < HEAD ? 1 : HEAD;
    tried.number = REMBULFOSE_OUTPUT_ROOM;
    tried.place = 0;
    in_parts(&tried, tried.length - 1);
}

static void each_good(void) {
    for (size_t i = 0; i < GOOD_MESSAGES; i++) {
        const struct good *good = &good_messages[i];
        in_rooms(tried_of(good->name, good->side, good->message, 0, 0));
    }
}

static void each_bad(void) {
    for (size_t i = 0; i < BAD_MESSAGES; i++) {
        const struct bad *bad = &bad_messages[i];
        in_rooms(tried_of(bad->name, bad->side, bad->message, bad->number, bad->place));
    }
}

/* ---- several messages */

/* The messages that were given, one behind another, and how many. */
static uint8_t given[MOST];
static size_t given_length, given_messages;

/* Takes a delivery to its end, as a host does. */
static rembulfose_delivery drain(const uint8_t *delivery, size_t length) {
    rembulfose_delivery got;
    do {
        got = rembulfose_intake_take(state, delivery, length, room, room_length);
        state = got.intake, delivery += got.taken, length -= got.taken;
        memcpy(given + given_length, room, got.length);
        given_length += got.length;
        given_messages += got.length > 0;
    } while (got.length > 0);
    return got;
}

/* READY, DATA and what follows them, as three deliveries: the two are given, and the end is as expected. */
static void cut_twice(const uint8_t *joined, size_t length, size_t one, size_t other,
                      rembulfose_delivery expected) {
    uint8_t *src = copied(joined, length);
    begin(SERVER, 16);
    given_length = given_messages = 0;
    drain(src, one);
    drain(src + one, other - one);
    rembulfose_delivery got = drain(src + other, length - other);
    count("cut twice", got.number == expected.number && got.place == expected.place &&
                           got.length == 0 && got.lacks == expected.lacks &&
                           same_state(got.intake, expected.intake));
    count("cut twice, what was given",
          given_messages == 2 && given_length == 22 && same_bytes(given, joined, 22) &&
              same_bytes(room, joined + 22, got.intake.held));
    free(src);
}

static void cut_anywhere(const char *bytes, rembulfose_delivery expected) {
    uint8_t joined[MOST];
    size_t length = bytes_of(bytes, joined), cuts = length + 1;
    for (size_t i = 0; i < cuts * cuts; i++)
        if (i / cuts <= i % cuts)
            cut_twice(joined, length, i / cuts, i % cuts, expected);
}

/* Left is nothing, a part of a head, a part of a message, or a refusal by the head or of the whole. */
static void each_end(void) {
    begin(SERVER, 16);
    cut_anywhere(READY DATA, waits(0, 0, 5));
    cut_anywhere(READY DATA "5a 0000", waits(0, 3, 2));
    cut_anywhere(READY DATA "44 0000000d 0001", waits(0, 7, 7));
    cut_anywhere(READY DATA "5a 00000003 0000", ends(2, 0));
    cut_anywhere(READY DATA "44 00000010 0001", ends(32, 0));
    cut_anywhere(READY DATA "5a 00000007 0000 48" READY, ends(6, 7));
}

int main(void) {
    each_good();
    each_bad();
    each_end();
    end_line();
    return finish();
}
