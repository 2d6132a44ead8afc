/* The intake as a C host uses it, on cases worked out by hand from section 10 of docs/RULES.md.
 *
 *     cc -std=c11 -Wall -Wextra -pthread tests/c/intake.c target/staticlib/libc_panel.a \
 *         -o target/c-intake
 *
 * Deliveries and rooms are written in hex, spaces for the eye only. Every number of an answer and of its
 * state is compared, and the room whole. The largest cases run on a thread with a small stack.
 */
#define _DEFAULT_SOURCE
#include "line.h"

/* ---- every number crosses */

/* Another number in each field, in both halves of the largest: none is exchanged, cut off or lost. */
static void states_cross(void) {
    const rembulfose_intake mixed = {0xf1f2f3f4f5f6f7f8, 0xe1e2e3e4, 0xd1d2d3d4, 0xc1c2c3c4,
                                     0xb1b2b3b4};
    count("every field of a start",
          same_state(rembulfose_intake_start(0xa1a2a3a4, 0xf8f7f6f5f4f3f2f1),
                     (rembulfose_intake){0xf8f7f6f5f4f3f2f1, 0xa1a2a3a4, 0, 0, 0}));
    begin(SERVER, 8);
    state = mixed;
    take("every field of a state, with another room", READY, stays(32, 0), "");
    reset("every field of a reset");
    state = mixed;
    state.room = 8;
    take("every field of a state that is ended", READY, stays(0xc1c2c3c4, 0xb1b2b3b4), "");
}

/* Answers whose numbers are each another one. */
static void answers_cross(void) {
    begin(SERVER, 16);
    take("taken 6, held 6, lacks 8", "44 0000000d 00", waits(6, 6, 8), "44 0000000d 00");
    take("taken 1, held 7, lacks 7", "01", waits(1, 7, 7), "44 0000000d 0001");
    take("taken 7, length 14, lacks 5", "00000003 010203", gives(7, 14), DATA);
    take("number 5, place 8", "5a 00000009 0000 49 0000", ends(5, 8), "5a 00000009 0000 49 0000");
}

/* ---- deliveries */

/* A call gives one message at most, and what is behind it is left in the delivery (R10.4). */
static void several_messages(void) {
    begin(SERVER, 16);
    take("the first of two and a part", READY DATA "5a 0000", gives(8, 8), READY);
    take("the second and a part", DATA "5a 0000", gives(14, 14), DATA);
    take("a part", "5a 0000", waits(3, 3, 2), "5a 0000");
    take("its rest and another", "0007 0000 54" READY, gives(5, 8), "5a 00000007 0000 54");
    take("the other", READY, gives(8, 8), READY);
    take("nothing behind it", "", waits(0, 0, 5), "");
    take("a byte", "44", waits(1, 1, 4), "44");
    take("the rest of a head", "0000000d", waits(4, 5, 9), "44 0000000d");
    take("nothing behind the head", "", waits(0, 5, 9), "");
    take("a part of the body", "0001 00000003 0102", waits(8, 13, 1),
         "44 0000000d 0001 00000003 0102");
    take("the last byte, and a message that is refused", "03" SYNC, gives(1, 14), DATA);
    take("which is refused in its turn", SYNC, ends(4, 5), SYNC);
}

/* A pointer with a length of 0 is not read, null or not. */
static void empty_deliveries(void) {
    begin(SERVER, 8);
    for (int i = 0; i < 3; i++)
        take("nothing at all", "", waits(0, 0, 5), "");
    take("a part", "5a 0000", waits(3, 3, 2), "5a 0000");
    rembulfose_delivery got = rembulfose_intake_take(state, room + 8, 0, room, 8);
    count("no bytes, and a pointer that is not null",
          same_delivery(got, waits(0, 3, 2)) && same_bytes(room, must_hold, 8));
    take("the rest", "0007 0000 49", gives(5, 8), READY);
}

/* Two intakes that get their bytes in turn know nothing of each other: READY once, SYNC again and again. */
static void two_lines(void) {
    uint8_t ready[8], sync[5], one_room[8], other_room[5];
    rembulfose_intake one = rembulfose_intake_start(SERVER, 8);
    rembulfose_intake other = rembulfose_intake_start(CLIENT, 5);
    bytes_of(READY, ready);
    bytes_of(SYNC, sync);
    for (size_t i = 0; i < 8; i++) {
        rembulfose_delivery got = rembulfose_intake_take(one, ready + i, 1, one_room, 8);
        count("two lines, the one", got.number == 0 && got.length == (i == 7 ? 8 : 0));
        one = got.intake;
        got = rembulfose_intake_take(other, sync + i % 5, 1, other_room, 5);
        count("two lines, the other", got.number == 0 && got.length == (i == 4 ? 5 : 0));
        other = got.intake;
    }
    count("two lines, their rooms",
          same_bytes(one_room, ready, 8) && same_bytes(other_room, sync, 5) && other.held == 3);
}

/* ---- rooms */

/* No head fits: 32 at the first byte, whatever follows; to deliver nothing is no fault (rows 1 and 2). */
static void room_under_head(size_t length) {
    begin(CLIENT, length);
    take("small room, nothing", "", waits(0, 0, 5), "");
    take("small room, a byte", "53", ends(32, 0), "");
    begin(CLIENT, length);
    take("small room, a message", SYNC, ends(32, 0), "");
    begin(CLIENT, length);
    take("small room, a length that is not permitted", "53 00000003", ends(32, 0), "");
}

static void small_rooms(void) {
    for (size_t length = 0; length < HEAD; length++)
        room_under_head(length);
    begin(CLIENT, 5);
    take("room of 5, unknown type of 6 bytes", "99 00000005", ends(32, 0), "");
    begin(CLIENT, 5);
    take("room of 5, four bytes", "99 000000", waits(4, 4, 1), "99 000000");
    take("room of 5, the fifth byte", "05", ends(32, 0), "");
    begin(CLIENT, 5);
    take("room of 5, unknown type of 5 bytes", "99 00000004", ends(3, 0), "99 00000004");
    begin(CLIENT, 5);
    take("room of 5, a message", SYNC SYNC, gives(5, 5), SYNC);
    take("room of 5, another", SYNC, gives(5, 5), SYNC);
    begin(CLIENT, 5);
    take("room of 5, 2 before 32", "99 00010000", ends(2, 0), "");
    begin(CLIENT, 6);
    take("room of 6, unknown type of 6 bytes", "99 00000005", waits(5, 5, 1), "99 00000005");
    take("room of 6, the sixth byte", "00", ends(3, 0), "99 00000005 00");
    begin(CLIENT, 6);
    take("room of 6, unknown type of 7 bytes", "99 00000006", ends(32, 0), "");
}

/* The largest length, the largest that a room takes, and the next. */
static void lengths(void) {
    begin(SERVER, MOST_MESSAGE);
    take("length 65,535", "44 0000ffff", waits(5, 5, 65531), "44 0000ffff");
    begin(SERVER, MOST_MESSAGE);
    take("length 65,536, four bytes", "44 000100", waits(4, 4, 1), "44 000100");
    take("length 65,536, the fifth byte", "00", ends(2, 0), "");
    begin(SERVER, MOST_MESSAGE);
    take("length 2^32 - 1, with bytes behind it", "44 ffffffff 0001", ends(2, 0), "");
    begin(SERVER, MOST_MESSAGE - 1);
    take("room of 65,535, length 65,534", "44 0000fffe", waits(5, 5, 65530), "44 0000fffe");
    begin(SERVER, MOST_MESSAGE - 1);
    take("room of 65,535, length 65,535", "44 0000ffff", ends(32, 0), "");
    begin(SERVER, MOST_MESSAGE - 1);
    take("room of 65,535, length 65,536", "44 00010000", ends(2, 0), "");
}

/* Hands in a delivery with another room, of so many bytes: 32, and all is as it was, the line's own room
 * too (R10.6). */
static void take_elsewhere(const char *name, const char *delivery, size_t length) {
    uint8_t bytes[MOST], filled[MOST];
    size_t src_length = bytes_of(delivery, bytes);
    memset(filled, FILL, sizeof filled);
    uint8_t *src = copied(bytes, src_length), *other = copied(filled, length);
    rembulfose_delivery got = rembulfose_intake_take(state, src, src_length, other, length);
    count(name, same_delivery(got, stays(32, 0)) && same_bytes(other, filled, length) &&
                    same_bytes(room, must_hold, room_length));
    state = got.intake;
    free(other);
    free(src);
}

/* Before anything that the delivery holds; and the intake goes on as if it had not been. */
static void other_rooms(void) {
    begin(SERVER, 8);
    take_elsewhere("another room, nothing held", READY, 9);
    take_elsewhere("another room, no bytes", "", 7);
    take("a part in its own room", "5a 0000", waits(3, 3, 2), "5a 0000");
    take_elsewhere("a room of a byte more", "0007 0000 49", 9);
    take_elsewhere("a room of a byte fewer", "0007 0000 49", 7);
    take_elsewhere("a room in which no head fits", "0007 0000 49", 4);
    take_elsewhere("no room", "0007 0000 49", 0);
    take_elsewhere("no room and no bytes", "", 0);
    take_elsewhere("a length that is not permitted", "0003", 9);
    take("the rest in its own room", "0007 0000 49", gives(5, 8), READY);
    take_elsewhere("another room, a message given", READY, 16);
    begin(SERVER, 4);
    take_elsewhere("a room that is large enough, after a start with one that is not", READY, 8);
    take("the small one", READY, ends(32, 0), "");
}

/* ---- refusals, resets, sides */

/* What ends an intake, what is then in its room, and a message that it takes after a reset. */
struct ending {
    const char *name;
    uint32_t side;
    size_t room;
    const char *delivery;
    uint32_t number, place;
    const char *front, *good;
};

static const struct ending endings[] = {
    {"ended by 2", SERVER, 8, "5a 00000003", 2, 0, "", READY},
    {"ended by 3", SERVER, 8, "56 00000004", 3, 0, "56 00000004", READY},
    {"ended by 4", SERVER, 8, "5a 00000006 ffff", 4, 7, "5a 00000006 ffff", READY},
    {"ended by 5", SERVER, 9, "5a 00000008 0000 49 00", 5, 8, "5a 00000008 0000 49 00", READY},
    {"ended by 6", SERVER, 8, "5a 00000007 0000 48", 6, 7, "5a 00000007 0000 48", READY},
    {"ended by 32 with the head", CLIENT, 5, "99 00000005", 32, 0, "", SYNC},
    {"ended by 32 at the first byte", CLIENT, 4, "53", 32, 0, "", ""},
};

/* The refusal is given again whatever comes, also after another room, until a reset (R10.5, R10.6). */
static void after_ending(const struct ending *ending) {
    uint32_t number = ending->number, place = ending->place;
    begin(ending->side, ending->room);
    take(ending->name, ending->delivery, ends(number, place), ending->front);
    take(ending->name, ending->good, stays(number, place), "");
    take(ending->name, ending->delivery, stays(number, place), "");
    take(ending->name, "", stays(number, place), "");
    take(ending->name, "5a 00000003", stays(number, place), "");
    take_elsewhere(ending->name, ending->good, ending->room + 1);
    take_elsewhere(ending->name, "", ending->room - 1);
    take(ending->name, ending->good, stays(number, place), "");
}

/* A reset drops it, and the intake is as after a start (R10.2). */
static void after_reset(const struct ending *ending) {
    uint8_t good[MOST];
    size_t length = bytes_of(ending->good, good);
    reset(ending->name);
    take("after a reset, nothing", "", waits(0, 0, 5), "");
    take("after a reset, a message", ending->good,
         length > 0 ? gives(length, length) : waits(0, 0, 5), ending->good);
    reset("a reset after a message");
    take("the same refusal", ending->delivery, ends(ending->number, ending->place), ending->front);
}

static void each_ending(void) {
    for (size_t i = 0; i < sizeof endings / sizeof endings[0]; i++) {
        after_ending(&endings[i]);
        after_reset(&endings[i]);
    }
}

/* An unfinished message is dropped by a reset, in its head or behind it (R10.2). */
static void resets(void) {
    begin(SERVER, 16);
    reset("a reset at the start");
    take("a part of a head", "5a 0000", waits(3, 3, 2), "5a 0000");
    reset("a reset in a head");
    take("another message", DATA, gives(14, 14), DATA);
    take("a part of a body", "44 0000000d 0001", waits(7, 7, 7), "44 0000000d 0001");
    reset("a reset in a body");
    take("what would have been its rest", "00000003 010203", ends(32, 0), "");
    reset("a reset after a refusal");
    take("a message", READY, gives(8, 8), READY);
}

/* Length and room are looked at for any side; if it is neither the client's nor the server's, the type is
 * unknown once the message is whole (R2.4). */
static void other_sides(void) {
    begin(2, 5);
    take("side 2, 2", "53 00000003", ends(2, 0), "");
    reset("side 2 is kept");
    take("side 2, 32", "53 00000005", ends(32, 0), "");
    begin(2, 8);
    take("side 2, a part", "5a 00000007 0000", waits(7, 7, 1), "5a 00000007 0000");
    take("side 2, whole", "49", ends(3, 0), READY);
}

/* ---- states that no call gave (R10.10) */

/* So many bytes are said to be held, and these stand in the room. */
static void claim(uint32_t side, size_t length, uint32_t held, const char *contents) {
    uint8_t bytes[MOST];
    size_t contents_length = bytes_of(contents, bytes);
    begin(side, length);
    memcpy(must_hold, bytes, contents_length);
    if (contents_length > 0)
        memcpy(room, bytes, contents_length);
    state.held = held;
}

/* Of more bytes than the room has, as many are held as it has. A message in it is given as it stands. */
static void odd_held(void) {
    claim(CLIENT, 5, UINT32_MAX, SYNC);
    take("held past the room, a message in it", "53", gives(0, 5), "");
    claim(CLIENT, 5, 5, SYNC);
    take("held a whole message", "", gives(0, 5), "");
    claim(CLIENT, 8, 8, SYNC "aabbcc");
    take("held more than a message", SYNC, gives(0, 5), "");
    claim(CLIENT, 8, 6, SYNC "aabbcc");
    take("held a message and a byte", "", gives(0, 5), "");
    claim(CLIENT, 8, 0x80000000, "53 00000003");
    take("held past the room, 2", SYNC, ends(2, 0), "");
    claim(CLIENT, 8, 9, "53 00000008");
    take("held past the room, 32", SYNC, ends(32, 0), "");
    claim(CLIENT, 8, 0x100, "99 00000007 010203");
    take("held past the room, 3", "", ends(3, 0), "");
    claim(SERVER, 8, 6, "5a 00000007 00");
    take("held as calls could have led to", "0049 5a", gives(2, 8), READY);
    claim(CLIENT, 0, 9, "");
    take("held in no room", "", waits(0, 0, 5), "");
    claim(CLIENT, 4, 1, "53");
    take("held where no head fits", "", ends(32, 0), "");
    claim(CLIENT, 4, UINT32_MAX, "53000000");
    take("held past where no head fits", "04", ends(32, 0), "");
}

/* A number is repeated with its place, and the state kept, whatever the number is. */
static void odd_numbers(void) {
    static const uint32_t numbers[] = {1, 7, 31, 32, 38, 255, 256, 0x10000, UINT32_MAX};
    for (size_t i = 0; i < sizeof numbers / sizeof numbers[0]; i++) {
        claim(CLIENT, 8, 5, SYNC);
        state.number = numbers[i];
        state.place = 70000 + (uint32_t)i;
        take("a number that is repeated", SYNC, stays(numbers[i], 70000 + (uint32_t)i), "");
        take_elsewhere("a number and another room", SYNC, 9);
        reset("a number that is dropped");
    }
}

static const uint32_t helds[] = {0, 1,  4,  5,          6,          7,          8,
                                 9, 13, 14, 0x7fffffff, 0x80000000, 0xfffffffb, UINT32_MAX};

/* A room of DATA's bytes, so many of them said to be held, and a delivery of others. No more is taken or
 * given than there is, room and side are kept, and 1 is never given (R10.4). */
static int kept_inside(size_t length, uint32_t held, size_t src_length) {
    uint8_t bytes[MOST];
    bytes_of(DATA "00", bytes);
    uint8_t *lent = copied(bytes, length), *src = copied(bytes, src_length);
    rembulfose_intake claimed = {length, SERVER, held, 0, 0};
    rembulfose_delivery got = rembulfose_intake_take(claimed, src, src_length, lent, length);
    int good = got.taken <= src_length && got.length <= length && got.intake.held <= length &&
               got.intake.room == length && got.intake.side == SERVER &&
               same_bytes(src, bytes, src_length) && got.number != REMBULFOSE_NOT_WHOLE;
    free(lent);
    free(src);
    return good;
}

/* All these claims of a room of so many bytes, with deliveries of 0 to 12. Valgrind tells of a byte that
 * is touched outside. */
static void each_claim(size_t length) {
    enum { SOURCES = 13, CLAIMS = sizeof helds / sizeof helds[0] * SOURCES };
    for (size_t i = 0; i < CLAIMS; i++)
        count("any state", kept_inside(length, helds[i / SOURCES], i % SOURCES));
}

static void any_state(void) {
    for (size_t length = 0; length <= 15; length++)
        each_claim(length);
}

/* ---- large */

/* Puts a D whose row has so many bytes, no two neighbours alike; its length is returned. */
static uint32_t put_data(uint8_t *message, uint32_t row) {
    message[0] = 0x44;
    put_word(message + 1, row + 10);
    message[5] = 0;
    message[6] = 1;
    put_word(message + 7, row);
    for (uint32_t i = 0; i < row; i++)
        message[11 + i] = (uint8_t)(i * 7 + (i >> 8));
    return row + 11;
}

/* The longest message, in the segments of a line, with another behind it. */
static void longest_message(void) {
    enum { SEGMENT = 1448 };
    static uint8_t bytes[MOST_MESSAGE + 8];
    size_t at = 0;
    put_data(bytes, MOST_MESSAGE - 11);
    bytes_of(READY, bytes + MOST_MESSAGE);
    begin(SERVER, MOST_MESSAGE);
    for (; at + SEGMENT < MOST_MESSAGE; at += SEGMENT)
        deliver("65,536 bytes, a segment", bytes + at, SEGMENT,
                waits(SEGMENT, at + SEGMENT, MOST_MESSAGE - SEGMENT - at), bytes, at + SEGMENT);
    count("65,536 bytes, 45 segments", at == 65160);
    deliver("65,536 bytes", bytes + at, 376 + 8, gives(376, MOST_MESSAGE), bytes, MOST_MESSAGE);
    deliver("behind 65,536 bytes", bytes + MOST_MESSAGE, 8, gives(8, 8), bytes + MOST_MESSAGE, 8);
}

/* The message with the most fields. */
static uint8_t handshake[MOST_MESSAGE];

static void most_fields(void) {
    const uint32_t length = put_handshake(handshake, 8190);
    begin(CLIENT, length);
    deliver("8,190 parameters, all but a byte", handshake, length - 1, waits(65532, 65532, 1),
            handshake, length - 1);
    deliver("8,190 parameters", handshake + length - 1, 1, gives(1, 65533), handshake, length);
    handshake[10]++;
    deliver("8,191 parameters, of which the last is cut off", handshake, length, ends(4, 65531),
            handshake, length);
    handshake[10]--;
}

/* The reader has too little room for its list, from C always. The intake lists nothing, and gave it. */
static void unlisted(void) {
    static uint8_t list[4 * MOST_WORDS];
    count("8,190 parameters, read",
          same_answer(rembulfose_read_message(CLIENT, handshake, sizeof handshake, list, sizeof list),
                      refused(31, 0)));
}

enum { MESSAGES = 2000, ROWS = 5003 };

/* Some megabytes of messages, no two of one length; how many bytes they have is returned. */
static size_t put_many(uint8_t *source) {
    size_t at = 0;
    for (uint32_t i = 0; i < MESSAGES; i++)
        at += put_data(source + at, i * 7919 % ROWS);
    return at;
}

/* Whether a call took the message that stands here and gave it as it is. */
static int gave(rembulfose_delivery got, const uint8_t *message) {
    uint32_t length = 1 + rembulfose_word(message + 1, 0);
    return same_delivery(got, gives(length, length)) && same_bytes(room, message, length);
}

/* All of them as one delivery, but for the last byte: one call a message, and the last message lacks it. */
static void drained(void) {
    uint8_t *source = exactly(MESSAGES * (11 + ROWS));
    size_t length = put_many(source) - 1, at = 0, messages = 0;
    uint8_t *delivery = copied(source, length);
    begin(SERVER, 11 + ROWS);
    rembulfose_delivery got = rembulfose_intake_take(state, delivery, length, room, room_length);
    for (; got.length > 0 && gave(got, source + at); messages++) {
        at += got.taken;
        got = rembulfose_intake_take(got.intake, delivery + at, length - at, room, room_length);
    }
    count("megabytes of messages", length > 4000000 && messages == MESSAGES - 1);
    count("the last of them", same_delivery(got, waits(length - at, length - at, 1)) &&
                                  same_bytes(room, source + at, length - at));
    free(delivery);
    free(source);
}

static void large(void) {
    longest_message();
    most_fields();
    drained();
}

/* ---- lengths past 32 bits */

/* Memory of which hardly a page is used. */
static uint8_t *wide(size_t length) {
    void *memory = mmap(NULL, length, PROT_READ | PROT_WRITE,
                        MAP_PRIVATE | MAP_ANONYMOUS | MAP_NORESERVE, -1, 0);
    if (memory == MAP_FAILED) {
        perror("memory");
        exit(1);
    }
    return memory;
}

/* Without its upper half a length here would be 3, 0, 8 or 7, and the answer another one. */
static void wide_lengths(void) {
    const size_t beyond = (size_t)1 << 32, length = beyond + 4096;
    uint8_t *source = wide(length), *lent = wide(length);
    bytes_of(READY, source);
    begin(SERVER, 8);
    count("source of 2^32 + 3 bytes",
          same_delivery(rembulfose_intake_take(state, source, beyond + 3, room, 8), gives(8, 8)));
    count("source of 2^32 bytes",
          same_delivery(rembulfose_intake_take(state, source, beyond, room, 8), gives(8, 8)));
    count("room of 2^32 + 8 bytes, after a start with 8",
          same_delivery(rembulfose_intake_take(state, source, 8, lent, beyond + 8), stays(32, 0)));
    state = rembulfose_intake_start(SERVER, beyond + 7);
    count("start with 2^32 + 7 bytes",
          same_state(state, (rembulfose_intake){beyond + 7, SERVER, 0, 0, 0}));
    count("room of 2^32 + 7 bytes",
          same_delivery(rembulfose_intake_take(state, source, 8, lent, beyond + 7), gives(8, 8)) &&
              same_bytes(lent, source, 8));
    reset("reset with 2^32 + 7 bytes");
    count("unmapped", munmap(source, length) == 0 && munmap(lent, length) == 0);
}

int main(void) {
    states_cross();
    answers_cross();
    several_messages();
    empty_deliveries();
    two_lines();
    small_rooms();
    lengths();
    other_rooms();
    each_ending();
    resets();
    other_sides();
    odd_held();
    odd_numbers();
    any_state();
    small_stack(large);
    unlisted();
    wide_lengths();
    end_line();
    return finish();
}
