/* The header's constants and its word reader: each is compared with the number of docs/RULES.md, written out
 * here, and with what the library gives. A constant that is wrong, or two that are exchanged, cannot pass. And
 * how the intake's two structs lie in memory.
 *
 *     cc -std=c11 -Wall -Wextra -pthread tests/c/header.c target/staticlib/libc_panel.a \
 *         -o target/c-header
 *
 * Descriptors and values are written in hex, spaces for the eye only; plans and lists as decimal words.
 */
#define _DEFAULT_SOURCE
#include "cases.h"

#define ONES "11111111111111111111111111111111"
#define TWOS "22222222222222222222222222222222"
#define ZEROS "0000000000000000000000000000"
/* A block's name, which is empty, schema flag and no ancestors. */
#define SCHEMA "00000000 00 0000"
#define INT64 "03" ZEROS "0105" SCHEMA

/* A word, without the header's reader. */
static uint32_t word_at(const uint8_t *words, size_t index) {
    const uint8_t *at = words + 4 * index;
    return at[0] * 16777216u + at[1] * 65536u + at[2] * 256u + at[3];
}

/* Whether a descriptor's plan has exactly these words, by either reader. */
static int compiles(const char *descriptor, const char *root, const char *plan) {
    struct lent blocks = lent_bytes(descriptor), id = lent_bytes(root), expected = lent_words(plan);
    uint8_t words[MOST];
    rembulfose_answer answer = rembulfose_compile(blocks.bytes, blocks.length, id.bytes, id.length,
                                                  words, sizeof words);
    int good = same_answer(answer, accepted((uint32_t)(expected.length / 4)));
    for (size_t i = 0; good && i < answer.first; i++)
        good = word_at(words, i) == word_at(expected.bytes, i) &&
               rembulfose_word(words, i) == word_at(expected.bytes, i);
    return good;
}

/* The last two bytes of a scalar's id, the number of its format (R3.15), and the header's. */
struct format {
    const char *id;
    uint32_t number, constant;
};

static const struct format formats[20] = {
    {"0100", 0, REMBULFOSE_FORMAT_UUID},
    {"0101", 1, REMBULFOSE_FORMAT_STR},
    {"0102", 2, REMBULFOSE_FORMAT_BYTES},
    {"0103", 3, REMBULFOSE_FORMAT_INT16},
    {"0104", 4, REMBULFOSE_FORMAT_INT32},
    {"0105", 5, REMBULFOSE_FORMAT_INT64},
    {"0106", 6, REMBULFOSE_FORMAT_FLOAT32},
    {"0107", 7, REMBULFOSE_FORMAT_FLOAT64},
    {"0108", 8, REMBULFOSE_FORMAT_DECIMAL},
    {"0109", 9, REMBULFOSE_FORMAT_BOOL},
    {"010a", 10, REMBULFOSE_FORMAT_DATETIME},
    {"010b", 11, REMBULFOSE_FORMAT_LOCAL_DATETIME},
    {"010c", 12, REMBULFOSE_FORMAT_LOCAL_DATE},
    {"010d", 13, REMBULFOSE_FORMAT_LOCAL_TIME},
    {"010e", 14, REMBULFOSE_FORMAT_DURATION},
    {"010f", 15, REMBULFOSE_FORMAT_JSON},
    {"0110", 16, REMBULFOSE_FORMAT_BIGINT},
    {"0111", 17, REMBULFOSE_FORMAT_RELATIVE_DURATION},
    {"0112", 18, REMBULFOSE_FORMAT_DATE_DURATION},
    {"0130", 19, REMBULFOSE_FORMAT_MEMORY},
};

static void each_format(void) {
    char id[64], descriptor[128], plan[32];
    for (size_t i = 0; i < 20; i++) {
        snprintf(id, sizeof id, "%s%s", ZEROS, formats[i].id);
        snprintf(descriptor, sizeof descriptor, "03%s%s", id, SCHEMA);
        snprintf(plan, sizeof plan, "4 2 1 %u", (unsigned)formats[i].number);
        count(formats[i].id, compiles(descriptor, id, plan));
        count(formats[i].id, formats[i].constant == formats[i].number);
    }
    count("number of formats", REMBULFOSE_FORMATS == 20);
}

/* The header's kind, its number (R4.2), and a descriptor whose root is of it, with the plan. */
struct kind {
    uint32_t constant, number;
    const char *descriptor, *root, *plan;
};

#define ARRAY INT64 "06" ONES SCHEMA "0000 0001 ffffffff"

static const struct kind kinds[8] = {
    {REMBULFOSE_KIND_LEAF, 1, INT64, ZEROS "0105", "4 2 1 5"},
    {REMBULFOSE_KIND_SET_OR_ARRAY, 2, INT64 "00" ONES "0000", ONES, "6 4 1 5 2 2"},
    {REMBULFOSE_KIND_SET_OF_ARRAYS, 3, ARRAY "00" TWOS "0001", TWOS, "8 6 1 5 2 2 3 4"},
    {REMBULFOSE_KIND_TUPLE, 4, INT64 "04" ONES SCHEMA "0001 0000", ONES, "7 4 1 5 4 1 2"},
    {REMBULFOSE_KIND_OUTPUT_OBJECT, 5, INT64 "01" ONES "01 0000 0001 00000000 6f 00000000 0000 0000",
     ONES, "8 4 1 5 5 1 2 111"},
    {REMBULFOSE_KIND_INPUT_OBJECT, 6, INT64 "08" ONES "0001 00000000 41 00000001 6e 0000", ONES,
     "8 4 1 5 6 1 2 65"},
    {REMBULFOSE_KIND_RANGE, 7, INT64 "09" ONES SCHEMA "0000", ONES, "6 4 1 5 7 2"},
    {REMBULFOSE_KIND_ENUMERATION, 8, "07" ONES SCHEMA "0001 00000001 61", ONES, "3 2 8"},
};

static void each_kind(void) {
    for (size_t i = 0; i < 8; i++) {
        struct lent plan = lent_words(kinds[i].plan);
        uint32_t root = word_at(plan.bytes, 1);
        count(kinds[i].plan, compiles(kinds[i].descriptor, kinds[i].root, kinds[i].plan));
        count(kinds[i].plan, word_at(plan.bytes, root) == kinds[i].number);
        count(kinds[i].plan, kinds[i].constant == kinds[i].number);
    }
}

struct cardinality {
    const char *hex;
    uint32_t number, constant;
};

static const struct cardinality cardinalities[5] = {
    {"6e", 110, REMBULFOSE_CARDINALITY_NONE},
    {"6f", 111, REMBULFOSE_CARDINALITY_AT_MOST_ONE},
    {"41", 65, REMBULFOSE_CARDINALITY_ONE},
    {"6d", 109, REMBULFOSE_CARDINALITY_MANY},
    {"4d", 77, REMBULFOSE_CARDINALITY_AT_LEAST_ONE},
};

static void each_cardinality(void) {
    char descriptor[256], plan[32];
    for (size_t i = 0; i < 5; i++) {
        snprintf(descriptor, sizeof descriptor, "%s08%s0001 00000000 %s 00000001 6e 0000", INT64,
                 ONES, cardinalities[i].hex);
        snprintf(plan, sizeof plan, "8 4 1 5 6 1 2 %u", (unsigned)cardinalities[i].number);
        count(cardinalities[i].hex, compiles(descriptor, ONES, plan));
        count(cardinalities[i].hex, cardinalities[i].constant == cardinalities[i].number);
    }
}

/* A word of an entry, by its number in the list and the header's constant. */
static uint32_t entry_word(const uint8_t *list, size_t entry, enum rembulfose_entry which) {
    return rembulfose_word(list, entry * REMBULFOSE_ENTRY_WORDS + which);
}

/* An object of an int16 that may be absent, and is, an int16, and a tuple of two int16. Each of the five
 * words is looked at in an entry whose other words are different ones. */
static void entries(void) {
    struct lent plan = lent_words("16 8 1 3 4 2 2 2 5 3 2 111 2 65 4 65");
    struct lent value = lent_bytes("00000003 00000000 ffffffff 00000000 00000002 0102"
                                   "00000000 00000018 00000002 00000000 00000002 0304"
                                   "00000000 00000002 0506");
    struct lent expected = lent_words("8 0 0 54 3  2 0 12 4294967295 0  2 1 20 2 0  4 2 30 24 2  "
                                      "2 0 42 2 0  2 1 52 2 0");
    uint8_t list[MOST];
    rembulfose_answer answer = rembulfose_run(plan.bytes, plan.length, value.bytes, value.length,
                                              list, sizeof list);
    count("list", same_answer(answer, accepted(30)) && expected.length == 120 &&
                      memcmp(list, expected.bytes, 120) == 0);
    count("words of an entry", REMBULFOSE_ENTRY_WORDS == 5);
    count("node", entry_word(list, 3, REMBULFOSE_ENTRY_NODE) == 4);
    count("index", entry_word(list, 5, REMBULFOSE_ENTRY_INDEX) == 1);
    count("start", entry_word(list, 3, REMBULFOSE_ENTRY_START) == 30);
    count("length", entry_word(list, 3, REMBULFOSE_ENTRY_LENGTH) == 24);
    count("below", entry_word(list, 0, REMBULFOSE_ENTRY_BELOW) == 3);
    count("absent", entry_word(list, 1, REMBULFOSE_ENTRY_LENGTH) == REMBULFOSE_ABSENT);
    count("absent is ffffffff", REMBULFOSE_ABSENT == 4294967295);
}

static void words(void) {
    const uint8_t bytes[12] = {1, 2, 3, 4, 0xff, 0xfe, 0xfd, 0xfc, 0x80, 0, 0, 0x7f};
    count("word 0", rembulfose_word(bytes, 0) == 16909060);
    count("word 1", rembulfose_word(bytes, 1) == 4294901244);
    count("word 2", rembulfose_word(bytes, 2) == 2147483775);
}

/* The structs of the intake, which go to the library and back as they lie in memory: eight bytes for the
 * room, four for each other number, and four that fill up the second. */
static void layouts(void) {
    count("bytes of a state", sizeof(rembulfose_intake) == 24);
    count("a state's room", offsetof(rembulfose_intake, room) == 0);
    count("a state's side", offsetof(rembulfose_intake, side) == 8);
    count("a state's held", offsetof(rembulfose_intake, held) == 12);
    count("a state's number", offsetof(rembulfose_intake, number) == 16);
    count("a state's place", offsetof(rembulfose_intake, place) == 20);
    count("bytes of a delivery's answer", sizeof(rembulfose_delivery) == 48);
    count("a delivery's intake", offsetof(rembulfose_delivery, intake) == 0);
    count("a delivery's number", offsetof(rembulfose_delivery, number) == 24);
    count("a delivery's place", offsetof(rembulfose_delivery, place) == 28);
    count("a delivery's taken", offsetof(rembulfose_delivery, taken) == 32);
    count("a delivery's length", offsetof(rembulfose_delivery, length) == 36);
    count("a delivery's lacks", offsetof(rembulfose_delivery, lacks) == 40);
}

static void sizes(void) {
    const uint8_t handshake[13] = {0x56, 0, 0, 0, 12};
    uint8_t list[32];
    count("words of a room", REMBULFOSE_MOST_WORDS == 8192);
    count("bytes of a room", REMBULFOSE_ROOM == 32768);
    count("bytes of a value", REMBULFOSE_MOST_VALUE == 65535);
    count("bytes of a descriptor", REMBULFOSE_MOST_DESCRIPTOR == 65535);
    count("bytes of a message", REMBULFOSE_MOST_MESSAGE == 65536);
    count("client", REMBULFOSE_CLIENT == 0 &&
                        same_answer(rembulfose_read_message(REMBULFOSE_CLIENT, handshake, 13, list,
                                                            sizeof list),
                                    answered(13, 8)));
    count("server", REMBULFOSE_SERVER == 1 &&
                        same_answer(rembulfose_read_message(REMBULFOSE_SERVER, handshake, 13, list,
                                                            sizeof list),
                                    refused(3, 0)));
}

int main(void) {
    each_format();
    each_kind();
    each_cardinality();
    entries();
    words();
    layouts();
    sizes();
    return finish();
}
