/* The calls that find an element and its number as a C host makes them, on cases worked out by
 * hand.
 *
 *     cc -std=c11 -Wall -Wextra -pthread tests/c/finding.c target/staticlib/libc_panel.a \
 *         -o target/c-finding
 *
 * Values are written in hex, spaces for the eye only; plans and paths as decimal words. What is
 * lent must be as it was after the calls. The largest cases run on a thread with a small stack.
 */
#define _DEFAULT_SOURCE
#include "large.h"
#include "times.h"

enum {
    INT16 = REMBULFOSE_FORMAT_INT16,
    INT32 = REMBULFOSE_FORMAT_INT32,
    INT64 = REMBULFOSE_FORMAT_INT64,
    FLOAT32 = REMBULFOSE_FORMAT_FLOAT32,
    FLOAT64 = REMBULFOSE_FORMAT_FLOAT64,
    BOOL = REMBULFOSE_FORMAT_BOOL,
    MEMORY = REMBULFOSE_FORMAT_MEMORY
};

static int same_number(rembulfose_number one, rembulfose_number other) {
    return one.number == other.number && one.place == other.place && one.format == other.format &&
           one.bits == other.bits;
}

static rembulfose_number no_number(uint32_t number, uint32_t place) {
    return (rembulfose_number){number, place, 0, 0};
}

/* Makes both calls. */
static void finding(const char *name, const char *plan, const char *value, const char *path,
                    rembulfose_answer expected, rembulfose_number expected_number) {
    struct lent nodes = lent_words(plan), bytes = lent_bytes(value), steps = lent_words(path);
    rembulfose_answer answer = rembulfose_find(nodes.bytes, nodes.length, bytes.bytes, bytes.length,
                                               steps.bytes, steps.length);
    rembulfose_number number = rembulfose_find_number(
        nodes.bytes, nodes.length, bytes.bytes, bytes.length, steps.bytes, steps.length);
    count(name, same_answer(answer, expected) && same_number(number, expected_number) &&
                    unchanged(&nodes) && unchanged(&bytes) && unchanged(&steps));
}

/* An element that has no number. */
static void part(const char *name, const char *plan, const char *value, const char *path,
                 uint32_t start, uint32_t length) {
    finding(name, plan, value, path, answered(start, length), no_number(37, 0));
}

static void bad(const char *name, const char *plan, const char *value, const char *path,
                uint32_t number, uint32_t place) {
    finding(name, plan, value, path, refused(number, place), no_number(number, place));
}

/* A set of int64, and case 2 of docs/RULES.md, {7, -1}. */
#define SET_PLAN "6 4 1 5 2 2"
#define TWO                                                                                        \
    "00000001 0000000000000000 00000002 00000001 00000008 0000000000000007"                        \
    "00000008 ffffffffffffffff"

static void sets(void) {
    part("the whole set", SET_PLAN, TWO, "", 0, 44);
    finding("the first element", SET_PLAN, TWO, "0", answered(24, 8),
            (rembulfose_number){0, 0, INT64, 7});
    finding("the second element", SET_PLAN, TWO, "1", answered(36, 8),
            (rembulfose_number){0, 0, INT64, UINT64_MAX});
    bad("no third element", SET_PLAN, TWO, "2", 35, 0);
    bad("index of 80000000", SET_PLAN, TWO, "2147483648", 35, 0);
    bad("index of ffffffff", SET_PLAN, TWO, "4294967295", 35, 0);
    bad("below a leaf", SET_PLAN, TWO, "1 0", 35, 0);
    bad("in an empty set", SET_PLAN, "00000000 0000000000000000", "0", 35, 0);
    finding("in a set of arrays", "8 6 1 9 2 2 3 4",
            "00000001 0000000000000000 00000001 00000001 00000025 00000001 ffffffff 00000019"
            "00000001 0000000000000000 00000001 00000001 00000001 01",
            "0 0", answered(60, 1), (rembulfose_number){0, 0, BOOL, 1});
}

/* An output object of two int64, of which the second is absent. */
#define OUTPUT_PLAN "10 4 1 5 5 2 2 65 2 111"
#define ONE_ABSENT "00000002 00000005 00000008 0000000000000007 80000000 ffffffff"
/* An input object of a bool, which is required, and two enumerations: here 1, then 0. */
#define INPUT_PLAN "13 5 1 9 8 6 3 2 65 4 111 4 111"
#define ORDERED "00000002 00000001 00000002 6162 00000000 00000001 01"

static void objects(void) {
    part("empty tuple in a tuple", "10 6 1 3 4 0 4 2 2 4",
         "00000002 ffffffff 00000002 8000 00000000 00000004 00000000", "1", 22, 4);
    finding("element of an object", OUTPUT_PLAN, ONE_ABSENT, "0", answered(12, 8),
            (rembulfose_number){0, 0, INT64, 7});
    bad("absent element", OUTPUT_PLAN, ONE_ABSENT, "1", 36, 0);
    bad("below an absent element", OUTPUT_PLAN, ONE_ABSENT, "1 0", 35, 0);
    part("sparse, sent first", INPUT_PLAN, ORDERED, "1", 12, 2);
    finding("sparse, sent second", INPUT_PLAN, ORDERED, "0", answered(22, 1),
            (rembulfose_number){0, 0, BOOL, 1});
    bad("sparse, not sent", INPUT_PLAN, ORDERED, "2", 35, 0);
    finding("upper bound alone", "6 4 1 4 7 2", "0c 00000004 fffffff7", "1", answered(5, 4),
            (rembulfose_number){0, 0, INT32, (uint64_t)-9});
    bad("no lower bound", "6 4 1 4 7 2", "0c 00000004 fffffff7", "0", 35, 0);
    bad("in an empty range", "6 4 1 4 7 2", "01", "0", 35, 0);
    bad("no type", "2 0", "", "", 35, 0);
    bad("no type and a path", "2 0", "", "0", 35, 0);
}

static void number(const char *name, const char *plan, const char *value, uint32_t length,
                   uint32_t format, uint64_t bits) {
    finding(name, plan, value, "", answered(0, length), (rembulfose_number){0, 0, format, bits});
}

/* Every bit of a float is kept, also where it is no number. */
static void numbers(void) {
    number("int16", "4 2 1 3", "8001", 2, INT16, 0xffffffffffff8001);
    number("int32", "4 2 1 4", "000a0131", 4, INT32, 655665);
    number("int64", "4 2 1 5", "8000000000000001", 8, INT64, 0x8000000000000001);
    number("float32", "4 2 1 6", "c17a0000", 4, FLOAT32, 0xc17a0000);
    number("float32 that is no number", "4 2 1 6", "ffa00001", 4, FLOAT32, 0xffa00001);
    number("float64", "4 2 1 7", "c02f400000000000", 8, FLOAT64, 0xc02f400000000000);
    number("float64 that is no number", "4 2 1 7", "7ff0000000000001", 8, FLOAT64,
           0x7ff0000000000001);
    number("bool", "4 2 1 9", "01", 1, BOOL, 1);
    number("memory", "4 2 1 19", "0000000007b00000", 8, MEMORY, 0x07b00000);
    part("str", "4 2 1 1", "37", "", 0, 1);
    part("bigint", "4 2 1 16", "0001 0000 0000 0000 0007", "", 0, 10);
    part("datetime", "4 2 1 10", "0000000000000007", "", 0, 8);
    part("enumeration", "3 2 8", "37", "", 0, 1);
    part("tuple of one int64", "7 4 1 5 4 1 2", "00000001 00000000 00000008 0000000000000007", "",
         0, 20);
}

static void good_time(const struct timed *timed) {
    part(timed->name, timed->plan, timed->value, timed->place->path, timed->place->start, 8);
}

/* Whatever the path is: to the time, to the value as a whole, to nothing. */
static void bad_time(const struct timed *timed) {
    const char *const paths[] = {timed->place->path, "", "9"};
    for (size_t i = 0; i < sizeof paths / sizeof paths[0]; i++)
        bad(timed->name, timed->plan, timed->value, paths[i], 24, timed->place->start);
}

/* 33, 28, the value's faults, 35 or 36, 37; a path that cannot cross has 35's turn. */
static void order(void) {
    uint8_t plan_bytes[MOST], bytes[MOST];
    const uint8_t path[8] = {0};
    size_t plan_length = words_of(SET_PLAN, plan_bytes), length = bytes_of(TWO, bytes);
    bad("bad plan", "6 4 1 20 2 2", TWO "00", "9", 33, 0);
    bad("bad value", SET_PLAN, TWO "00", "9", 21, 0);
    bad("bad element", SET_PLAN,
        "00000001 0000000000000000 00000001 00000001 00000007 00000000000000", "0", 24, 24);
    bad("no type with a byte", "2 0", "00", "", 21, 0);
    count("path of 3 bytes",
          same_answer(rembulfose_find(plan_bytes, plan_length, bytes, length, path, 3),
                      refused(35, 0)));
    count(
        "path of 5 bytes in a bad value",
        same_answer(rembulfose_find(plan_bytes, plan_length, bytes, 43, path, 5), refused(20, 0)));
    count("path of 5 bytes by a bad plan",
          same_answer(rembulfose_find(plan_bytes, 23, bytes, 43, path, 5), refused(33, 0)));
    count("number, path of 3 bytes",
          same_number(rembulfose_find_number(plan_bytes, plan_length, bytes, length, path, 3),
                      no_number(35, 0)));
}

/* A null pointer may be lent with length 0. */
static void null_pointers(void) {
    const uint8_t enumeration[12] = {0, 0, 0, 3, 0, 0, 0, 2, 0, 0, 0, 8};
    count("no value and no path",
          same_answer(rembulfose_find(enumeration, 12, NULL, 0, NULL, 0), answered(0, 0)));
    count("no plan", same_answer(rembulfose_find(NULL, 0, NULL, 0, NULL, 0), refused(33, 0)));
    count("number, no plan",
          same_number(rembulfose_find_number(NULL, 0, NULL, 0, NULL, 0), no_number(33, 0)));
}

/* The large cases. */

static uint8_t path[4 * (MOST_WORDS + 1)];

/* So many indexes of 0, then one. */
static int finds(uint32_t zeros, uint32_t last, rembulfose_answer answer) {
    memset(path, 0, sizeof path);
    put_word(path + 4 * zeros, last);
    size_t length = 4 * (size_t)(zeros + 1);
    rembulfose_number number =
        rembulfose_find_number(plan, 4 * plan_words, value, value_bytes, path, length);
    uint32_t expected_number = answer.number ? answer.number : 37;
    return same_answer(rembulfose_find(plan, 4 * plan_words, value, value_bytes, path, length),
                       answer) &&
           same_number(number, no_number(expected_number, answer.place));
}

static void large(void) {
    deep_leaf(31, 65079);
    count("31 steps down", finds(30, 0, answered(MOST_VALUE - 65079, 65079)));
    count("32 steps down", finds(31, 0, refused(35, 0)));
    count("30 steps down, none there", finds(29, 1, refused(35, 0)));
    count("8,192 words", finds(MOST_WORDS - 1, 0, refused(35, 0)));
    count("8,193 words", finds(MOST_WORDS, 0, refused(35, 0)));
    value_bytes++;
    count("65,536 bytes", finds(31, 0, refused(28, 0)));
    deep_leaf(32, 65055);
    count("height 33", finds(31, 0, refused(33, 0)));
    deep_record();
    count("31 steps down input objects", finds(30, 0, answered(31 * 12, MOST_VALUE - 31 * 12)));
    deep_set(16267);
    count("the last of 16,267 elements", finds(30, 16266, answered(value_bytes, 0)));
    count("one after it", finds(30, 16267, refused(35, 0)));
    value[value_bytes - 1] = 1;
    count("the last passes its end", finds(30, 0, refused(20, value_bytes - 20 - 4 * 16267)));
    long_plan(MOST_WORDS);
    count("plan of 8,192 words", finds(0, 0, answered(12, 0)));
}

int main(void) {
    sets();
    objects();
    numbers();
    try_times(good_time, bad_time);
    order();
    null_pointers();
    small_stack(large);
    return finish();
}
