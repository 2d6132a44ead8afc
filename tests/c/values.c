/* The call for values by plan as a C host makes it, on cases worked out by hand.
 *
 *     cc -std=c11 -Wall -Wextra -pthread tests/c/values.c target/staticlib/libc_panel.a \
 *         -o target/c-values
 *
 * Values are written in hex, spaces for the eye only; plans and lists as decimal words. Every room
 * is filled before the call and looked at whole after it, with some bytes more on either side. The
 * largest cases run on a thread with a small stack.
 */
#define _DEFAULT_SOURCE
#include "large.h"
#include "times.h"

/* Runs a value with room of so many bytes. */
static void running(const char *name, const char *plan, const char *value, size_t room,
                    rembulfose_answer expected, const char *list) {
    call_on(name, rembulfose_run, lent_words(plan), lent_bytes(value), room, expected, list);
}

/* A good value: with just enough room, with three bytes more, and with a byte less. */
static void good(const char *name, const char *plan, const char *value, const char *list) {
    uint8_t words[MOST];
    size_t length = words_of(list, words);
    running(name, plan, value, length, accepted((uint32_t)(length / 4)), list);
    running(name, plan, value, length + 3, accepted((uint32_t)(length / 4)), list);
    running(name, plan, value, length - 1, refused(31, 0), "");
}

static void bad(const char *name, const char *plan, const char *value, uint32_t number,
                uint32_t place) {
    running(name, plan, value, MOST, refused(number, place), "");
}

/* A set of int64, and an input object of one int64 that is required. */
#define SET_PLAN "6 4 1 5 2 2"
#define INPUT_PLAN "8 4 1 5 6 1 2 65"
#define TWO                                                                                        \
    "00000001 0000000000000000 00000002 00000001 00000008 0000000000000007"                        \
    "00000008 ffffffffffffffff"
#define ABSENT "4294967295"

/* The cases of docs/RULES.md that have a value. */
static void edges(void) {
    good("case 2", SET_PLAN, TWO, "4 0 0 44 2  2 0 24 8 0  2 1 36 8 0");
    good("case 3", SET_PLAN, "00000000 0000000000000000", "4 0 0 12 0");
    bad("case 4", SET_PLAN, "00000001 0000000000000000 00000000 00000001", 22, 0);
    bad("case 5", SET_PLAN,
        "00000001 0000000000000000 00000002 00000001 00000008 0000000000000007"
        "00000008 ffffffffffffff",
        20, 0);
    bad("case 6", SET_PLAN, TWO "00", 21, 0);
    bad("case 7", SET_PLAN, "00000001 0000000000000000 00000001 00000001 00000007 00000000000000",
        24, 24);
    bad("case 10", INPUT_PLAN, "00000000", 27, 0);
    bad("case 11", INPUT_PLAN,
        "00000002 00000000 00000008 0000000000000001 00000000 00000008 0000000000000002", 26, 0);
}

static void good_values(void) {
    good("set of arrays of bool", "8 6 1 9 2 2 3 4",
         "00000001 0000000000000000 00000001 00000001 00000025 00000001 ffffffff 00000019"
         "00000001 0000000000000000 00000001 00000001 00000001 01",
         "6 0 0 61 1  4 0 36 25 1  2 0 60 1 0");
    good("tuple of an int16 and an empty tuple", "10 6 1 3 4 0 4 2 2 4",
         "00000002 ffffffff 00000002 8000 00000000 00000004 00000000",
         "6 0 0 26 2  2 0 12 2 0  4 1 22 4 0");
    good("output object with an absent element", "10 4 1 3 5 2 2 65 2 111",
         "00000002 00000005 00000002 0007 80000000 ffffffff",
         "4 0 0 22 2  2 0 12 2 0  2 1 22 " ABSENT " 0");
    good("input object in another order", "11 5 1 9 8 6 2 2 65 4 111",
         "00000002 00000001 00000002 6162 00000000 00000001 01",
         "5 0 0 23 2  4 1 12 2 0  2 0 22 1 0");
    good("range with an upper bound", "6 4 1 4 7 2", "0c 00000004 00000009",
         "4 0 0 9 1  2 1 5 4 0");
    good("empty range", "6 4 1 4 7 2", "01", "4 0 0 1 0");
    good("reserved bytes of a set", SET_PLAN, "00000000 0123456789abcdef", "4 0 0 12 0");
    good("decimal", "4 2 1 8", "0004 0001 4000 0007 0001 1388 186a 0000", "2 0 0 16 0");
    good("bigint", "4 2 1 16", "0002 0001 4000 0000 0001 1388", "2 0 0 12 0");
    good("json", "4 2 1 15", "01 7b7d", "2 0 0 3 0");
    good("a node that the root does not reach", "5 2 8 1 5", "6162", "2 0 0 2 0");
    running("no type", "2 0", "", 0, accepted(0), "");
    running("no type with room", "2 0", "", MOST, accepted(0), "");
}

static void value_refusals(void) {
    bad("ndims 2 and nothing else", SET_PLAN, "00000002", 22, 0);
    bad("count of 7fffffff", SET_PLAN,
        "00000001 0000000000000000 7fffffff 00000001 00000008 0000000000000007", 20, 0);
    bad("the second element of length 7", SET_PLAN,
        "00000001 0000000000000000 00000002 00000001 00000008 0000000000000007"
        "00000007 00000000000000",
        24, 36);
    bad("-1 in a set", SET_PLAN, "00000001 0000000000000000 00000001 00000001 ffffffff", 23, 0);
    bad("envelope not 12 more", "8 6 1 9 2 2 3 4",
        "00000001 0000000000000000 00000001 00000001 00000019 00000001 00000000 0000000c"
        "00000000 0000000000000000",
        22, 0);
    bad("bool of 2 in a tuple", "8 4 1 9 4 2 2 2",
        "00000002 00000000 00000001 01 00000000 00000001 02", 24, 21);
    bad("bytes left over in an inner tuple", "7 4 4 0 4 1 2",
        "00000001 00000000 00000005 0000000000", 21, 12);
    bad("required element absent", "8 4 1 5 5 1 2 77", "00000001 00000000 ffffffff", 27, 0);
    bad("index outside", INPUT_PLAN, "00000001 00000001 fffffffe", 25, 0);
    bad("index outside, then another twice", INPUT_PLAN,
        "00000003 00000001 00000000 00000000 00000008 0000000000000001"
        "00000000 00000008 0000000000000001",
        25, 0);
    bad("index twice, both absent", "8 4 1 5 6 1 2 111",
        "00000002 00000000 ffffffff 00000000 ffffffff", 26, 0);
    bad("a byte left over and a required index not given", INPUT_PLAN, "00000000 00", 21, 0);
    bad("range flags 02 with 08", "6 4 1 4 7 2", "0a 00000004 00000009", 22, 0);
    bad("range without flags", "6 4 1 4 7 2", "", 20, 0);
    bad("no type with a byte", "2 0", "00", 21, 0);
}

static void good_time(const struct timed *timed) {
    good(timed->name, timed->plan, timed->value, timed->place->list);
}

/* Also without room for a list, which is asked for after all faults. */
static void bad_time(const struct timed *timed) {
    bad(timed->name, timed->plan, timed->value, 24, timed->place->start);
    running(timed->name, timed->plan, timed->value, 0, refused(24, timed->place->start), "");
}

#define TIMES_PLAN "6 4 1 13 2 2"

/* Besides, local_times of other sizes, and such that are not the value's only fault. */
static void local_times(void) {
    try_times(good_time, bad_time);
    bad("local_time of 7 bytes", "4 2 1 13", "00000000000000", 24, 0);
    bad("local_time of 9 bytes", "4 2 1 13", "000000000000000000", 24, 0);
    bad("local_time of no bytes", "4 2 1 13", "", 24, 0);
    bad("local_time of -1, then one of 86,400,000,000", TIMES_PLAN,
        "00000001 0000000000000000 00000002 00000001 00000008 ffffffffffffffff"
        "00000008 000000141dd76000",
        24, 24);
    bad("local_time of -1, then a byte left over", TIMES_PLAN,
        "00000001 0000000000000000 00000001 00000001 00000008 ffffffffffffffff 00", 24, 24);
    bad("local_time of -1, then a head cut off", TIMES_PLAN,
        "00000001 0000000000000000 00000002 00000001 00000008 ffffffffffffffff 000000", 24, 24);
    bad("bad head of a set with a local_time of -1", TIMES_PLAN,
        "00000001 0000000000000000 00000001 00000002 00000008 ffffffffffffffff", 22, 0);
}

/* A plain label, in memory of its own that ends where it does, so that valgrind sees a byte read too many. */
static int labelled(uint8_t *label, size_t length) {
    uint8_t plan[16], entry[20], words[MOST];
    words_of("4 2 1 1", plan);
    memset(entry, FILL, sizeof entry);
    memset(label, 'a', length);
    if (!same_answer(rembulfose_run(plan, sizeof plan, label, length, entry, sizeof entry), accepted(5)))
        return 0;
    char listed[32];
    snprintf(listed, sizeof listed, "2 0 0 %zu 0", length);
    return words_of(listed, words) == sizeof entry && !memcmp(words, entry, sizeof entry);
}

/* The label with each byte in turn one that only continues a letter: 80 hex, the first that is not plain. */
static int no_label(uint8_t *label, size_t length) {
    uint8_t plan[16], entry[20];
    words_of("4 2 1 1", plan);
    for (size_t at = 0; at < length; at++) {
        label[at] = 0x80;
        if (!same_answer(rembulfose_run(plan, sizeof plan, label, length, entry, sizeof entry), refused(24, 0)))
            return 0;
        label[at] = 'a';
    }
    return 1;
}

/* Labels of every length up to one that has words, and blocks of 64 and of 128 bytes. */
static void labels(void) {
    for (size_t length = 1; length <= 340; length++) {
        uint8_t *label = malloc(length);
        if (label == NULL)
            return count("memory for a label", 0);
        count("a plain label", labelled(label, length));
        count("a byte of 80 hex in a label", no_label(label, length));
        free(label);
    }
}

static void plan_refusals(void) {
    uint8_t plan[24], list[20];
    bad("no words", "", "", 33, 0);
    bad("root 2 without nodes", "2 2", "", 33, 0);
    bad("a word left over", "7 4 1 5 2 2 1", "00000000 0000000000000000", 33, 0);
    bad("total a word short", "5 4 1 5 2 2", "00000000 0000000000000000", 33, 0);
    bad("root inside a node", "9 6 4 0 4 1 2 4 0", "00000000", 33, 0);
    bad("format 20", "4 2 1 20", "", 33, 0);
    bad("set of sets", "8 6 1 5 2 2 2 4", "00000000 0000000000000000", 33, 0);
    bad("cardinality 1", "8 4 1 5 6 1 2 1", "00000000", 33, 0);
    bad("node refers to itself", "4 2 2 2", "00000000 0000000000000000", 33, 0);
    words_of(SET_PLAN, plan);
    count("plan of 23 bytes",
          same_answer(rembulfose_run(plan, 23, NULL, 0, list, sizeof list), refused(33, 0)));
}

/* A null pointer may be lent with length 0. */
static void null_pointers(void) {
    const uint8_t none[8] = {0, 0, 0, 2, 0, 0, 0, 0};
    const uint8_t enumeration[12] = {0, 0, 0, 3, 0, 0, 0, 2, 0, 0, 0, 8};
    count("no value and no list",
          same_answer(rembulfose_run(none, 8, NULL, 0, NULL, 0), accepted(0)));
    count("no plan", same_answer(rembulfose_run(NULL, 0, NULL, 0, NULL, 0), refused(33, 0)));
    count("no list room",
          same_answer(rembulfose_run(enumeration, 12, NULL, 0, NULL, 0), refused(31, 0)));
}

/* The large cases. */

static uint8_t list[4 * MOST_WORDS + 4];

static rembulfose_answer run_large(size_t plan_length) {
    memset(list, FILL, sizeof list);
    return rembulfose_run(plan, plan_length, value, value_bytes, list, sizeof list);
}

/* Whether the list holds so many words of what is expected, and all else is as it was. */
static int listed(uint32_t words) {
    for (size_t at = 0; at < sizeof list; at++)
        if (list[at] != (at < 4 * (size_t)words ? expected[at] : FILL))
            return 0;
    return 1;
}

static int accepts(void) {
    return same_answer(run_large(4 * plan_words), accepted(list_words)) && listed(list_words);
}

static int refuses(uint32_t number, uint32_t place) {
    return same_answer(run_large(4 * plan_words), refused(number, place)) && listed(0);
}

static void large(void) {
    deep_leaf(31, 65079);
    count("height 32, 65,535 bytes", value_bytes == MOST_VALUE && accepts());
    count("a plan byte short", same_answer(run_large(4 * plan_words - 1), refused(33, 0)));
    value_bytes++;
    count("65,536 bytes", refuses(28, 0));
    value_bytes--;
    value[MOST_VALUE - 65079 - 1]++;
    count("the lowest element passes its end", refuses(20, MOST_VALUE - 65079 - 12));
    deep_leaf(32, 65055);
    count("height 33", value_bytes == MOST_VALUE && refuses(33, 0));
    deep_record();
    count("height 32, input objects alone", value_bytes == MOST_VALUE && accepts());
    deep_set(1600);
    count("height 32, 1,600 elements", accepts());
    value[value_bytes - 1] = 1;
    count("the last element passes its end", refuses(20, value_bytes - 20 - 4 * 1600));
    deep_set(16267);
    count("height 32, 16,267 elements", value_bytes == 65532 && refuses(31, 0));
    long_plan(MOST_WORDS);
    count("plan of 8,192 words", plan_words == MOST_WORDS && accepts());
    long_plan(MOST_WORDS + 1);
    count("plan of 8,193 words", refuses(33, 0));
}

int main(void) {
    edges();
    good_values();
    value_refusals();
    local_times();
    labels();
    plan_refusals();
    null_pointers();
    small_stack(large);
    return finish();
}
