/* The call that writes a value from a supply as a C host makes it, on cases worked out by hand.
 *
 *     cc -std=c11 -Wall -Wextra -pthread tests/c/supplies.c target/staticlib/libc_panel.a \
 *         -o target/c-supplies
 *
 * Sources and values are written in hex, spaces for the eye only; plans and lists as decimal words.
 * Every room is filled before the call and looked at whole after it, with some bytes more on either
 * side. The largest cases run on a thread with a small stack.
 */
#define _DEFAULT_SOURCE
#include "large.h"
#include "times.h"

/* Writes a value; the room of so many bytes must then start with it, and plan, list and source must
 * be as they were. */
static void writing(const char *name, const char *plan, const char *list, const char *source,
                    size_t room, rembulfose_answer expected, const char *value) {
    struct lent nodes = lent_words(plan), entries = lent_words(list), src = lent_bytes(source);
    uint8_t bytes[MOST], memory[MARGIN + MOST + MARGIN];
    size_t length = bytes_of(value, bytes);
    memset(memory, FILL, sizeof memory);
    rembulfose_answer answer =
        rembulfose_write_value(nodes.bytes, nodes.length, entries.bytes, entries.length, src.bytes,
                               src.length, memory + MARGIN, room);
    count(name, same_answer(answer, expected) && holds(memory, bytes, length) &&
                    unchanged(&nodes) && unchanged(&entries) && unchanged(&src));
}

/* A supply that a value has: with just enough room, with more, and with a byte less. */
static void good(const char *name, const char *plan, const char *list, const char *source,
                 const char *value) {
    uint8_t bytes[MOST];
    size_t length = bytes_of(value, bytes);
    writing(name, plan, list, source, length, accepted((uint32_t)length), value);
    writing(name, plan, list, source, length + 7, accepted((uint32_t)length), value);
    if (length > 0)
        writing(name, plan, list, source, length - 1, refused(32, 0), "");
}

static void bad(const char *name, const char *plan, const char *list, const char *source,
                uint32_t number) {
    writing(name, plan, list, source, MOST, refused(number, 0), "");
    writing(name, plan, list, source, 0, refused(number, 0), "");
}

/* A set of int64, and case 2 of docs/RULES.md, {7, -1}. */
#define SET_PLAN "6 4 1 5 2 2"
#define TWO_LIST "4 0 0 44 2  2 0 24 8 0  2 1 36 8 0"
#define ELEMENTS "00000002 00000001 00000008 0000000000000007 00000008 ffffffffffffffff"
#define TWO "00000001 0000000000000000" ELEMENTS
#define ABSENT "4294967295"

static void edges(void) {
    good("case 2", SET_PLAN, TWO_LIST, TWO, TWO);
    good("case 2 with reserved bytes", SET_PLAN, TWO_LIST, "00000001 0123456789abcdef" ELEMENTS,
         TWO);
    good("case 2 from leaves alone", SET_PLAN, "4 0 99 99 2  2 0 8 8 0  2 1 0 8 0",
         "ffffffffffffffff 0000000000000007", TWO);
    good("case 3", SET_PLAN, "4 0 0 12 0", "", "00000000 0000000000000000");
    good("overlapping leaves", SET_PLAN, "4 0 0 0 2  2 0 0 8 0  2 1 1 8 0",
         "00 0000000000000007 ff",
         "00000001 0000000000000000 00000002 00000001 00000008 0000000000000000"
         "00000008 0000000000000007");
}

static void good_supplies(void) {
    good("set of arrays of bool", "8 6 1 9 2 2 3 4", "6 0 0 0 1  4 0 0 0 1  2 0 0 1 0", "01",
         "00000001 0000000000000000 00000001 00000001 00000025 00000001 00000000 00000019"
         "00000001 0000000000000000 00000001 00000001 00000001 01");
    good("tuple of an int16 and an empty tuple", "10 6 1 3 4 0 4 2 2 4",
         "6 0 0 26 2  2 0 12 2 0  4 1 22 4 0",
         "00000002 ffffffff 00000002 8000 00000000 00000004 00000000",
         "00000002 00000000 00000002 8000 00000000 00000004 00000000");
    good("output object with an absent element", "10 4 1 3 5 2 2 65 2 111",
         "4 0 0 0 2  2 0 0 2 0  2 1 4294967295 " ABSENT " 0", "0007",
         "00000002 00000000 00000002 0007 00000000 ffffffff");
    good("input object in another order", "11 5 1 9 8 6 2 2 65 4 111",
         "5 0 0 0 2  4 1 0 2 0  2 0 2 1 0", "6162 01",
         "00000002 00000001 00000002 6162 00000000 00000001 01");
    good("range with an upper bound", "6 4 1 4 7 2", "4 0 4 0 1  2 1 0 4 0", "00000009 0c",
         "0c 00000004 00000009");
    good("empty range", "6 4 1 4 7 2", "4 0 1 77 0", "00 01", "01");
    good("reserved bytes of a date_duration", "4 2 1 18", "2 0 0 16 0",
         "0123456789abcdef 00000002 0000000c", "0123456789abcdef 00000002 0000000c");
    good("empty enumeration at the source's end", "3 2 8", "2 0 1 0 0", "ff", "");
    good("no type", "2 0", "", "", "");
    good("no type with a source", "2 0", "", "0102", "");
}

static void refusals(void) {
    bad("empty leaf beyond the source", "3 2 8", "2 0 1 0 0", "", 34);
    bad("leaf that passes the source", SET_PLAN, TWO_LIST, "", 34);
    bad("start and length that wrap", "4 2 1 2", "2 0 4294967295 2 0", "00", 34);
    bad("no entry", SET_PLAN, "", "", 34);
    bad("an entry for no type", "2 0", "2 0 0 0 0", "", 34);
    bad("four words", SET_PLAN, "4 0 0 12", "", 34);
    bad("six words", SET_PLAN, "4 0 0 12 0 0", "", 34);
    bad("top absent", SET_PLAN, "4 0 0 " ABSENT " 0", "", 34);
    bad("top of another node", SET_PLAN, "2 0 0 8 0", "0000000000000000", 34);
    bad("top of another index", SET_PLAN, "4 1 0 12 0", "", 34);
    bad("element missing", SET_PLAN, "4 0 0 0 1", "", 34);
    bad("entry left over", SET_PLAN, "4 0 0 0 0  2 0 0 8 0", "0000000000000000", 34);
    bad("count of 80000001", SET_PLAN, "4 0 0 0 2147483649  2 0 0 8 0", "0000000000000000", 34);
    bad("element of another index", SET_PLAN, "4 0 0 0 1  2 1 0 8 0", "0000000000000000", 34);
    bad("element absent in a set", SET_PLAN, "4 0 0 0 1  2 0 0 " ABSENT " 0", "0000000000000000",
        34);
    bad("element of 7 bytes", SET_PLAN, "4 0 0 0 1  2 0 0 7 0", "0000000000000000", 34);
    bad("entries below a leaf", SET_PLAN, "4 0 0 0 1  2 0 0 8 1", "0000000000000000", 34);
    bad("tuple without its last element", "8 4 1 9 4 2 2 2", "4 0 0 0 1  2 0 0 1 0", "01", 34);
    bad("absent element of another node", "11 5 1 9 8 5 2 2 111 4 111",
        "5 0 0 0 2  4 0 0 " ABSENT " 0  4 1 0 0 0", "", 34);
    bad("absent element of another index", "11 5 1 9 8 5 2 2 111 4 111",
        "5 0 0 0 2  2 1 0 " ABSENT " 0  4 1 0 0 0", "", 34);
    bad("required element absent", "8 4 1 5 5 1 2 77", "4 0 0 0 1  2 0 0 " ABSENT " 0", "", 34);
    bad("entries below an absent element", "8 4 4 0 5 1 2 111", "4 0 0 0 1  2 0 0 " ABSENT " 1", "",
        34);
    bad("index twice", "8 4 1 9 6 1 2 111", "4 0 0 0 2  2 0 0 1 0  2 0 0 1 0", "01", 34);
    bad("index outside", "8 4 1 9 6 1 2 111", "4 0 0 0 1  2 1 0 1 0", "01", 34);
    bad("required index not given", "8 4 1 9 6 1 2 65", "4 0 0 0 0", "", 34);
    bad("flags outside the source", "6 4 1 4 7 2", "4 0 1 1 0", "01", 34);
    bad("flags 02 with 08", "6 4 1 4 7 2", "4 0 0 1 1  2 1 1 4 0", "0a 00000009", 34);
    bad("flags 04 with 10", "6 4 1 4 7 2", "4 0 0 1 1  2 0 1 4 0", "14 00000009", 34);
    bad("flags 20", "6 4 1 4 7 2", "4 0 0 1 0", "38", 34);
    bad("a count that the flags deny", "6 4 1 4 7 2", "4 0 0 1 1", "01", 34);
    bad("a bound that the flags deny", "6 4 1 4 7 2", "4 0 0 1 1  2 0 1 4 0", "0c 00000009", 34);
    bad("bool of 2", "4 2 1 9", "2 0 0 1 0", "02", 34);
    bad("bad plan", "6 4 1 20 2 2", "4 0 0 12 0", "", 33);
    bad("bad plan and bad list", "6 4 1 20 2 2", "4 0 0", "", 33);
}

/* A value's list and its own bytes are its supply. */
static void good_time(const struct timed *timed) {
    good(timed->name, timed->plan, timed->place->list, timed->value, timed->value);
}

static void bad_time(const struct timed *timed) {
    bad(timed->name, timed->plan, timed->place->list, timed->value, 34);
}

/* A list that cannot cross is 34, after 33 and before 32. A null pointer may be lent with length 0.
 */
static void crossing(void) {
    uint8_t plan_bytes[24], words[20], out[12];
    words_of(SET_PLAN, plan_bytes);
    words_of("4 0 0 12 0", words);
    count("list of 19 bytes",
          same_answer(rembulfose_write_value(plan_bytes, 24, words, 19, NULL, 0, out, 0),
                      refused(34, 0)));
    count("list of 19 bytes, plan of 23",
          same_answer(rembulfose_write_value(plan_bytes, 23, words, 19, NULL, 0, out, 0),
                      refused(33, 0)));
    count("no source",
          same_answer(rembulfose_write_value(plan_bytes, 24, words, 20, NULL, 0, out, 12),
                      accepted(12)));
    count("no room",
          same_answer(rembulfose_write_value(plan_bytes, 24, words, 20, NULL, 0, NULL, 0),
                      refused(32, 0)));
    count("no plan",
          same_answer(rembulfose_write_value(NULL, 0, NULL, 0, NULL, 0, NULL, 0), refused(33, 0)));
}

/* The large cases. */

static uint8_t out[MOST_VALUE + 2];

static rembulfose_answer write_large(size_t list_length, size_t room) {
    memset(out, FILL, sizeof out);
    return rembulfose_write_value(plan, 4 * plan_words, expected, list_length, value, value_bytes,
                                  out, room);
}

/* Whether the room holds so many bytes of the value, whose reserved bytes are zero, and all else is
 * as it was. */
static int holds_value(uint32_t length) {
    for (size_t at = 0; at < sizeof out; at++)
        if (out[at] != (at < length ? value[at] : FILL))
            return 0;
    return 1;
}

static int writes(void) {
    return same_answer(write_large(4 * list_words, sizeof out), accepted(value_bytes)) &&
           holds_value(value_bytes) &&
           same_answer(write_large(4 * list_words, value_bytes - 1), refused(32, 0)) &&
           holds_value(0);
}

static int refuses(uint32_t number) {
    return same_answer(write_large(4 * list_words, sizeof out), refused(number, 0)) &&
           holds_value(0);
}

static void large(void) {
    deep_leaf(31, 65079);
    count("height 32, 65,535 bytes", value_bytes == MOST_VALUE && writes());
    count("a list byte short",
          same_answer(write_large(4 * list_words - 1, sizeof out), refused(34, 0)) &&
              holds_value(0));
    value_bytes--;
    count("the leaf passes the source", refuses(34));
    deep_leaf(31, 65080);
    count("65,536 bytes", value_bytes == MOST_VALUE + 1 && refuses(34));
    deep_leaf(32, 65055);
    count("height 33", refuses(33));
    deep_record();
    count("height 32, input objects alone", value_bytes == MOST_VALUE && writes());
    deep_set(1600);
    count("height 32, 1,600 elements", writes());
    put_word(expected + 4 * list_words - 8, 1);
    count("the last element passes the source", refuses(34));
    deep_set(1607);
    count("a list of 8,190 words", list_words == 8190 && writes());
    deep_set(1608);
    count("a list of 8,195 words", list_words == 8195 && refuses(34));
    long_plan(MOST_WORDS);
    for (uint32_t i = 0; i < value_bytes / 8; i++)
        put_word(value + 4 + 8 * i, 0);
    count("plan of 8,192 words", writes());
    long_plan(MOST_WORDS + 1);
    count("plan of 8,193 words", refuses(33));
}

int main(void) {
    edges();
    good_supplies();
    refusals();
    try_times(good_time, bad_time);
    crossing();
    small_stack(large);
    return finish();
}
