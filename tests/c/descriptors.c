/* The call that compiles a descriptor as a C host makes it, on cases worked out by hand.
 *
 *     cc -std=c11 -Wall -Wextra -pthread tests/c/descriptors.c target/staticlib/libc_panel.a \
 *         -o target/c-descriptors
 *
 * Descriptors and values are written in hex, spaces for the eye only; plans and lists as decimal
 * words. Every room is filled before the call and looked at whole after it, with some bytes more on
 * either side. The largest cases run on a thread with a small stack.
 */
#define _DEFAULT_SOURCE
#include "cases.h"

enum { MOST_DESCRIPTOR = REMBULFOSE_MOST_DESCRIPTOR };
enum { TUPLE = 4, ENUMERATION = 7, INPUT = 8 };

/* Compiles a descriptor in a room of so many bytes. */
static void compiling(const char *name, const char *descriptor, const char *root, size_t room,
                      rembulfose_answer expected, const char *plan) {
    call_on(name, rembulfose_compile, lent_bytes(descriptor), lent_bytes(root), room, expected,
            plan);
}

/* A good descriptor: with just enough room, with three bytes more, with a byte less and with none. */
static void good(const char *name, const char *descriptor, const char *root, const char *plan) {
    uint8_t words[MOST];
    size_t length = words_of(plan, words);
    compiling(name, descriptor, root, length, accepted((uint32_t)(length / 4)), plan);
    compiling(name, descriptor, root, length + 3, accepted((uint32_t)(length / 4)), plan);
    compiling(name, descriptor, root, length - 1, refused(30, 0), "");
    compiling(name, descriptor, root, 0, refused(30, 0), "");
}

static void bad(const char *name, const char *descriptor, const char *root, uint32_t number,
                uint32_t place) {
    compiling(name, descriptor, root, MOST, refused(number, place), "");
    compiling(name, descriptor, root, 0, refused(number, place), "");
}

#define ZERO "00000000000000000000000000000000"
#define ONES "11111111111111111111111111111111"
#define TWOS "22222222222222222222222222222222"
#define THREES "33333333333333333333333333333333"
#define INT64_ID "00000000000000000000000000000105"
#define STR_ID "00000000000000000000000000000101"

/* Descriptor A of docs/RULES.md: an int64 of 34 bytes, and a set of it. */
#define INT64 "03" INT64_ID "0000000a 7374643a3a696e743634 01 0000"
#define DESCRIPTOR_A INT64 "00" ONES "0000"
#define PLAN_A "6 4 1 5 2 2"
/* A scalar's, tuple's or array's name, which is empty, schema flag and no ancestors. */
#define SCHEMA "00000000 00 0000"
#define STR "03" STR_ID SCHEMA

/* The cases of docs/RULES.md that have a descriptor. */
static void edges(void) {
    good("case 1", DESCRIPTOR_A, ONES, PLAN_A);
    good("case 1, root int64", DESCRIPTOR_A, INT64_ID, "6 2 1 5 2 2");
    bad("case 8", INT64 "00" ONES "0001", ONES, 13, 34);
    bad("case 9", INT64 "00" INT64_ID "0000", ONES, 15, 34);
    good("no type", "", ZERO, "2 0");
}

static void good_descriptors(void) {
    good("derived scalar", INT64 "03" ONES "00000000 01 0001 0000", ONES, "6 4 1 5 1 5");
    good("memory", "03 00000000000000000000000000000130" SCHEMA, "00000000000000000000000000000130",
         "4 2 1 19");
    good("tuple", INT64 STR "04" ONES SCHEMA "0003 0000 0001 0000", ONES,
         "11 6 1 5 1 1 4 3 2 4 2");
    good("named tuple", INT64 "05" ONES SCHEMA "0002 00000001 61 0000 00000000 0000", ONES,
         "8 4 1 5 4 2 2 2");
    good("set of arrays", INT64 "06" ONES SCHEMA "0000 0001 ffffffff" "00" TWOS "0001", TWOS,
         "8 6 1 5 2 2 3 4");
    good("enumeration", "07" ONES SCHEMA "0002 00000001 61 00000001 61", ONES, "3 2 8");
    good("range", INT64 "09" ONES SCHEMA "0000", ONES, "6 4 1 5 7 2");
    good("output shape of an object type",
         "0a" ONES "00000000 01" INT64 "01" TWOS "00 0000 0001 00000007 41 00000001 61 0001 0000",
         TWOS, "8 4 1 5 5 1 2 65");
    good("free shape", INT64 "01" ONES "01 ffff 0001 00000000 6f 00000000 0000 ffff", ONES,
         "8 4 1 5 5 1 2 111");
    good("input shape", INT64 "08" ONES "0001 00000000 41 00000001 6e 0000", ONES,
         "8 4 1 5 6 1 2 65");
    good("blocks without values and annotations",
         "0a" ONES "00000000 00" "0b" TWOS "00000000 00 02 0001 0000" "0d" THREES
         "0001 00000000 0001" "7f 0002 00000001 6b 00000001 76" INT64,
         INT64_ID, "4 2 1 5");
}

static void field_refusals(void) {
    bad("ends inside a field", INT64 "00" ONES "00", ONES, 10, 34);
    bad("ends after a tag", INT64 "00", INT64_ID, 10, 34);
    bad("multirange", INT64 "0c" ONES SCHEMA "0000", INT64_ID, 11, 34);
    bad("name that is no text", INT64 "0a" ONES "00000001 ff 00", INT64_ID, 12, 34);
    bad("member that is no text", "07" ONES SCHEMA "0001 00000002 c080", ONES, 12, 0);
    bad("bool of 2", INT64 "0a" ONES "00000000 02", INT64_ID, 12, 34);
    bad("cardinality 1", INT64 "08" ONES "0001 00000000 01 00000000 0000", ONES, 12, 34);
    bad("input flags", INT64 "08" ONES "0001 00000001 41 00000000 0000", ONES, 12, 34);
    bad("shape flags", INT64 "01" ONES "01 0000 0001 00000008 41 00000000 0000 0000", ONES, 12, 34);
    bad("two dimensions", INT64 "06" ONES SCHEMA "0000 0002 ffffffff ffffffff", ONES, 12, 34);
    bad("dimension of 1", INT64 "06" ONES SCHEMA "0000 0001 00000001", ONES, 12, 34);
    bad("operation 3", "0b" ONES "00000000 00 03 0000", ONES, 12, 0);
    bad("scalar without format", "03" ONES SCHEMA, ONES, 12, 0);
    bad("id zero", INT64 "00" ZERO "0000", INT64_ID, 15, 34);
    bad("name twice in an input shape",
        INT64 "08" ONES "0002 00000000 41 00000001 6e 0000 00000000 41 00000001 6e 0000", ONES, 16,
        34);
    bad("name twice in a named tuple", INT64 "05" ONES SCHEMA "0002 00000000 0000 00000000 0000",
        ONES, 16, 34);
    bad("513 members", "07" ONES SCHEMA "0201", ONES, 17, 0);
}

static void reference_refusals(void) {
    bad("set of itself", "00" ONES "0000", ONES, 13, 0);
    bad("negative reference", INT64 "05" ONES SCHEMA "0001 00000000 ffff", ONES, 13, 34);
    bad("annotation of a later block", "7f 0000 00000000 00000000" INT64, INT64_ID, 13, 0);
    bad("set of sets", DESCRIPTOR_A "00" TWOS "0001", TWOS, 14, 53);
    bad("array of arrays",
        INT64 "06" ONES SCHEMA "0000 0001 ffffffff" "06" TWOS SCHEMA "0001 0001 ffffffff", TWOS, 14,
        66);
    bad("range of an enumeration", "07" ONES SCHEMA "0000" "09" TWOS SCHEMA "0000", TWOS, 14, 26);
    bad("shape of an int64", INT64 "01" ONES "00 0000 0000", ONES, 14, 34);
    bad("tuple of an object type", "0a" ONES "00000000 00" "04" TWOS SCHEMA "0001 0000", TWOS, 14,
        22);
    bad("scalar from a derived one",
        INT64 "03" ONES "00000000 01 0001 0000" "03" TWOS "00000000 01 0002 0000 0001", TWOS, 14,
        60);
    bad("root not there", DESCRIPTOR_A, TWOS, 18, 53);
    bad("root without values", "0a" ONES "00000000 00", ONES, 18, 22);
    bad("root zero with bytes", DESCRIPTOR_A, ZERO, 18, 53);
    bad("root of 15 bytes", DESCRIPTOR_A, "111111111111111111111111111111", 18, 53);
    bad("root of 17 bytes", DESCRIPTOR_A, ONES "11", 18, 53);
    bad("root without bytes", "", ONES, 18, 0);
    bad("root zero before a bad block", "02", ZERO, 18, 1);
}

/* A null pointer may be lent with length 0. */
static void null_pointers(void) {
    const uint8_t zero[16] = {0}, two[8] = {0, 0, 0, 2, 0, 0, 0, 0};
    uint8_t plan[8], bytes[MOST];
    size_t length = bytes_of(DESCRIPTOR_A, bytes);
    count("no descriptor",
          same_answer(rembulfose_compile(NULL, 0, zero, 16, plan, 8), accepted(2)) &&
              memcmp(plan, two, 8) == 0);
    count("no descriptor and no room",
          same_answer(rembulfose_compile(NULL, 0, zero, 16, NULL, 0), refused(30, 0)));
    count("nothing at all",
          same_answer(rembulfose_compile(NULL, 0, NULL, 0, NULL, 0), refused(18, 0)));
    count("no root",
          same_answer(rembulfose_compile(bytes, length, NULL, 0, plan, 8), refused(18, 53)));
    count("no room",
          same_answer(rembulfose_compile(bytes, length, bytes + 35, 16, NULL, 0), refused(30, 0)));
}

/* The plan of descriptor A runs case 2 of docs/RULES.md. */
static void compile_and_run(void) {
    uint8_t descriptor[MOST], value[MOST], plan[24], list[60], expected[60];
    size_t length = bytes_of(DESCRIPTOR_A, descriptor);
    size_t value_length = bytes_of("00000001 0000000000000000 00000002 00000001 00000008"
                                   "0000000000000007 00000008 ffffffffffffffff",
                                   value);
    rembulfose_answer answer =
        rembulfose_compile(descriptor, length, descriptor + 35, 16, plan, sizeof plan);
    count("compile before run", same_answer(answer, accepted(6)));
    words_of("4 0 0 44 2  2 0 24 8 0  2 1 36 8 0", expected);
    answer = rembulfose_run(plan, sizeof plan, value, value_length, list, sizeof list);
    count("run by the plan",
          same_answer(answer, accepted(15)) && memcmp(list, expected, sizeof list) == 0);
}

/* The large cases. */

static uint8_t descriptor[MOST_DESCRIPTOR + 1], plan[4 * MOST_WORDS + 100],
    expected[4 * MOST_WORDS + 100];
static uint32_t length, plan_words, blocks;

static void put_short(uint32_t number) {
    descriptor[length++] = (uint8_t)(number >> 8);
    descriptor[length++] = (uint8_t)number;
}

static void put_text(uint32_t letters) {
    put_short(letters >> 16);
    put_short(letters);
    memset(descriptor + length, 'a', letters);
    length += letters;
}

/* The id of a block: its tag sixteen times but for the last two bytes, which are its number. */
static void put_id(uint8_t *id, uint8_t tag, uint32_t number) {
    memset(id, tag + 1, 14);
    id[14] = (uint8_t)(number >> 8);
    id[15] = (uint8_t)number;
}

static void expect_word(uint32_t word) {
    if (plan_words < MOST_WORDS)
        put_word(expected + 4 * plan_words, word);
    plan_words++;
}

static void begin(void) {
    length = blocks = 0;
    plan_words = 2;
}

/* The tag and id of a block. */
static void begin_block(uint8_t tag) {
    descriptor[length] = tag;
    put_id(descriptor + length + 1, tag, blocks++);
    length += 17;
}

/* A name of so many letters, a schema flag and no ancestors. */
static void put_schema(uint32_t letters) {
    put_text(letters);
    descriptor[length++] = 1;
    put_short(0);
}

/* An enumeration without members. */
static void add_enumeration(uint32_t letters) {
    begin_block(ENUMERATION);
    put_schema(letters);
    put_short(0);
    expect_word(8);
}

/* A tuple of so many elements of one block, whose node starts at a word. */
static void add_tuple(uint32_t elements, uint32_t block, uint32_t start) {
    begin_block(TUPLE);
    put_schema(0);
    put_short(elements);
    expect_word(4);
    expect_word(elements);
    for (uint32_t i = 0; i < elements; i++) {
        put_short(block);
        expect_word(start);
    }
}

/* An input shape of so many elements of the first block; their names are numbers, and the last one's
 * is this. */
static void add_input(uint32_t elements, uint32_t last_name) {
    begin_block(INPUT);
    put_short(elements);
    expect_word(6);
    expect_word(elements);
    for (uint32_t i = 0; i < elements; i++) {
        put_short(0);
        put_short(0);
        descriptor[length++] = 0x6f;
        put_text(2);
        length -= 2;
        uint32_t name = i + 1 == elements ? last_name : i;
        descriptor[length++] = (uint8_t)('0' + name / 64);
        descriptor[length++] = (uint8_t)('0' + name % 64);
        put_short(0);
        expect_word(2);
        expect_word(0x6f);
    }
}

static rembulfose_answer compile_large(uint8_t tag, uint32_t root, size_t room) {
    uint8_t id[16];
    put_id(id, tag, root);
    memset(plan, FILL, sizeof plan);
    return rembulfose_compile(descriptor, length, id, 16, plan, room);
}

/* Whether the room holds so many words of what is expected, and all else is as it was. */
static int planned(uint32_t words) {
    for (size_t at = 0; at < sizeof plan; at++)
        if (plan[at] != (at < 4 * (size_t)words ? expected[at] : FILL))
            return 0;
    return 1;
}

/* The root is the last block, whose node starts at a word. */
static int accepts(uint8_t tag, uint32_t start, size_t room) {
    put_word(expected, plan_words);
    put_word(expected + 4, start);
    return same_answer(compile_large(tag, blocks - 1, room), accepted(plan_words)) &&
           planned(plan_words);
}

static int refuses(uint8_t tag, size_t room, uint32_t number, uint32_t place) {
    return same_answer(compile_large(tag, blocks - 1, room), refused(number, place)) && planned(0);
}

static void large_blocks(void) {
    begin();
    for (int i = 0; i < 1024; i++)
        add_tuple(0, 0, 0);
    count("1,024 blocks", accepts(TUPLE, plan_words - 2, sizeof plan));
    uint32_t place = length;
    add_tuple(0, 0, 0);
    count("1,025 blocks", refuses(TUPLE, sizeof plan, 17, place));
}

static void large_counts(void) {
    begin();
    add_enumeration(0);
    uint32_t place = length;
    add_tuple(512, 0, 2);
    count("512 elements", accepts(TUPLE, 3, sizeof plan));
    begin();
    add_enumeration(0);
    add_tuple(513, 0, 2);
    count("513 elements", refuses(TUPLE, sizeof plan, 17, place));
    begin();
    add_enumeration(0);
    add_input(512, 511);
    count("512 names", accepts(INPUT, 3, sizeof plan));
    begin();
    add_enumeration(0);
    add_input(512, 0);
    count("the last of 512 names is the first", refuses(INPUT, sizeof plan, 16, place));
}

static void large_heights(void) {
    begin();
    add_enumeration(0);
    uint32_t start = 2;
    for (uint32_t i = 0; i < 31; i++) {
        uint32_t next = plan_words;
        add_tuple(1, i, start);
        start = next;
    }
    count("height 32", accepts(TUPLE, start, sizeof plan));
    uint32_t place = length;
    add_tuple(1, 31, start);
    count("height 33", refuses(TUPLE, sizeof plan, 17, place));
}

static void large_bytes(void) {
    begin();
    add_enumeration(MOST_DESCRIPTOR - 26);
    count("65,535 bytes", length == MOST_DESCRIPTOR && accepts(ENUMERATION, 2, 12));
    begin();
    add_enumeration(MOST_DESCRIPTOR - 25);
    count("65,536 bytes", length == MOST_DESCRIPTOR + 1 && refuses(ENUMERATION, 12, 17, 0));
}

/* An enumeration and tuples of it, so that the plan has so many words. The last node's start. */
static uint32_t long_plan(uint32_t words) {
    uint32_t start = 2;
    begin();
    add_enumeration(0);
    while (plan_words < words) {
        start = plan_words;
        add_tuple(words - plan_words - 2 < 512 ? words - plan_words - 2 : 512, 0, 2);
    }
    return start;
}

static void large_plans(void) {
    uint32_t start = long_plan(MOST_WORDS);
    count("plan of 8,192 words", plan_words == MOST_WORDS && accepts(TUPLE, start, 32768));
    count("plan of 8,192 words and three bytes", accepts(TUPLE, start, 32771));
    count("plan of 8,192 words in a larger room", accepts(TUPLE, start, sizeof plan));
    count("plan of 8,192 words, a byte short", refuses(TUPLE, 32767, 30, 0));
    long_plan(MOST_WORDS + 1);
    count("plan of 8,193 words", plan_words == MOST_WORDS + 1 && refuses(TUPLE, 32772, 30, 0));
    count("plan of 8,193 words in a larger room", refuses(TUPLE, sizeof plan, 30, 0));
}

static void large(void) {
    large_blocks();
    large_counts();
    large_heights();
    large_bytes();
    large_plans();
}

int main(void) {
    edges();
    good_descriptors();
    field_refusals();
    reference_refusals();
    null_pointers();
    compile_and_run();
    small_stack(large);
    return finish();
}
