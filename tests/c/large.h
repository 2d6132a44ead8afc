/* The largest plans and values, and the lists that they have: what lies deepest, is longest or has
 * the most elements. */
#ifndef LARGE_H
#define LARGE_H

#include "cases.h"

/* MOST_LISTED: an entry more than a list from C can have. */
enum { MOST_VALUE = REMBULFOSE_MOST_VALUE, MOST_LISTED = MOST_WORDS + 3 };
enum {
    LEAF = REMBULFOSE_KIND_LEAF,
    SET = REMBULFOSE_KIND_SET_OR_ARRAY,
    TUPLE = REMBULFOSE_KIND_TUPLE,
    OUTPUT = REMBULFOSE_KIND_OUTPUT_OBJECT,
    INPUT = REMBULFOSE_KIND_INPUT_OBJECT,
    ENUMERATION = REMBULFOSE_KIND_ENUMERATION
};
enum { STR = REMBULFOSE_FORMAT_STR, BYTES = REMBULFOSE_FORMAT_BYTES };
enum { ONE = REMBULFOSE_CARDINALITY_ONE };

static uint8_t plan[4 * (MOST_WORDS + 1)], value[MOST_VALUE + 1], expected[4 * MOST_LISTED];
static uint32_t plan_words, value_bytes, list_words;

static inline uint32_t add(uint32_t kind, uint32_t second) {
    put_word(plan + 4 * plan_words, kind);
    put_word(plan + 4 * plan_words + 4, second);
    plan_words += 2;
    return plan_words - 2;
}

static inline void add_word(uint32_t word) {
    put_word(plan + 4 * plan_words++, word);
}

static inline void finish_plan(uint32_t root) {
    put_word(plan, plan_words);
    put_word(plan + 4, root);
}

static inline void put_value(uint32_t word) {
    put_word(value + value_bytes, word);
    value_bytes += 4;
}

/* Entries far past those that a list from C can hold are left out. */
static inline void expect_entry(uint32_t node, uint32_t index, uint32_t start, uint32_t length,
                                uint32_t below) {
    const uint32_t entry[REMBULFOSE_ENTRY_WORDS] = {node, index, start, length, below};
    for (int i = 0; i < REMBULFOSE_ENTRY_WORDS && list_words < MOST_LISTED; i++)
        put_word(expected + 4 * list_words++, entry[i]);
}

/* Whether all containers are input objects, with 40 more nodes of their kind in the plan: more than the
 * short table of required elements holds, so that the calls make the long one. */
static int records_only;

/* The kinds of the containers above the lowest node, in turn: no set is over a set. */
static inline uint32_t kind_at(uint32_t level) {
    static const uint32_t kinds[4] = {TUPLE, OUTPUT, INPUT, SET};
    return records_only ? INPUT : kinds[level % 4];
}

/* Puts so many containers of one element over a node, all of whose values then have this length. */
static inline void wrap(uint32_t containers, uint32_t lowest, uint32_t length) {
    uint32_t nodes[33] = {lowest};
    for (int i = 0; records_only && i < 40; i++)
        add(INPUT, 0);
    for (uint32_t level = 0; level < containers; level++) {
        uint32_t kind = kind_at(level);
        nodes[level + 1] = add(kind, kind == SET ? nodes[level] : 1);
        if (kind != SET)
            add_word(nodes[level]);
        if (kind == OUTPUT || kind == INPUT)
            add_word(ONE);
    }
    finish_plan(nodes[containers]);
    for (uint32_t level = 0; level < containers; level++)
        length += kind_at(level) == SET ? 24 : 12;
    value_bytes = list_words = 0;
    for (uint32_t level = containers; level-- > 0;) {
        expect_entry(nodes[level + 1], 0, value_bytes, length, 1);
        length -= kind_at(level) == SET ? 24 : 12;
        put_value(1);
        put_value(0);
        if (kind_at(level) == SET) {
            put_value(0);
            put_value(1);
            put_value(1);
        }
        put_value(length);
    }
}

/* A byte string of this length under so many containers. */
static inline void deep_leaf(uint32_t containers, uint32_t length) {
    plan_words = 2;
    wrap(containers, add(LEAF, BYTES), length);
    expect_entry(2, 0, value_bytes, length, 0);
    memset(value + value_bytes, 0xff, length);
    value_bytes += length;
}

/* The same under 31 input objects, 65,535 bytes in all. */
static inline void deep_record(void) {
    records_only = 1;
    deep_leaf(31, MOST_VALUE - 31 * 12);
    records_only = 0;
}

/* A set of so many empty texts under 30 containers. */
static inline void deep_set(uint32_t elements) {
    plan_words = 2;
    wrap(30, add(SET, add(LEAF, STR)), 20 + 4 * elements);
    uint32_t start = value_bytes;
    const uint32_t head[5] = {1, 0, 0, elements, 1};
    for (int i = 0; i < 5; i++)
        put_value(head[i]);
    expect_entry(4, 0, start, 20 + 4 * elements, elements);
    for (uint32_t i = 0; i < elements; i++) {
        put_value(0);
        expect_entry(2, i, value_bytes, 0, 0);
    }
}

/* So many words: an enumeration, and tuples of it with up to 512 elements. The root is the last. */
static inline void long_plan(uint32_t words) {
    uint32_t last = 0, elements = 0;
    plan_words = 2;
    add_word(ENUMERATION);
    while (plan_words < words) {
        elements = words - plan_words - 2 < 512 ? words - plan_words - 2 : 512;
        last = add(TUPLE, elements);
        for (uint32_t i = 0; i < elements; i++)
            add_word(2);
    }
    finish_plan(last);
    value_bytes = list_words = 0;
    expect_entry(last, 0, 0, 4 + 8 * elements, elements);
    put_value(elements);
    for (uint32_t i = 0; i < elements; i++) {
        put_value(i);
        put_value(0);
        expect_entry(2, i, value_bytes, 0, 0);
    }
}

#endif
