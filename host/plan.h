/* A descriptor that was met in the capture, and the plan that the library compiles from it. */
#ifndef PLAN_H
#define PLAN_H

#include "../include/rembulfose.h"

#include <stdbool.h>

/* An element's name in the descriptor; length 0 where it has none. */
struct name {
    const uint8_t *text;
    uint32_t length;
};

struct plan {
    bool known;                   /* whether there is a plan: a descriptor was met and accepted */
    uint8_t id[16];               /* the descriptor's */
    uint8_t words[REMBULFOSE_ROOM];
    size_t length;                /* bytes of words */
    struct name names[REMBULFOSE_MOST_WORDS]; /* at the word that refers to the element */
    uint8_t tags[REMBULFOSE_MOST_WORDS];      /* at a node's first word, its block's tag */
    uint8_t descriptor[REMBULFOSE_MOST_DESCRIPTOR]; /* a copy, which the names point into */
};

/* Compiles a descriptor for the id of 16 bytes. The answer is the library's; a plan that was known
 * before is forgotten either way. */
rembulfose_answer plan_compile(struct plan *plan, const uint8_t *id, const uint8_t *descriptor,
                               size_t length);

/* The plan's root node; 0 for "no type". */
uint32_t plan_root(const struct plan *plan);

enum rembulfose_kind plan_kind(const struct plan *plan, uint32_t node);

/* A leaf's format; of other nodes the second word. */
uint32_t plan_format(const struct plan *plan, uint32_t node);

/* How many elements a tuple or object has. */
uint32_t plan_count(const struct plan *plan, uint32_t node);

/* The node of an element. For sets, arrays and ranges the index does not matter. */
uint32_t plan_element(const struct plan *plan, uint32_t node, uint32_t index);

/* The cardinality of an object's element. */
uint32_t plan_cardinality(const struct plan *plan, uint32_t node, uint32_t index);

struct name plan_name(const struct plan *plan, uint32_t node, uint32_t index);

/* Whether a node that is a set or array is a set. */
bool plan_is_set(const struct plan *plan, uint32_t node);

/* How many words a node has. */
uint32_t plan_node_words(const struct plan *plan, uint32_t node);

/* Fills the names and tags of a plan from its accepted descriptor (names.c). */
void plan_take_names(struct plan *plan, const uint8_t *descriptor, size_t length);

#endif
