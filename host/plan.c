#include "plan.h"

#include <string.h>

rembulfose_answer plan_compile(struct plan *plan, const uint8_t *id, const uint8_t *descriptor,
                               size_t length) {
    rembulfose_answer answer =
        rembulfose_compile(descriptor, length, id, 16, plan->words, sizeof plan->words);
    plan->known = answer.number == 0;
    plan->length = 4 * (size_t)answer.first;
    memcpy(plan->id, id, 16);
    memset(plan->names, 0, sizeof plan->names);
    memset(plan->tags, 0, sizeof plan->tags);
    if (plan->known && length > 0) {
        memcpy(plan->descriptor, descriptor, length); /* it is no longer than a descriptor may be */
        plan_take_names(plan, plan->descriptor, length);
    }
    return answer;
}

uint32_t plan_root(const struct plan *plan) {
    return rembulfose_word(plan->words, 1);
}

enum rembulfose_kind plan_kind(const struct plan *plan, uint32_t node) {
    return (enum rembulfose_kind)rembulfose_word(plan->words, node);
}

uint32_t plan_format(const struct plan *plan, uint32_t node) {
    return rembulfose_word(plan->words, node + 1);
}

uint32_t plan_count(const struct plan *plan, uint32_t node) {
    return rembulfose_word(plan->words, node + 1);
}

/* The word that refers to an element; 0 if the node has no such element. */
static uint32_t reference(const struct plan *plan, uint32_t node, uint32_t index) {
    switch (plan_kind(plan, node)) {
    case REMBULFOSE_KIND_SET_OR_ARRAY:
    case REMBULFOSE_KIND_SET_OF_ARRAYS:
    case REMBULFOSE_KIND_RANGE:
        return node + 1;
    case REMBULFOSE_KIND_TUPLE:
        return index < plan_count(plan, node) ? node + 2 + index : 0;
    case REMBULFOSE_KIND_OUTPUT_OBJECT:
    case REMBULFOSE_KIND_INPUT_OBJECT:
        return index < plan_count(plan, node) ? node + 2 + 2 * index : 0;
    default:
        return 0;
    }
}

uint32_t plan_element(const struct plan *plan, uint32_t node, uint32_t index) {
    uint32_t word = reference(plan, node, index);
    return word == 0 ? 0 : rembulfose_word(plan->words, word);
}

uint32_t plan_cardinality(const struct plan *plan, uint32_t node, uint32_t index) {
    uint32_t word = reference(plan, node, index);
    return word == 0 ? 0 : rembulfose_word(plan->words, word + 1);
}

struct name plan_name(const struct plan *plan, uint32_t node, uint32_t index) {
    uint32_t word = reference(plan, node, index);
    return word == 0 ? (struct name){NULL, 0} : plan->names[word];
}

bool plan_is_set(const struct plan *plan, uint32_t node) {
    return plan->tags[node] == 0;
}

uint32_t plan_node_words(const struct plan *plan, uint32_t node) {
    switch (plan_kind(plan, node)) {
    case REMBULFOSE_KIND_ENUMERATION:
        return 1;
    case REMBULFOSE_KIND_TUPLE:
        return 2 + plan_count(plan, node);
    case REMBULFOSE_KIND_OUTPUT_OBJECT:
    case REMBULFOSE_KIND_INPUT_OBJECT:
        return 2 + 2 * plan_count(plan, node);
    default:
        return 2;
    }
}
