/* Values as indented trees. */
#ifndef TREE_H
#define TREE_H

#include "plan.h"
#include "screen.h"

/* A value that the library accepted and listed. */
struct listed {
    const struct plan *plan;
    const uint8_t *value;
    const uint8_t *list; /* five words an entry */
    size_t entries;
};

/* Prints an entry and all below it, a line each: index, name if it has one, kind or format, value.
 * `parent` is the node of the entry above, 0 for the top. The entry after them is returned. */
size_t print_tree(const struct screen *screen, unsigned depth, const struct listed *listed,
                  size_t entry, uint32_t parent);

/* The entry that a path of indexes leads to, and the node of the one above it; false if none. */
bool tree_entry(const struct listed *listed, const uint8_t *path, size_t path_words, size_t *entry,
                uint32_t *parent);

/* Prints what a plan accepts: its root, and a line for each element directly below. */
void print_plan(const struct screen *screen, unsigned depth, const struct plan *plan);

#endif
