#include "tree.h"

#include "scalars.h"

enum { EMPTY_RANGE = 1, LOWER_IN = 2, UPPER_IN = 4, NO_LOWER = 8, NO_UPPER = 16 };
enum { NAME_WIDTH = 12, KIND_WIDTH = 18 };

struct entry {
    uint32_t node, index, start, length, below;
};

static struct entry entry_at(const struct listed *listed, size_t entry) {
    const uint8_t *words = listed->list + 4 * REMBULFOSE_ENTRY_WORDS * entry;
    return (struct entry){.node = rembulfose_word(words, REMBULFOSE_ENTRY_NODE),
                          .index = rembulfose_word(words, REMBULFOSE_ENTRY_INDEX),
                          .start = rembulfose_word(words, REMBULFOSE_ENTRY_START),
                          .length = rembulfose_word(words, REMBULFOSE_ENTRY_LENGTH),
                          .below = rembulfose_word(words, REMBULFOSE_ENTRY_BELOW)};
}

/* What a node is called alone: a leaf by its format. */
static const char *kind_name(const struct plan *plan, uint32_t node) {
    switch (plan_kind(plan, node)) {
    case REMBULFOSE_KIND_LEAF:
        return format_name(plan_format(plan, node));
    case REMBULFOSE_KIND_SET_OR_ARRAY:
        return plan_is_set(plan, node) ? "set" : "array";
    case REMBULFOSE_KIND_SET_OF_ARRAYS:
        return "set";
    case REMBULFOSE_KIND_TUPLE:
        return "tuple";
    case REMBULFOSE_KIND_OUTPUT_OBJECT:
        return "object";
    case REMBULFOSE_KIND_INPUT_OBJECT:
        return "input object";
    case REMBULFOSE_KIND_RANGE:
        return "range";
    case REMBULFOSE_KIND_ENUMERATION:
        return "enumeration";
    }
    return "unknown kind";
}

/* Prints what a node is, "set of decimal". If something follows, it gets its own column, or a space
 * after a name that is longer ("range of relative_duration"). */
static void print_kind(const struct screen *screen, const struct plan *plan, uint32_t node,
                       bool followed) {
    enum rembulfose_kind kind = plan_kind(plan, node);
    bool has_of = kind == REMBULFOSE_KIND_SET_OR_ARRAY || kind == REMBULFOSE_KIND_SET_OF_ARRAYS ||
                  kind == REMBULFOSE_KIND_RANGE;
    const char *of = has_of ? kind_name(plan, plan_element(plan, node, 0)) : "";
    char text[64];
    snprintf(text, sizeof text, "%s%s%s", kind_name(plan, node), has_of ? " of " : "", of);
    print(screen, FAINT, followed ? "%-*s " : "%*s", followed ? KIND_WIDTH : 0, text);
}

/* Prints an element's index and its name, if it has one. */
static void print_label(const struct screen *screen, const struct plan *plan, uint32_t parent,
                        uint32_t index) {
    struct name name = parent == 0 ? (struct name){NULL, 0} : plan_name(plan, parent, index);
    fprintf(screen->out, "%-2u ", (unsigned)index);
    if (name.length == 0)
        return;
    print_text(screen, name.text, name.length, BARE);
    size_t width = text_width(name.text, name.length);
    fprintf(screen->out, "%*s ", width < NAME_WIDTH ? (int)(NAME_WIDTH - width) : 0, "");
}

static void print_leaf(const struct screen *screen, const struct listed *listed,
                       struct entry entry) {
    const uint8_t *bytes = listed->value + entry.start;
    if (plan_kind(listed->plan, entry.node) == REMBULFOSE_KIND_ENUMERATION)
        print_text(screen, bytes, entry.length, QUOTED);
    else
        print_scalar(screen, plan_format(listed->plan, entry.node), bytes, entry.length);
}

/* A range on one line: square brackets where a bound is included, round ones where it is not, and
 * "unbounded" where there is none, which a float's bound of -inf or inf is not. Its bounds are the
 * entries just after it. */
static void print_range(const struct screen *screen, const struct listed *listed, size_t at) {
    uint8_t flags = listed->value[entry_at(listed, at).start];
    if (flags & EMPTY_RANGE) {
        fputs("empty", screen->out);
        return;
    }
    fputc(flags & LOWER_IN ? '[' : '(', screen->out);
    if (flags & NO_LOWER)
        fputs("unbounded", screen->out);
    else
        print_leaf(screen, listed, entry_at(listed, ++at));
    fputs(", ", screen->out);
    if (flags & NO_UPPER)
        fputs("unbounded", screen->out);
    else
        print_leaf(screen, listed, entry_at(listed, ++at));
    fputc(flags & UPPER_IN ? ']' : ')', screen->out);
}

static void print_count(const struct screen *screen, uint32_t count) {
    if (count == 0)
        print(screen, FAINT, "empty");
    else
        print(screen, FAINT, "%u element%s", (unsigned)count, count == 1 ? "" : "s");
}

/* The last column of an entry's line. */
static void print_content(const struct screen *screen, const struct listed *listed, size_t at) {
    struct entry entry = entry_at(listed, at);
    enum rembulfose_kind kind = plan_kind(listed->plan, entry.node);
    if (entry.length == REMBULFOSE_ABSENT)
        print(screen, FAINT, "absent");
    else if (kind == REMBULFOSE_KIND_LEAF || kind == REMBULFOSE_KIND_ENUMERATION)
        print_leaf(screen, listed, entry);
    else if (kind == REMBULFOSE_KIND_RANGE)
        print_range(screen, listed, at);
    else
        print_count(screen, entry.below);
    fputc('\n', screen->out);
}

size_t print_tree(const struct screen *screen, unsigned depth, const struct listed *listed,
                  size_t at, uint32_t parent) {
    if (at >= listed->entries)
        return at;
    struct entry entry = entry_at(listed, at);
    print_indent(screen, depth);
    print_label(screen, listed->plan, parent, entry.index);
    print_kind(screen, listed->plan, entry.node, true);
    print_content(screen, listed, at);
    at++;
    if (plan_kind(listed->plan, entry.node) == REMBULFOSE_KIND_RANGE)
        return at + entry.below;
    for (uint32_t i = 0; i < entry.below; i++)
        at = print_tree(screen, depth + 1, listed, at, entry.node);
    return at;
}

/* The entry after this one and all below it. */
static size_t past(const struct listed *listed, size_t at) {
    for (uint64_t left = 1; left > 0 && at < listed->entries; at++)
        left += (uint64_t)entry_at(listed, at).below - 1;
    return at;
}

bool tree_entry(const struct listed *listed, const uint8_t *path, size_t path_words, size_t *entry,
                uint32_t *parent) {
    size_t at = 0;
    *parent = 0;
    for (size_t step = 0; step < path_words; step++) {
        struct entry container = entry_at(listed, at);
        uint32_t left = container.below;
        for (at++; left > 0 && entry_at(listed, at).index != rembulfose_word(path, step); left--)
            at = past(listed, at);
        if (left == 0)
            return false;
        *parent = container.node;
    }
    *entry = at;
    return listed->entries > 0;
}

static const char *cardinality_name(uint32_t cardinality) {
    switch (cardinality) {
    case REMBULFOSE_CARDINALITY_NONE:
        return "none";
    case REMBULFOSE_CARDINALITY_AT_MOST_ONE:
        return "at most one";
    case REMBULFOSE_CARDINALITY_ONE:
        return "one";
    case REMBULFOSE_CARDINALITY_MANY:
        return "many";
    case REMBULFOSE_CARDINALITY_AT_LEAST_ONE:
        return "at least one";
    default:
        return "";
    }
}

void print_plan(const struct screen *screen, unsigned depth, const struct plan *plan) {
    uint32_t root = plan_root(plan);
    if (root == 0)
        return;
    enum rembulfose_kind kind = plan_kind(plan, root);
    bool object = kind == REMBULFOSE_KIND_OUTPUT_OBJECT || kind == REMBULFOSE_KIND_INPUT_OBJECT;
    bool tuple = kind == REMBULFOSE_KIND_TUPLE;
    print_indent(screen, depth);
    print_kind(screen, plan, root, false);
    fputc('\n', screen->out);
    for (uint32_t i = 0; (object || tuple) && i < plan_count(plan, root); i++) {
        print_indent(screen, depth + 1);
        print_label(screen, plan, root, i);
        print_kind(screen, plan, plan_element(plan, root, i), object);
        fprintf(screen->out, "%s\n", object ? cardinality_name(plan_cardinality(plan, root, i)) : "");
    }
}
