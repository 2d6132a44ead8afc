/* The elements' names and the blocks' tags, which a plan does not hold, read from its descriptor. The
 * library has accepted the descriptor; still no read here passes its end. */
#include "bytes.h"
#include "plan.h"

#include <string.h>

/* The fields of each kind of block after its tag. A digit is a field of so many bytes, i an id, t a
 * text, n a text that names an element; * a count and then items up to the semicolon. */
static const char *fields_of(uint8_t tag) {
    switch (tag) {
    case 0:
        return "i2";
    case 1:
        return "i12*41n22;";
    case 3:
        return "it1*2;";
    case 4:
        return "it1*2;*2;";
    case 5:
        return "it1*2;*n2;";
    case 6:
        return "it1*2;2*4;";
    case 7:
        return "it1*2;*t;";
    case 8:
        return "i*41n2;";
    case 9:
        return "it1*2;2";
    case 10:
        return "it1";
    case 11:
        return "it11*2;";
    case 13:
        return "i*t2;";
    default:
        return "2tt";
    }
}

static bool has_values(uint8_t tag) {
    return tag < 10;
}

/* The bytes left to read; none once a field did not fit. */
struct rest {
    const uint8_t *at;
    size_t left;
};

/* Takes so many bytes; null if there are fewer. */
static const uint8_t *take(struct rest *rest, size_t length) {
    const uint8_t *at = rest->at;
    if (length > rest->left) {
        rest->left = 0;
        return NULL;
    }
    rest->at += length;
    rest->left -= length;
    return at;
}

static struct name take_text(struct rest *rest) {
    const uint8_t *head = take(rest, 4);
    uint32_t length = head == NULL ? 0 : get_32(head);
    const uint8_t *text = take(rest, length);
    return (struct name){text, text == NULL ? 0 : length};
}

/* One field; a name goes to its slot. */
static void take_field(struct rest *rest, char field, struct name *slot) {
    if (field == 'n' && slot != NULL)
        *slot = take_text(rest);
    else if (field == 'n' || field == 't')
        take_text(rest);
    else
        take(rest, field == 'i' ? 16 : (size_t)(field - '0'));
}

/* The items of a run; the pattern starts after the star, and its end is returned. The names of items
 * go to every `step`th slot. */
static const char *take_items(struct rest *rest, const char *pattern, struct name *slots,
                              uint32_t slot_count, uint32_t step) {
    const uint8_t *head = take(rest, 2);
    uint32_t count = head == NULL ? 0 : get_16(head);
    const char *end = strchr(pattern, ';');
    for (uint32_t i = 0; i < count; i++) {
        struct name *slot = i * step < slot_count ? slots + i * step : NULL;
        for (const char *field = pattern; field < end; field++)
            take_field(rest, *field, slot);
    }
    return end;
}

static void take_block(struct rest *rest, uint8_t tag, struct name *slots, uint32_t slot_count) {
    uint32_t step = tag == 5 ? 1 : 2;
    for (const char *field = fields_of(tag); *field != 0; field++) {
        if (*field == '*')
            field = take_items(rest, field + 1, slots, slot_count, step);
        else
            take_field(rest, *field, NULL);
    }
}

void plan_take_names(struct plan *plan, const uint8_t *descriptor, size_t length) {
    struct rest rest = {descriptor, length};
    uint32_t node = 2, words = (uint32_t)(plan->length / 4);
    const uint8_t *tag;
    while ((tag = take(&rest, 1)) != NULL) {
        uint32_t size = has_values(*tag) && node < words ? plan_node_words(plan, node) : 0;
        uint32_t slot_count = size > 2 && node + size <= words ? size - 2 : 0;
        take_block(&rest, *tag, slot_count > 0 ? plan->names + node + 2 : NULL, slot_count);
        if (size > 0)
            plan->tags[node] = *tag;
        node += size;
    }
}
