/* The fields of the ten messages, by name. */
#ifndef LAYOUTS_H
#define LAYOUTS_H

#include <stdint.h>

/* How a field is printed. A run's field is its count; its items' fields follow it. */
enum form { NUMBER, BITS, UUID_FIELD, TEXT, BYTES_FIELD, CODE, RUN };

/* A code's meaning. Tables end with a null meaning. */
struct code {
    uint8_t code;
    const char *meaning;
};

/* A field. Layouts end with a null name. */
struct field {
    const char *name;
    enum form form;
    const struct field *items; /* of a run */
    const struct code *codes;  /* of a code */
};

struct layout {
    uint32_t side;
    uint8_t type;
    const char *name;
    const struct field *fields;
};

/* The layout of a side's message type; null if there is none. */
const struct layout *layout_of(uint32_t side, uint8_t type);

#endif
