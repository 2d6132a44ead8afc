/* What the demo's capture is built from: runs of bytes, descriptors, supplies, messages. Any failure
 * ends the program: it makes one fixed file. */
#ifndef BUILD_H
#define BUILD_H

#include "../host/plan.h"

#include <stddef.h>
#include <stdint.h>

/* A run of bytes that grows up to its room. */
struct run {
    uint8_t bytes[65536];
    size_t length;
};

/* Ends the program unless all is well. */
void must(int good, const char *what);

void add_bytes(struct run *run, const void *bytes, size_t length);
void add_8(struct run *run, uint8_t number);
void add_16(struct run *run, uint16_t number);
void add_32(struct run *run, uint32_t number);
void add_64(struct run *run, uint64_t number);

/* Writes a run to standard output. */
void print_run(const struct run *run);

/* A u32 length and the text. */
void add_text(struct run *run, const char *text);

/* Blocks of a descriptor. Ids of known scalars are 14 zeros and two bytes; the others are 15 bytes a
 * and one that the caller chooses. */
void add_scalar(struct run *run, uint16_t known_id, const char *name);
void add_id(struct run *run, uint8_t which);

/* A supply: a list of five words an entry, and the leaves' bytes. */
struct supply {
    struct run list, source;
};

/* A container's entry, with so many elements that follow. */
void open_node(struct supply *supply, uint32_t node, uint32_t index, uint32_t count);

/* A leaf's entry. */
void add_leaf(struct supply *supply, uint32_t node, uint32_t index, const void *bytes,
              size_t length);
void add_leaf_text(struct supply *supply, uint32_t node, uint32_t index, const char *text);

/* A leaf of 2, 4 or 8 bytes. */
void add_leaf_number(struct supply *supply, uint32_t node, uint32_t index, uint64_t number,
                     size_t size);

/* A leaf that is a decimal, given as text: "-12.50". */
void add_leaf_decimal(struct supply *supply, uint32_t node, uint32_t index, const char *text);

/* A range's entry: the flags are a byte of the source. */
void open_range(struct supply *supply, uint32_t node, uint32_t index, uint8_t flags,
                uint32_t count);

void add_absent(struct supply *supply, uint32_t node, uint32_t index);

/* Writes the value that has the supply, with the library's writer. */
void write_supply(const struct plan *plan, const struct supply *supply, struct run *value);

/* A message: a list of pairs and the fields' bytes. */
struct fields {
    struct run list, source;
};

/* A field that holds these bytes. */
void add_field(struct fields *fields, const void *bytes, size_t length);
void add_field_text(struct fields *fields, const char *text);
void add_field_number(struct fields *fields, uint64_t number, size_t size);

/* Writes the message with the library's writer, as one record of a side-marked capture. The fields
 * are then empty again. */
void write_record(struct run *capture, uint32_t side, uint8_t type, struct fields *fields);

#endif
