#include "descriptors.h"

enum {
    ONE = REMBULFOSE_CARDINALITY_ONE,
    AT_MOST_ONE = REMBULFOSE_CARDINALITY_AT_MOST_ONE,
    MANY = REMBULFOSE_CARDINALITY_MANY
};

/* Tags of blocks. */
enum { SET_TAG = 0, SHAPE_TAG = 1, NAMED_TAG = 5, ARRAY_TAG = 6, ENUM_TAG = 7, INPUT_TAG = 8 };
enum { RANGE_TAG = 9, TYPE_TAG = 10 };

/* The batch descriptor's blocks, by index. */
enum block {
    UUID_BLOCK,
    STR_BLOCK,
    INT16_BLOCK,
    INT32_BLOCK,
    DECIMAL_BLOCK,
    FLOAT64_BLOCK,
    DATETIME_BLOCK,
    DURATION_BLOCK,
    DATE_BLOCK,
    BOOL_BLOCK,
    JSON_BLOCK,
    STAGE_BLOCK,
    RECIPE_BLOCK,
    LABELS_BLOCK,
    PERMITTED_BLOCK,
    DRUM_TYPE_BLOCK,
    DRUM_BLOCK,
    DRUMS_BLOCK,
    BATCH_TYPE_BLOCK,
    BATCH_BLOCK
};

/* What most blocks start with: tag, id, name, whether the schema defines it. */
static void add_named(struct run *run, uint8_t tag, uint8_t id, const char *name, uint8_t defined) {
    add_8(run, tag);
    add_id(run, id);
    add_text(run, name);
    add_8(run, defined);
}

/* An element of an output shape. */
static void add_element(struct run *run, uint8_t cardinality, const char *name, uint16_t block,
                        uint16_t source) {
    add_32(run, 0);
    add_8(run, cardinality);
    add_text(run, name);
    add_16(run, block);
    add_16(run, source);
}

/* An element of an input shape. */
static void add_input(struct run *run, uint8_t cardinality, const char *name, uint16_t block) {
    add_32(run, 0);
    add_8(run, cardinality);
    add_text(run, name);
    add_16(run, block);
}

static void add_scalars(struct run *run) {
    add_scalar(run, 0x0100, "std::uuid");
    add_scalar(run, 0x0101, "std::str");
    add_scalar(run, 0x0103, "std::int16");
    add_scalar(run, 0x0104, "std::int32");
    add_scalar(run, 0x0108, "std::decimal");
    add_scalar(run, 0x0107, "std::float64");
    add_scalar(run, 0x010a, "std::datetime");
    add_scalar(run, 0x010e, "std::duration");
    add_scalar(run, 0x010c, "cal::local_date");
    add_scalar(run, 0x0109, "std::bool");
    add_scalar(run, 0x010f, "std::json");
}

static void add_enumeration(struct run *run, uint8_t id, const char *name,
                            const char *const *members, uint16_t count) {
    add_named(run, ENUM_TAG, id, name, 1);
    add_16(run, 0);
    add_16(run, count);
    for (uint16_t i = 0; i < count; i++)
        add_text(run, members[i]);
}

/* Recipe, labels and the permitted range. */
static void add_collections(struct run *run) {
    add_named(run, NAMED_TAG, 0x11, "tuple<name:std::str, revision:std::int16>", 0);
    add_16(run, 0);
    add_16(run, 2);
    add_text(run, "name");
    add_16(run, STR_BLOCK);
    add_text(run, "revision");
    add_16(run, INT16_BLOCK);
    add_named(run, ARRAY_TAG, 0x12, "array<std::str>", 0);
    add_16(run, 0);
    add_16(run, STR_BLOCK);
    add_16(run, 1);
    add_32(run, UINT32_MAX);
    add_named(run, RANGE_TAG, 0x13, "range<std::decimal>", 0);
    add_16(run, 0);
    add_16(run, DECIMAL_BLOCK);
}

/* A set of drums. */
static void add_drums(struct run *run) {
    add_named(run, TYPE_TAG, 0x14, "default::Drum", 1);
    add_8(run, SHAPE_TAG);
    add_id(run, 0x15);
    add_8(run, 0);
    add_16(run, DRUM_TYPE_BLOCK);
    add_16(run, 2);
    add_element(run, ONE, "number", INT32_BLOCK, DRUM_TYPE_BLOCK);
    add_element(run, ONE, "net_kg", DECIMAL_BLOCK, DRUM_TYPE_BLOCK);
    add_8(run, SET_TAG);
    add_id(run, 0x16);
    add_16(run, DRUM_BLOCK);
}

static void add_batch(struct run *run) {
    add_named(run, TYPE_TAG, 0x17, "default::AcidBatch", 1);
    add_8(run, SHAPE_TAG);
    add_id(run, BATCH_ID);
    add_8(run, 0);
    add_16(run, BATCH_TYPE_BLOCK);
    add_16(run, BATCH_ELEMENTS);
    add_element(run, ONE, "id", UUID_BLOCK, BATCH_TYPE_BLOCK);
    add_element(run, ONE, "tank", STR_BLOCK, BATCH_TYPE_BLOCK);
    add_element(run, ONE, "recipe", RECIPE_BLOCK, BATCH_TYPE_BLOCK);
    add_element(run, ONE, "potassium", DECIMAL_BLOCK, BATCH_TYPE_BLOCK);
    add_element(run, ONE, "litres", FLOAT64_BLOCK, BATCH_TYPE_BLOCK);
    add_element(run, ONE, "begun", DATETIME_BLOCK, BATCH_TYPE_BLOCK);
    add_element(run, AT_MOST_ONE, "ended", DATETIME_BLOCK, BATCH_TYPE_BLOCK);
    add_element(run, ONE, "mixing", DURATION_BLOCK, BATCH_TYPE_BLOCK);
    add_element(run, AT_MOST_ONE, "best_before", DATE_BLOCK, BATCH_TYPE_BLOCK);
    add_element(run, ONE, "labels", LABELS_BLOCK, BATCH_TYPE_BLOCK);
    add_element(run, MANY, "drums", DRUMS_BLOCK, BATCH_TYPE_BLOCK);
    add_element(run, ONE, "permitted", PERMITTED_BLOCK, BATCH_TYPE_BLOCK);
    add_element(run, ONE, "released", BOOL_BLOCK, BATCH_TYPE_BLOCK);
    add_element(run, ONE, "stage", STAGE_BLOCK, BATCH_TYPE_BLOCK);
    add_element(run, AT_MOST_ONE, "notes", JSON_BLOCK, BATCH_TYPE_BLOCK);
}

void batch_descriptor(struct run *run) {
    static const char *const stages[] = {"mixing", "testing", "filled", "released", "rejected"};
    run->length = 0;
    add_scalars(run);
    add_enumeration(run, 0x10, "default::Stage", stages, 5);
    add_collections(run);
    add_drums(run);
    add_batch(run);
}

/* The arguments of the query: batches since a time, of a tank. */
void arguments_descriptor(struct run *run) {
    run->length = 0;
    add_scalar(run, 0x010a, "std::datetime");
    add_scalar(run, 0x0101, "std::str");
    add_8(run, INPUT_TAG);
    add_id(run, ARGUMENTS_ID);
    add_16(run, 2);
    add_input(run, ONE, "since", 0);
    add_input(run, AT_MOST_ONE, "tank", 1);
}

/* The session's state: which batch the panel works on, who works there, and on which shift. */
void state_descriptor(struct run *run) {
    static const char *const shifts[] = {"early", "late", "night"};
    run->length = 0;
    add_scalar(run, 0x0105, "std::int64");
    add_scalar(run, 0x0101, "std::str");
    add_enumeration(run, 0x20, "default::Shift", shifts, 3);
    add_8(run, INPUT_TAG);
    add_id(run, STATE_ID);
    add_16(run, 3);
    add_input(run, ONE, "batch", 0);
    add_input(run, AT_MOST_ONE, "operator", 1);
    add_input(run, AT_MOST_ONE, "shift", 2);
}
