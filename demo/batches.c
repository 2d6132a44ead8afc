#include "batches.h"

#include "descriptors.h"

#include <stdio.h>
#include <string.h>

static const uint64_t MINUTE = 60000000, DAY = 86400000000;

/* 2026-03-02, in days since 2000-01-01. */
enum { FIRST_DAY = 9557 };

/* What differs most between the batches. The rest goes by the batch's number. */
struct batch_facts {
    const char *tank, *recipe, *potassium, *lower, *upper, *stage, *notes;
    uint8_t flags; /* of the permitted range */
    unsigned drums, minutes;
};

enum { CLOSED = 6, LOWER_ONLY = 18, UPPER_ONLY = 12, HALF_OPEN = 2, NOTHING = 1 };

static const struct batch_facts facts[BATCHES] = {
    {"T-1", "Acid 251", "2.000", "1.900", "2.100", "released", NULL, CLOSED, 3, 42},
    {"T-1", "Acid 251", "2.004", "1.900", "2.100", "released", NULL, CLOSED, 3, 41},
    {"T-2", "Acid 301", "3.00", "2.85", "3.15", "released", NULL, HALF_OPEN, 2, 55},
    {"T-2", "Acid 301", "2.9987", "2.85", "3.15", "released", NULL, HALF_OPEN, 2, 54},
    {"T-3", "Acid 101, low \"K\"", "1.0", "0.95", "1.05", "filled", NULL, CLOSED, 4, 48},
    {"T-3", "Acid 000, K-free", "0.0000", "0", "0.05", "filled", NULL, CLOSED, 1, 39},
    {"T-4", "Säure 401 für Hämofiltration", "4.00", "3.8", "4.2", "released",
     "{\"probe\": \"A17\", \"pH\": 2.41}", CLOSED, 2, 61},
    {"T-1", "Acid 251", "2.31", "1.900", "2.100", "rejected", "{\"why\": \"potassium too high\"}",
     CLOSED, 0, 44},
    {"T-1", "Acid 251", "1.998", "1.900", "2.100", "released", NULL, CLOSED, 3, 42},
    {"T-2", "Stock KCl, mg", "149120.0000", "149000", NULL, "released", NULL, LOWER_ONLY, 1, 90},
    {"T-2", "Stock KCl, mg", "298240000.5", "149000", NULL, "testing", NULL, LOWER_ONLY, 0, 91},
    {"T-3", "Acid 000, K-free", "-0.0003", NULL, "0.05", "testing",
     "{\"note\": \"sensor zero to be set\"}", UPPER_ONLY, 0, 40},
    {"T-4", "Rinse", "0.00001", NULL, NULL, "released", NULL, NOTHING, 0, 12},
    {"T-1", "Acid 251", "2.001", "1.900", "2.100", "released", NULL, CLOSED, 3, 42},
    {"T-1", "Acid 251", "2.002", "1.900", "2.100", "filled", NULL, CLOSED, 2, 43},
    {"T-2", "Acid 301", "3.02", "2.85", "3.15", "filled", NULL, HALF_OPEN, 2, 55},
    {"T-3", "Acid 101, low \"K\"", "1.01", "0.95", "1.05", "testing", NULL, CLOSED, 0, 47},
    {"T-4", "Acid 401", "4.02", "3.8", "4.2", "testing", NULL, CLOSED, 0, 60},
    {"T-1", "Acid 251", "1.7", "1.900", "2.100", "mixing", NULL, CLOSED, 0, 20},
    {"T-2", "Acid 301", "0.8", "2.85", "3.15", "mixing", NULL, HALF_OPEN, 0, 8},
};

static uint64_t begun(unsigned which) {
    return (FIRST_DAY + which / 4) * DAY + (6 * 60 + 15 + 150 * (which % 4)) * MINUTE;
}

static int mixing(const struct batch_facts *batch) {
    return strcmp(batch->stage, "mixing") == 0;
}

static void add_identity(const struct plan *plan, uint32_t root, unsigned which,
                         struct supply *supply) {
    const struct batch_facts *batch = &facts[which];
    uint8_t id[16] = {0xb9, 0x54, 0x5c, 0x35, 0x1f, 0xe7, 0x48, 0x5f,
                      0xa6, 0xea, 0xf8, 0xea, 0xd2, 0x51, 0x00, (uint8_t)which};
    uint32_t recipe = plan_element(plan, root, RECIPE);
    add_leaf(supply, plan_element(plan, root, ID), ID, id, sizeof id);
    add_leaf_text(supply, plan_element(plan, root, TANK), TANK, batch->tank);
    open_node(supply, recipe, RECIPE, 2);
    add_leaf_text(supply, plan_element(plan, recipe, 0), 0, batch->recipe);
    add_leaf_number(supply, plan_element(plan, recipe, 1), 1, 7 + which % 3, 2);
}

static void add_amounts(const struct plan *plan, uint32_t root, unsigned which,
                        struct supply *supply) {
    double litres = 1000.5 + 12.25 * which;
    uint64_t bits;
    memcpy(&bits, &litres, sizeof bits);
    add_leaf_decimal(supply, plan_element(plan, root, POTASSIUM), POTASSIUM,
                     facts[which].potassium);
    add_leaf_number(supply, plan_element(plan, root, LITRES), LITRES, bits, 8);
}

/* A duration: microseconds, days and months. */
static void add_leaf_duration(struct supply *supply, uint32_t node, uint32_t index,
                              uint64_t microseconds) {
    uint8_t bytes[16] = {0};
    for (int i = 0; i < 8; i++)
        bytes[i] = (uint8_t)(microseconds >> (56 - 8 * i));
    add_leaf(supply, node, index, bytes, sizeof bytes);
}

static void add_times(const struct plan *plan, uint32_t root, unsigned which,
                      struct supply *supply) {
    const struct batch_facts *batch = &facts[which];
    uint64_t length = batch->minutes * MINUTE + which * 1250000;
    uint32_t ended = plan_element(plan, root, ENDED), best = plan_element(plan, root, BEST_BEFORE);
    add_leaf_number(supply, plan_element(plan, root, BEGUN), BEGUN, begun(which), 8);
    if (mixing(batch))
        add_absent(supply, ended, ENDED);
    else
        add_leaf_number(supply, ended, ENDED, begun(which) + length, 8);
    add_leaf_duration(supply, plan_element(plan, root, MIXING), MIXING, length);
    if (mixing(batch))
        add_absent(supply, best, BEST_BEFORE);
    else
        add_leaf_number(supply, best, BEST_BEFORE, FIRST_DAY + which / 4 + 730, 4);
}

static void add_labels(const struct plan *plan, uint32_t root, unsigned which,
                       struct supply *supply) {
    uint32_t labels = plan_element(plan, root, LABELS), text = plan_element(plan, labels, 0);
    uint32_t count = mixing(&facts[which]) ? 0 : 2;
    char label[32];
    open_node(supply, labels, LABELS, count);
    if (count == 0)
        return;
    snprintf(label, sizeof label, "LOT 26-%04u", 310 + which);
    add_leaf_text(supply, text, 0, label);
    add_leaf_text(supply, text, 1, which % 5 == 0 ? "STERILE\tFILTERED" : "KEEP DRY");
}

static void add_drums(const struct plan *plan, uint32_t root, unsigned which,
                      struct supply *supply) {
    static const char *const weights[] = {"200.00", "199.95", "87.5", "12.125"};
    uint32_t drums = plan_element(plan, root, DRUMS), drum = plan_element(plan, drums, 0);
    open_node(supply, drums, DRUMS, facts[which].drums);
    for (unsigned i = 0; i < facts[which].drums; i++) {
        open_node(supply, drum, i, 2);
        add_leaf_number(supply, plan_element(plan, drum, 0), 0, 5000 + 10 * which + i, 4);
        add_leaf_decimal(supply, plan_element(plan, drum, 1), 1, weights[i]);
    }
}

static void add_permitted(const struct plan *plan, uint32_t root, unsigned which,
                          struct supply *supply) {
    const struct batch_facts *batch = &facts[which];
    uint32_t range = plan_element(plan, root, PERMITTED), bound = plan_element(plan, range, 0);
    open_range(supply, range, PERMITTED, batch->flags,
               (batch->lower != NULL) + (batch->upper != NULL));
    if (batch->lower != NULL)
        add_leaf_decimal(supply, bound, 0, batch->lower);
    if (batch->upper != NULL)
        add_leaf_decimal(supply, bound, 1, batch->upper);
}

static void add_stage(const struct plan *plan, uint32_t root, unsigned which,
                      struct supply *supply) {
    const struct batch_facts *batch = &facts[which];
    uint32_t notes = plan_element(plan, root, NOTES);
    char json[80];
    add_leaf_number(supply, plan_element(plan, root, RELEASED), RELEASED,
                    strcmp(batch->stage, "released") == 0, 1);
    add_leaf_text(supply, plan_element(plan, root, STAGE), STAGE, batch->stage);
    if (batch->notes == NULL) {
        add_absent(supply, notes, NOTES);
        return;
    }
    snprintf(json, sizeof json, "\x01%s", batch->notes);
    add_leaf_text(supply, notes, NOTES, json);
}

void batch_value(const struct plan *plan, unsigned which, struct supply *supply,
                 struct run *value) {
    uint32_t root = plan_root(plan);
    supply->list.length = supply->source.length = 0;
    open_node(supply, root, 0, BATCH_ELEMENTS);
    add_identity(plan, root, which, supply);
    add_amounts(plan, root, which, supply);
    add_times(plan, root, which, supply);
    add_labels(plan, root, which, supply);
    add_drums(plan, root, which, supply);
    add_permitted(plan, root, which, supply);
    add_stage(plan, root, which, supply);
    write_supply(plan, supply, value);
}
