/* The descriptors of the demo's capture. The library writes none, so they are put together here. */
#ifndef DESCRIPTORS_H
#define DESCRIPTORS_H

#include "build.h"

/* Ids of the roots: 15 bytes aa and one of these. */
enum { ARGUMENTS_ID = 0x01, BATCH_ID = 0x02, STATE_ID = 0x03 };

/* The elements of a batch, in the order of its shape. */
enum batch {
    ID,
    TANK,
    RECIPE,
    POTASSIUM,
    LITRES,
    BEGUN,
    ENDED,
    MIXING,
    BEST_BEFORE,
    LABELS,
    DRUMS,
    PERMITTED,
    RELEASED,
    STAGE,
    NOTES,
    BATCH_ELEMENTS
};

/* The elements of the session's state, which is an input record. */
enum state { STATE_BATCH, STATE_OPERATOR, STATE_SHIFT };

void batch_descriptor(struct run *run);
void arguments_descriptor(struct run *run);
void state_descriptor(struct run *run);

#endif
