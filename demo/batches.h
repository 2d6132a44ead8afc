/* The rows of the demo's capture: twenty batches of acid concentrate. */
#ifndef BATCHES_H
#define BATCHES_H

#include "build.h"

enum { BATCHES = 20 };

/* The value of a batch, 0 to BATCHES - 1, by the plan of the batch descriptor. */
void batch_value(const struct plan *plan, unsigned which, struct supply *supply,
                 struct run *value);

#endif
