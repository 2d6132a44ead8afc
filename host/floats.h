/* Floats in human form. */
#ifndef FLOATS_H
#define FLOATS_H

#include "screen.h"

/* Prints the number with these bits: the fewest digits that, read and rounded to the nearest, give it
 * again. What is no number is told by its bits. */
void print_float32(const struct screen *screen, uint32_t bits);

void print_float64(const struct screen *screen, uint64_t bits);

#endif
