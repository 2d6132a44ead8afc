/* Decimals and bigints in human form. */
#ifndef DECIMAL_H
#define DECIMAL_H

#include "screen.h"

/* Prints an accepted decimal or bigint: count, weight, sign, scale, and digits to the base 10,000.
 * The first digit counts 10,000 to the power of weight. Every digit that is on the wire is printed,
 * also those past the display scale. A number with more than 200 zeros that are not on the wire is
 * printed as digits times a power of 10,000, with its display scale if that is not 0; a display scale
 * that asks for more than 200 zeros at the end is said in its place: 2.5 (scale 65535). */
void print_decimal(const struct screen *screen, const uint8_t *bytes, size_t length);

#endif
