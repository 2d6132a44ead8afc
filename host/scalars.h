/* Scalars in human form. */
#ifndef SCALARS_H
#define SCALARS_H

#include "screen.h"

/* The name of a format, 0 to 19. */
const char *format_name(uint32_t format);

/* Prints an accepted scalar of a format. */
void print_scalar(const struct screen *screen, uint32_t format, const uint8_t *bytes, size_t length);

#endif
