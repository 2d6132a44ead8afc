/* Dates, times and durations in human form. Of all but a local_time the library accepts any integer, so
 * any is printed: years past 9999 with all their digits, years before 1 as 0, -1, ... */
#ifndef TIMES_H
#define TIMES_H

#include "screen.h"

/* Microseconds since 2000-01-01T00:00. */
void print_datetime(const struct screen *screen, int64_t microseconds, bool utc);

/* Days since 2000-01-01. */
void print_date(const struct screen *screen, int64_t days);

/* Microseconds since midnight, from 0 and less than a day: a value with any other local_time is refused
 * (R5.15) and comes to no printing. */
void print_time(const struct screen *screen, int64_t microseconds);

/* A duration's three parts; those that are zero are left out. */
void print_duration(const struct screen *screen, int64_t microseconds, int32_t days, int32_t months);

#endif
