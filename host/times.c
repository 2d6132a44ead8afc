#include "times.h"

#include <inttypes.h>

static const int64_t SECOND = 1000000, HOUR = 3600000000, DAY = 86400000000;

/* Division that rounds down, also below zero. */
static int64_t floor_div(int64_t number, int64_t by) {
    return number / by - (number % by < 0 ? 1 : 0);
}

/* A part of a second: the digits needed, or nothing. */
static void print_parts(const struct screen *screen, int64_t microseconds) {
    int digits = 6;
    if (microseconds == 0)
        return;
    for (; microseconds % 10 == 0; microseconds /= 10)
        digits--;
    fprintf(screen->out, ".%0*" PRId64, digits, microseconds);
}

/* The day of a calendar that goes by 400 years of 146,097 days, each year starting in March so that
 * the leap day comes last. */
void print_date(const struct screen *screen, int64_t days) {
    int64_t since = days + 730425; /* from 0000-03-01 to 2000-01-01 */
    int64_t era = floor_div(since, 146097), day = since - era * 146097;
    int64_t year = (day - day / 1460 + day / 36524 - day / 146096) / 365;
    int64_t day_of_year = day - (365 * year + year / 4 - year / 100);
    int64_t month = (5 * day_of_year + 2) / 153; /* 0 is March */
    int64_t day_of_month = day_of_year - (153 * month + 2) / 5 + 1;
    int64_t shown = year + era * 400 + (month >= 10 ? 1 : 0);
    fprintf(screen->out, "%s%04" PRId64 "-%02" PRId64 "-%02" PRId64, shown < 0 ? "-" : "",
            shown < 0 ? -shown : shown, month < 10 ? month + 3 : month - 9, day_of_month);
}

void print_time(const struct screen *screen, int64_t microseconds) {
    fprintf(screen->out, "%02" PRId64 ":%02" PRId64 ":%02" PRId64, microseconds / HOUR,
            microseconds / (60 * SECOND) % 60, microseconds / SECOND % 60);
    print_parts(screen, microseconds % SECOND);
}

void print_datetime(const struct screen *screen, int64_t microseconds, bool utc) {
    int64_t of_day = microseconds % DAY; /* below zero before 2000 */
    print_date(screen, floor_div(microseconds, DAY));
    fputc('T', screen->out);
    print_time(screen, of_day < 0 ? of_day + DAY : of_day);
    if (utc)
        fputc('Z', screen->out);
}

/* One part of a duration with its unit; nothing if it is zero. */
static void print_part(const struct screen *screen, bool *any, int64_t number, const char *unit) {
    if (number == 0)
        return;
    fprintf(screen->out, "%s%" PRId64 " %s%s", *any ? " " : "", number, unit,
            number == 1 || number == -1 ? "" : "s");
    *any = true;
}

/* Seconds and parts of a second. */
static void print_seconds(const struct screen *screen, bool *any, int64_t microseconds) {
    int64_t size = microseconds < 0 ? -microseconds : microseconds;
    if (size % SECOND == 0) {
        print_part(screen, any, microseconds / SECOND, "second");
        return;
    }
    fprintf(screen->out, "%s%s%" PRId64, *any ? " " : "", microseconds < 0 ? "-" : "",
            size / SECOND);
    print_parts(screen, size % SECOND);
    fputs(" seconds", screen->out);
    *any = true;
}

void print_duration(const struct screen *screen, int64_t microseconds, int32_t days,
                    int32_t months) {
    bool any = false;
    print_part(screen, &any, months / 12, "year");
    print_part(screen, &any, months % 12, "month");
    print_part(screen, &any, days, "day");
    print_part(screen, &any, microseconds / HOUR, "hour");
    print_part(screen, &any, microseconds % HOUR / (60 * SECOND), "minute");
    print_seconds(screen, &any, microseconds % (60 * SECOND));
    if (!any)
        fputs("0 seconds", screen->out);
}
