/* Times, and the places in a value where one may stand, worked out by hand: a local_time lies within a day
 * wherever it stands, and a datetime or local_datetime may be anything (R5.15). */
#ifndef TIMES_H
#define TIMES_H

#include "cases.h"

/* Eight bytes, and whether a local_time may hold them. */
struct microseconds {
    const char *name, *bytes;
    int of_day;
};

static const struct microseconds all_microseconds[] = {
    {"-1", "ffffffffffffffff", 0},
    {"0", "0000000000000000", 1},
    {"86,399,999,999", "000000141dd75fff", 1},
    {"86,400,000,000", "000000141dd76000", 0},
    {"the smallest of 64 bits", "8000000000000000", 0},
    {"the largest of 64 bits", "7fffffffffffffff", 0},
    /* In halves of 32 bits, only the lower is over that of a day's end, and then only the upper. */
    {"85,899,345,919", "00000013ffffffff", 1},
    {"90,194,313,216", "0000001500000000", 0},
};

/* A place for a time. Its format stands between the two parts of the plan, and its bytes between those of the
 * value. What else is in the value is good. */
struct place {
    const char *name, *plan[2], *value[2];
    uint32_t start;          /* of the time's bytes */
    const char *list, *path; /* of the value, and to the time */
};

#define SET_OF_THREE "00000001 0000000000000000 00000003 00000001 00000008"
#define THREE_LISTED "4 0 0 56 3  2 0 24 8 0  2 1 36 8 0  2 2 48 8 0"
#define AFTER_INT16 "00000002 00000000 00000002 0007 00000000 00000008"
#define TWO_BOUNDS_LISTED "4 0 0 25 2  2 0 5 8 0  2 1 17 8 0"
#define MIDNIGHT "0000000000000000"

static const struct place all_places[] = {
    {"alone", {"4 2 1", ""}, {"", ""}, 0, "2 0 0 8 0", ""},
    {"first in a set", {"6 4 1", "2 2"}, {SET_OF_THREE, "00000008" MIDNIGHT "00000008" MIDNIGHT},
     24, THREE_LISTED, "0"},
    {"second in a set", {"6 4 1", "2 2"}, {SET_OF_THREE MIDNIGHT "00000008", "00000008" MIDNIGHT},
     36, THREE_LISTED, "1"},
    {"last in a set", {"6 4 1", "2 2"}, {SET_OF_THREE MIDNIGHT "00000008" MIDNIGHT "00000008", ""},
     48, THREE_LISTED, "2"},
    {"in an array of a set", {"8 6 1", "2 2 3 4"},
     {"00000001 0000000000000000 00000001 00000001 0000002c 00000001 00000000 00000020"
      "00000001 0000000000000000 00000001 00000001 00000008", ""},
     60, "6 0 0 68 1  4 0 36 32 1  2 0 60 8 0", "0 0"},
    {"in a tuple", {"10 6 1 3 1", "4 2 2 4"}, {AFTER_INT16, ""},
     22, "6 0 0 30 2  2 0 12 2 0  4 1 22 8 0", "1"},
    {"in an output object", {"12 6 1 3 1", "5 2 2 65 4 111"}, {AFTER_INT16, ""},
     22, "6 0 0 30 2  2 0 12 2 0  4 1 22 8 0", "1"},
    {"in a set of an output object", {"10 6 1", "2 2 5 1 4 109"},
     {"00000001 00000000 00000020 00000001 0000000000000000 00000001 00000001 00000008", ""},
     36, "6 0 0 44 1  4 0 12 32 1  2 0 36 8 0", "0 0"},
    {"sent last in a sparse object", {"10 4 1", "6 2 2 65 2 111"},
     {"00000002 00000001 00000008" MIDNIGHT "00000000 00000008", ""},
     28, "4 0 0 36 2  2 1 12 8 0  2 0 28 8 0", "0"},
    {"lower bound", {"6 4 1", "7 2"}, {"06 00000008", "00000008" MIDNIGHT},
     5, TWO_BOUNDS_LISTED, "0"},
    {"upper bound", {"6 4 1", "7 2"}, {"06 00000008" MIDNIGHT "00000008", ""},
     17, TWO_BOUNDS_LISTED, "1"},
};

struct time_format {
    const char *name;
    uint32_t format;
};

static const struct time_format all_formats[] = {
    {"datetime", REMBULFOSE_FORMAT_DATETIME},
    {"local_datetime", REMBULFOSE_FORMAT_LOCAL_DATETIME},
    {"local_time", REMBULFOSE_FORMAT_LOCAL_TIME},
};

/* A time in its place. */
struct timed {
    char name[128], plan[64], value[256];
    const struct place *place;
};

/* What a test does with one. */
typedef void timed_case(const struct timed *timed);

static inline void try_time(const struct place *place, const struct time_format *time,
                            const struct microseconds *microseconds, timed_case *good,
                            timed_case *bad) {
    struct timed timed = {.place = place};
    snprintf(timed.name, sizeof timed.name, "%s of %s, %s", time->name, microseconds->name,
             place->name);
    snprintf(timed.plan, sizeof timed.plan, "%s %u %s", place->plan[0], (unsigned)time->format,
             place->plan[1]);
    snprintf(timed.value, sizeof timed.value, "%s %s %s", place->value[0], microseconds->bytes,
             place->value[1]);
    if (microseconds->of_day || time->format != REMBULFOSE_FORMAT_LOCAL_TIME)
        good(&timed);
    else
        bad(&timed);
}

/* Every time in every place: `good` is given those that are accepted, `bad` the others. */
static inline void try_times(timed_case *good, timed_case *bad) {
    for (size_t i = 0; i < sizeof all_places / sizeof all_places[0]; i++)
        for (size_t j = 0; j < sizeof all_formats / sizeof all_formats[0]; j++)
            for (size_t k = 0; k < sizeof all_microseconds / sizeof all_microseconds[0]; k++)
                try_time(&all_places[i], &all_formats[j], &all_microseconds[k], good, bad);
}

#endif
