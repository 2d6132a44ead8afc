#include "scalars.h"

#include "../include/rembulfose.h"
#include "bytes.h"
#include "decimal.h"
#include "floats.h"
#include "times.h"

#include <inttypes.h>

struct shape {
    const char *name;
    size_t least; /* bytes that the printing below reads without asking */
};

static const struct shape shapes[REMBULFOSE_FORMATS] = {
    {"uuid", 16},       {"str", 0},           {"bytes", 0},
    {"int16", 2},       {"int32", 4},         {"int64", 8},
    {"float32", 4},     {"float64", 8},       {"decimal", 8},
    {"bool", 1},        {"datetime", 8},      {"local_datetime", 8},
    {"local_date", 4},  {"local_time", 8},    {"duration", 16},
    {"json", 1},        {"bigint", 8},        {"relative_duration", 16},
    {"date_duration", 16}, {"memory", 8},
};

const char *format_name(uint32_t format) {
    return format < REMBULFOSE_FORMATS ? shapes[format].name : "unknown format";
}

/* A number of bytes in the largest unit that divides it. */
static void print_memory(const struct screen *screen, int64_t bytes) {
    static const char *const units[] = {"B", "KiB", "MiB", "GiB", "TiB", "PiB"};
    size_t unit = 0;
    while (bytes != 0 && bytes % 1024 == 0 && unit + 1 < sizeof units / sizeof units[0]) {
        bytes /= 1024;
        unit++;
    }
    fprintf(screen->out, "%" PRId64 " %s", bytes, units[unit]);
}

static void print_number(const struct screen *screen, enum rembulfose_format format,
                         const uint8_t *bytes) {
    if (format == REMBULFOSE_FORMAT_FLOAT32)
        print_float32(screen, get_32(bytes));
    else if (format == REMBULFOSE_FORMAT_FLOAT64)
        print_float64(screen, get_64(bytes));
    else if (format == REMBULFOSE_FORMAT_MEMORY)
        print_memory(screen, signed_64(get_64(bytes)));
    else if (format == REMBULFOSE_FORMAT_BOOL)
        fputs(bytes[0] != 0 ? "true" : "false", screen->out);
    else if (format == REMBULFOSE_FORMAT_INT16)
        fprintf(screen->out, "%d", signed_16(get_16(bytes)));
    else if (format == REMBULFOSE_FORMAT_INT32)
        fprintf(screen->out, "%" PRId32, signed_32(get_32(bytes)));
    else
        fprintf(screen->out, "%" PRId64, signed_64(get_64(bytes)));
}

/* No JSON grammar is asked for: there may be no text at all. */
static void print_json(const struct screen *screen, const uint8_t *text, size_t length) {
    if (length == 0)
        print(screen, FAINT, "no text");
    else
        print_text(screen, text, length, AS_IT_IS);
}

/* Durations: microseconds, days, months. A date_duration's first 8 bytes are reserved. */
static void print_long(const struct screen *screen, enum rembulfose_format format,
                       const uint8_t *bytes) {
    int64_t microseconds = format == REMBULFOSE_FORMAT_DATE_DURATION ? 0 : signed_64(get_64(bytes));
    print_duration(screen, microseconds, signed_32(get_32(bytes + 8)),
                   signed_32(get_32(bytes + 12)));
}

static void print_moment(const struct screen *screen, enum rembulfose_format format,
                         const uint8_t *bytes) {
    if (format == REMBULFOSE_FORMAT_LOCAL_DATE)
        print_date(screen, signed_32(get_32(bytes)));
    else if (format == REMBULFOSE_FORMAT_LOCAL_TIME)
        print_time(screen, signed_64(get_64(bytes)));
    else
        print_datetime(screen, signed_64(get_64(bytes)), format == REMBULFOSE_FORMAT_DATETIME);
}

void print_scalar(const struct screen *screen, uint32_t format, const uint8_t *bytes,
                  size_t length) {
    if (format >= REMBULFOSE_FORMATS || length < shapes[format].least) {
        print_bytes(screen, bytes, length);
        return;
    }
    switch ((enum rembulfose_format)format) {
    case REMBULFOSE_FORMAT_UUID:
        print_uuid(screen, bytes);
        return;
    case REMBULFOSE_FORMAT_STR:
        print_text(screen, bytes, length, QUOTED);
        return;
    case REMBULFOSE_FORMAT_BYTES:
        print_bytes(screen, bytes, length);
        return;
    case REMBULFOSE_FORMAT_JSON:
        print_json(screen, bytes + 1, length - 1);
        return;
    case REMBULFOSE_FORMAT_DECIMAL:
    case REMBULFOSE_FORMAT_BIGINT:
        print_decimal(screen, bytes, length);
        return;
    case REMBULFOSE_FORMAT_DATETIME:
    case REMBULFOSE_FORMAT_LOCAL_DATETIME:
    case REMBULFOSE_FORMAT_LOCAL_DATE:
    case REMBULFOSE_FORMAT_LOCAL_TIME:
        print_moment(screen, format, bytes);
        return;
    case REMBULFOSE_FORMAT_DURATION:
    case REMBULFOSE_FORMAT_RELATIVE_DURATION:
    case REMBULFOSE_FORMAT_DATE_DURATION:
        print_long(screen, format, bytes);
        return;
    default:
        print_number(screen, format, bytes);
    }
}
