#include "decimal.h"

#include "bytes.h"

enum { HEAD = 8, NEGATIVE = 0x4000, MOST_ZEROS = 200 };

struct decimal {
    int32_t count, weight, scale; /* count of digits; power of 10,000 of the first; display scale */
    bool negative;
    const uint8_t *digits;
};

static struct decimal decimal_of(const uint8_t *bytes) {
    return (struct decimal){get_16(bytes), signed_16(get_16(bytes + 2)), get_16(bytes + 6),
                            get_16(bytes + 4) == NEGATIVE, bytes + HEAD};
}

/* The digit that counts 10,000 to this power. */
static unsigned digit_at(const struct decimal *decimal, int32_t power) {
    int32_t index = decimal->weight - power;
    if (index < 0 || index >= decimal->count)
        return 0;
    return get_16(decimal->digits + 2 * index);
}

/* The whole part, without zeros before it. */
static void print_whole(const struct screen *screen, const struct decimal *decimal) {
    bool begun = false;
    for (int32_t power = decimal->weight; power >= 0; power--) {
        unsigned digit = digit_at(decimal, power);
        if (begun)
            fprintf(screen->out, "%04u", digit);
        else if (digit != 0)
            fprintf(screen->out, "%u", digit);
        begun = begun || digit != 0;
    }
    if (!begun)
        fputc('0', screen->out);
}

/* How many places after the point its last digit that is not zero needs. */
static int32_t places_needed(const struct decimal *decimal) {
    int32_t lowest = decimal->weight - decimal->count + 1;
    while (lowest < 0 && digit_at(decimal, lowest) == 0)
        lowest++;
    if (lowest >= 0)
        return 0;
    int32_t places = -4 * lowest;
    for (unsigned digit = digit_at(decimal, lowest); digit % 10 == 0; digit /= 10)
        places--;
    return places;
}

static void print_fraction(const struct screen *screen, const struct decimal *decimal,
                           int32_t places) {
    static const unsigned parts[4] = {1000, 100, 10, 1};
    if (places > 0)
        fputc('.', screen->out);
    for (int32_t place = 0; place < places; place++) {
        unsigned digit = digit_at(decimal, -1 - place / 4);
        fputc((int)('0' + digit / parts[place % 4] % 10), screen->out);
    }
}

/* The display scale, where it is said and not shown by zeros. */
static void print_scale(const struct screen *screen, const struct decimal *decimal) {
    fprintf(screen->out, " (scale %d)", (int)decimal->scale);
}

/* The digits as one whole number, times a power of 10,000. */
static void print_power(const struct screen *screen, const struct decimal *decimal) {
    struct decimal whole = *decimal;
    whole.weight = decimal->count - 1;
    print_whole(screen, &whole);
    fprintf(screen->out, " x 10000^%d", (int)(decimal->weight - decimal->count + 1));
    if (decimal->scale > 0)
        print_scale(screen, decimal);
}

void print_decimal(const struct screen *screen, const uint8_t *bytes, size_t length) {
    if (length < HEAD)
        return;
    struct decimal decimal = decimal_of(bytes);
    int32_t zeros_after = 4 * (decimal.weight + 1 - decimal.count), zeros_before = -4 * decimal.weight;
    if (decimal.negative)
        fputc('-', screen->out);
    if (decimal.count > 0 && (zeros_after > MOST_ZEROS || zeros_before > MOST_ZEROS)) {
        print_power(screen, &decimal);
        return;
    }
    int32_t places = places_needed(&decimal), zeros = decimal.scale - places;
    print_whole(screen, &decimal);
    print_fraction(screen, &decimal, zeros > 0 && zeros <= MOST_ZEROS ? decimal.scale : places);
    if (zeros > MOST_ZEROS)
        print_scale(screen, &decimal);
}
