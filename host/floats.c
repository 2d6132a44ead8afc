#include "floats.h"

#include <inttypes.h>
#include <math.h>
#include <stdlib.h>
#include <string.h>

/* A kind of float: how many digits tell any two of its numbers apart, and how many digits before the
 * point are all exact. */
struct float_kind {
    bool single;
    int most_digits, most_whole;
};

static const struct float_kind float32 = {true, 9, 7}, float64 = {false, 17, 15};

/* A number that is not negative: its digits, of which the first counts ten to the exponent. */
struct digits {
    char digit[20]; /* '0' to '9' */
    int count, exponent;
};

/* The number rounded to so many digits: the nearest, of two equally near the even one. */
static struct digits rounded(double number, int count) {
    struct digits digits = {.count = count};
    char text[40]; /* "d.ddde-ddd", or "de-ddd" */
    snprintf(text, sizeof text, "%.*e", count - 1, number);
    digits.digit[0] = text[0];
    if (count > 1)
        memcpy(digits.digit + 1, text + 2, (size_t)count - 1);
    digits.exponent = atoi(strchr(text, 'e') + 1);
    return digits;
}

/* The next larger number of as many digits. */
static struct digits next_up(struct digits digits) {
    int at = digits.count - 1;
    for (; at >= 0 && digits.digit[at] == '9'; at--)
        digits.digit[at] = '0';
    if (at >= 0) {
        digits.digit[at]++;
    } else { /* 999 is followed by 1000 */
        digits.digit[0] = '1';
        digits.exponent++;
    }
    return digits;
}

/* Whether the digits, read and rounded to the nearest, give the number. */
static bool gives_again(const struct digits *digits, double number, struct float_kind kind) {
    char text[40];
    snprintf(text, sizeof text, "%c.%.*se%d", digits->digit[0], digits->count - 1,
             digits->digit + 1, digits->exponent);
    return kind.single ? strtof(text, NULL) == (float)number : strtod(text, NULL) == number;
}

/* The fewest digits that give the number again. Above a power of two the next number is twice as far
 * away as below it: so where the nearest decimal lies below and is too far away, the one above may
 * still give the number again. */
static struct digits fewest(double number, struct float_kind kind) {
    struct digits digits = rounded(number, 1);
    while (!gives_again(&digits, number, kind)) {
        struct digits above = next_up(digits);
        if (gives_again(&above, number, kind))
            return above;
        if (digits.count == kind.most_digits)
            break;
        digits = rounded(number, digits.count + 1);
    }
    return digits;
}

static void print_with_exponent(FILE *out, const struct digits *digits) {
    fprintf(out, "%c%s%.*se%c%02d", digits->digit[0], digits->count > 1 ? "." : "",
            digits->count - 1, digits->digit + 1, digits->exponent < 0 ? '-' : '+',
            abs(digits->exponent));
}

/* Every place from the first digit, or the one before the point, to the last. */
static void print_plainly(FILE *out, const struct digits *digits) {
    int first = digits->exponent > 0 ? digits->exponent : 0;
    int last = digits->exponent - digits->count + 1;
    for (int place = first; place >= 0 || place >= last; place--) {
        int at = digits->exponent - place;
        if (place == -1)
            fputc('.', out);
        fputc(at >= 0 && at < digits->count ? digits->digit[at] : '0', out);
    }
}

/* Without an exponent from 0.00001 up to the numbers whose whole part would need zeros that are not
 * known to be there. */
static void print_float(const struct screen *screen, double number, struct float_kind kind) {
    if (signbit(number))
        fputc('-', screen->out);
    if (isinf(number)) {
        fputs("inf", screen->out);
        return;
    }
    struct digits digits = fewest(fabs(number), kind);
    if (digits.exponent < -5 || digits.exponent >= kind.most_whole)
        print_with_exponent(screen->out, &digits);
    else
        print_plainly(screen->out, &digits);
}

void print_float64(const struct screen *screen, uint64_t bits) {
    double number;
    memcpy(&number, &bits, sizeof number);
    if (isnan(number))
        fprintf(screen->out, "nan (bits %016" PRIx64 ")", bits);
    else
        print_float(screen, number, float64);
}

void print_float32(const struct screen *screen, uint32_t bits) {
    float number;
    memcpy(&number, &bits, sizeof number);
    if (isnan(number))
        fprintf(screen->out, "nan (bits %08" PRIx32 ")", bits);
    else
        print_float(screen, (double)number, float32);
}
