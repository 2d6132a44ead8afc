#include "hexview.h"

#include <inttypes.h>

enum { MOST_PER_LINE = 16, GAP_AFTER = 8, LINES_AROUND = 2 };

/* Bytes with a place in them, and how they stand on the screen. */
struct view {
    const uint8_t *bytes;
    size_t length, place;
    unsigned depth;
    size_t per_line;
};

/* The column where the byte at this position of a line starts: address, two spaces, three columns
 * a byte, one more after eight. */
static size_t column(size_t position) {
    return 10 + 3 * position + (position >= GAP_AFTER ? 1 : 0);
}

/* How wide a full line is: indent, bytes, a space, and the letters between bars. */
static size_t width(unsigned depth, size_t per_line) {
    return 2 * depth + column(per_line - 1) + 4 + per_line + 2;
}

/* A line that the terminal breaks has its mark under another byte. So where it is too narrow there are
 * fewer bytes to a line, and less of an indent. */
static void fit(const struct screen *screen, struct view *view) {
    while (view->per_line > 1 && width(0, view->per_line) > screen->columns)
        view->per_line /= 2;
    while (view->depth > 0 && width(view->depth, view->per_line) > screen->columns)
        view->depth--;
}

static void hex_part(const struct screen *screen, const struct view *view, size_t line) {
    for (size_t i = 0; i < view->per_line; i++) {
        size_t at = line + i;
        if (i == GAP_AFTER)
            fputc(' ', screen->out);
        if (at < view->length)
            print(screen, at == view->place ? BAD : PLAIN, "%02x", view->bytes[at]);
        else
            fputs("  ", screen->out);
        fputc(' ', screen->out);
    }
}

static void letters(const struct screen *screen, const struct view *view, size_t line) {
    fputs(" |", screen->out);
    for (size_t at = line; at < view->length && at < line + view->per_line; at++) {
        uint8_t byte = view->bytes[at];
        fputc(byte >= 0x20 && byte < 0x7f ? byte : '.', screen->out);
    }
    fputs("|\n", screen->out);
}

static void hex_line(const struct screen *screen, const struct view *view, size_t line) {
    print_indent(screen, view->depth);
    print(screen, FAINT, "%08zx", line);
    fputs("  ", screen->out);
    hex_part(screen, view, line);
    letters(screen, view, line);
    if (view->place / view->per_line == line / view->per_line) {
        print_indent(screen, view->depth);
        fprintf(screen->out, "%*s", (int)column(view->place % view->per_line), "");
        print(screen, BAD, view->place < view->length ? "^^" : "^^ the end");
        fputc('\n', screen->out);
    }
}

void hexview(const struct screen *screen, unsigned depth, const uint8_t *bytes, size_t length,
             size_t place) {
    struct view view = {bytes, length, place, depth, MOST_PER_LINE};
    fit(screen, &view);
    size_t middle = place / view.per_line, last = length / view.per_line;
    size_t line = middle < LINES_AROUND ? 0 : middle - LINES_AROUND;
    for (; line <= middle + LINES_AROUND && line <= last; line++)
        if (line * view.per_line < length || line == middle)
            hex_line(screen, &view, line * view.per_line);
}

void print_place(const struct screen *screen, uint32_t side, uint64_t at) {
    fprintf(screen->out, "(byte %" PRIu64 " from the ", at);
    print_side(screen, PLAIN, side);
    fputc(')', screen->out);
}

void print_refusal(const struct screen *screen, unsigned depth, rembulfose_answer answer,
                   const struct sent *sent) {
    print_indent(screen, depth);
    print(screen, BAD, "refused with %u: %s", (unsigned)answer.number,
          rembulfose_refusal_text(answer.number));
    fputc('\n', screen->out);
    print_indent(screen, depth);
    fprintf(screen->out, "at byte %u of the %s ", (unsigned)answer.place, sent->name);
    print_place(screen, sent->side, sent->at + answer.place);
    fputc('\n', screen->out);
    hexview(screen, depth, sent->bytes, sent->length, answer.place);
}
