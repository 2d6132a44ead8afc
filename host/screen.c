#define _POSIX_C_SOURCE 200809L
#include "screen.h"

#include <stdarg.h>
#include <stdlib.h>
#include <sys/ioctl.h>
#include <unistd.h>

/* How wide a terminal is; what does not say so, and what is none, has no end. */
static size_t columns_of(FILE *out) {
    struct winsize size = {0};
    bool known = isatty(fileno(out)) && ioctl(fileno(out), TIOCGWINSZ, &size) == 0;
    return known && size.ws_col > 0 ? size.ws_col : SIZE_MAX;
}

struct screen screen_on(FILE *out, size_t most_text) {
    bool colour = isatty(fileno(out)) && getenv("NO_COLOR") == NULL;
    return (struct screen){out, colour, most_text, columns_of(out)};
}

static const char *code_of(enum ink ink) {
    switch (ink) {
    case STRONG:
        return "\033[1m";
    case FAINT:
        return "\033[2m";
    case GOOD:
        return "\033[32m";
    case BAD:
        return "\033[1;31m";
    default:
        return "";
    }
}

void print(const struct screen *screen, enum ink ink, const char *format, ...) {
    bool colour = screen->colour && ink != PLAIN;
    va_list arguments;
    if (colour)
        fputs(code_of(ink), screen->out);
    va_start(arguments, format);
    vfprintf(screen->out, format, arguments);
    va_end(arguments);
    if (colour)
        fputs("\033[0m", screen->out);
}

void print_size(const struct screen *screen, enum ink ink, size_t bytes) {
    print(screen, ink, "%zu byte%s", bytes, bytes == 1 ? "" : "s");
}

void print_indent(const struct screen *screen, unsigned depth) {
    fprintf(screen->out, "%*s", (int)(2 * depth), "");
}

/* Bytes of the UTF-8 character that starts here, and its code; 0 if there is none. Overlong forms
 * are not told apart: the library has judged the texts that are printed. */
static size_t character(const uint8_t *text, size_t length, uint32_t *code) {
    uint8_t first = text[0];
    size_t size = first < 0x80 ? 1 : first < 0xc0 ? 0 : first < 0xe0 ? 2 : first < 0xf0 ? 3 : 4;
    if (size == 0 || size > length || first > 0xf4)
        return 0;
    *code = size == 1 ? first : first & (0x7fu >> size);
    for (size_t i = 1; i < size; i++) {
        if ((text[i] & 0xc0) != 0x80)
            return 0;
        *code = *code << 6 | (text[i] & 0x3f);
    }
    return size;
}

/* Whether a character shows nothing or moves the cursor, by Unicode 15: controls, format characters,
 * separators and all spaces but the common one (Cc, Cf, Zl, Zp, Zs), what is to be ignored by default
 * (Default_Ignorable_Code_Point), blanks that count as letters or signs (2800, 13441, 13442, 16fe4, 1d159),
 * and noncharacters. */
static bool unseen(uint32_t code) {
    static const uint32_t ranges[][2] = {
        {0x0, 0x1f},         {0x7f, 0xa0},       {0xad, 0xad},       {0x34f, 0x34f},
        {0x600, 0x605},      {0x61c, 0x61c},     {0x6dd, 0x6dd},     {0x70f, 0x70f},
        {0x890, 0x891},      {0x8e2, 0x8e2},     {0x115f, 0x1160},   {0x1680, 0x1680},
        {0x17b4, 0x17b5},    {0x180b, 0x180f},   {0x2000, 0x200f},   {0x2028, 0x202f},
        {0x205f, 0x206f},    {0x2800, 0x2800},   {0x3000, 0x3000},   {0x3164, 0x3164},
        {0xfdd0, 0xfdef},    {0xfe00, 0xfe0f},   {0xfeff, 0xfeff},   {0xffa0, 0xffa0},
        {0xfff0, 0xfffb},    {0x110bd, 0x110bd}, {0x110cd, 0x110cd}, {0x13430, 0x1343f},
        {0x13441, 0x13442},  {0x16fe4, 0x16fe4}, {0x1bca0, 0x1bca3}, {0x1d159, 0x1d159},
        {0x1d173, 0x1d17a},  {0xe0000, 0xe0fff}};
    for (size_t i = 0; i < sizeof ranges / sizeof ranges[0]; i++)
        if (code >= ranges[i][0] && code <= ranges[i][1])
            return true;
    return (code & 0xfffe) == 0xfffe;
}

/* Whether a character could not be seen where it stands: without quotation marks a space at either end of a
 * text could not. */
static bool hidden(uint32_t code, enum writing writing) {
    return unseen(code) || (code == ' ' && writing == BARE);
}

/* Whether a character that can be seen needs a backslash before it. */
static bool escaped(uint32_t code, enum writing writing) {
    return (code == '\\' && writing != AS_IT_IS) || (code == '"' && writing == QUOTED);
}

/* Prints one character; how many bytes it has is returned. */
static size_t print_character(FILE *out, const uint8_t *text, size_t length, enum writing writing) {
    uint32_t code = 0;
    size_t size = character(text, length, &code);
    if (size == 0) {
        fprintf(out, "\\x%02x", text[0]);
        return 1;
    }
    if (code == '\n')
        fputs("\\n", out);
    else if (code == '\t')
        fputs("\\t", out);
    else if (hidden(code, writing))
        fprintf(out, "\\u{%x}", (unsigned)code);
    else if (escaped(code, writing))
        fprintf(out, "\\%c", (int)code);
    else
        fwrite(text, 1, size, out);
    return size;
}

/* Says how many bytes were cut off, if any. */
static void print_rest(const struct screen *screen, size_t length) {
    if (length == 0)
        return;
    print(screen, FAINT, " ... and ");
    print_size(screen, FAINT, length);
    print(screen, FAINT, " more");
}

void print_text(const struct screen *screen, const uint8_t *text, size_t length,
                enum writing writing) {
    size_t at = 0;
    if (writing == QUOTED)
        fputc('"', screen->out);
    while (at < length && at < screen->most_text)
        at += print_character(screen->out, text + at, length - at, writing);
    if (writing == QUOTED)
        fputc('"', screen->out);
    print_rest(screen, length - at);
}

size_t text_width(const uint8_t *text, size_t length) {
    size_t width = 0;
    for (size_t i = 0; i < length; i++)
        width += (text[i] & 0xc0) != 0x80;
    return width;
}

void print_bytes(const struct screen *screen, const uint8_t *bytes, size_t length) {
    size_t shown = length < screen->most_text / 4 ? length : screen->most_text / 4;
    if (length == 0)
        print(screen, FAINT, "no bytes");
    for (size_t i = 0; i < shown; i++)
        fprintf(screen->out, "%s%02x", i > 0 ? " " : "", bytes[i]);
    print_rest(screen, length - shown);
}

void print_uuid(const struct screen *screen, const uint8_t *bytes) {
    for (int i = 0; i < 16; i++) {
        if (i == 4 || i == 6 || i == 8 || i == 10)
            fputc('-', screen->out);
        fprintf(screen->out, "%02x", bytes[i]);
    }
}
