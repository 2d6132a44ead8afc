/* Runs the panel program's commands, in this process, on captures that end early, are altered and made up.
 * It looks at how they end, and that `show` prints the same where the records are cut smaller, and `follow`
 * what `show` does. It is meant to be compiled with the sanitizers, which end it at the first wrong access,
 * overflow or leak.
 *
 *     hostile CASES CAPTURE..
 *
 * Each CAPTURE first ends at every byte; then so many cases are made from them at random. The program's own
 * main is compiled as panel_main. */
#define _GNU_SOURCE
#include "records.h"

#include <string.h>
#include <sys/mman.h>
#include <unistd.h>

int panel_main(int count, char **words);

enum { MOST_CAPTURES = 8, ROOM = 1 << 17, MOST_EDITS = 6, LEAST_GOOD = 50 };

/* Where results are said, as standard output is the program's. */
static FILE *report;
static char path[64]; /* of the file that the commands read, which is standard input too */
static int file, output; /* that file, and the one that they print to */
static unsigned long passed, failed;
static unsigned long checked, found; /* how often `check` found nothing wrong, and `find` an element */

static size_t below(size_t end) {
    return (size_t)(draw() % end);
}

static void count(const char *what, bool good) {
    passed += good;
    failed += !good;
    if (!good)
        fprintf(report, "failed: %s, case %lu\n", what, passed + failed);
}

static void store(const uint8_t *bytes, size_t length) {
    must(ftruncate(file, 0) == 0 && pwrite(file, bytes, length, 0) == (ssize_t)length, path);
}

/* Runs a command, whose words end with a null; its status. */
static int run(char **words) {
    int words_count = 0;
    while (words[words_count] != NULL)
        words_count++;
    must(lseek(STDIN_FILENO, 0, SEEK_SET) == 0 && ftruncate(output, 0) == 0, path);
    rewind(stdout);
    int status = panel_main(words_count, words);
    must(fflush(stdout) == 0, "the output");
    return status;
}

/* What a command prints. */
static struct bytes printed(const char *command, char **words) {
    struct bytes text = {NULL, 0, 0};
    uint8_t some[4096];
    ssize_t got;
    count(command, run(words) == 0);
    while ((got = pread(output, some, sizeof some, (off_t)text.length)) > 0)
        append(&text, some, (size_t)got);
    must(got == 0, "the output");
    return text;
}

static void hold(const char *what, struct bytes shown, struct bytes text) {
    count(what, shown.length > 0 && shown.length == text.length &&
                    memcmp(shown.at, text.at, text.length) == 0);
    free(text.at);
}

/* Shows a capture, follows it, and shows it with its records cut. */
static void show_all(const struct bytes *capture) {
    char *show[] = {"panel", "show", path, NULL}, *follow[] = {"panel", "follow", NULL};
    struct bytes shown = printed("show", show);
    hold("follow and show differ", shown, printed("follow", follow));
    struct bytes cut = cut_records(capture, SERVER, below(8));
    store(cut.at, cut.length);
    hold("show differs where records are cut", shown, printed("show, cut", show));
    free(cut.at);
    free(shown.at);
}

/* Finds some element, or none. */
static int find_any(void) {
    char row[16], where[48];
    char *find[] = {"panel", "find", path, row, where, NULL};
    snprintf(row, sizeof row, "%zu", 1 + below(3));
    snprintf(where, sizeof where, "%zu.%zu.%zu", below(16), below(4), below(3));
    where[below(4) == 0 ? 0 : 1 + strcspn(where + 1, below(2) ? "." : "")] = 0;
    return run(find);
}

/* Runs the commands on these bytes, and then takes them as the client's: without the first line of a
 * side-marked capture, which is not taken so. */
static void try(const struct bytes *capture) {
    char *check[] = {"panel", "check", path, NULL};
    char *client[] = {"panel", "check", "--client", path, NULL};
    store(capture->at, capture->length);
    int check_status = run(check), find_status = find_any();
    count("check", check_status >= 0 && check_status <= 1);
    count("find", find_status >= 0 && find_status <= 1);
    checked += check_status == 0;
    found += find_status == 0;
    show_all(capture);
    size_t skip = is_marked(capture) ? strlen(CAPTURE_MAGIC) : 0;
    store(capture->at + skip, capture->length - skip);
    int client_status = run(client);
    count("check --client", client_status >= 0 && client_status <= 1);
}

/* A length that is likely to matter: near the number that stands there, or at an edge. */
static uint32_t likely_length(uint32_t now) {
    static const uint32_t edges[] = {0, 1, 3, 4, 0x7fffffff, 0x80000000, 0xfffffffe, 0xffffffff, 65535};
    size_t pick = below(2 * sizeof edges / sizeof edges[0]);
    return pick < sizeof edges / sizeof edges[0] ? edges[pick] : now + (uint32_t)below(9) - 4;
}

/* Alters one place. */
static void edit(uint8_t *bytes, size_t *length) {
    size_t at = below(*length), size = 1 + below(40);
    if (at + size > *length)
        size = *length - at;
    switch (below(6)) {
    case 0: /* one bit */
        bytes[at] ^= (uint8_t)(1 << below(8));
        break;
    case 1: /* one byte */
        bytes[at] = (uint8_t)draw();
        break;
    case 2: /* four bytes as a number */
        if (at + 4 <= *length) {
            uint32_t now = (uint32_t)bytes[at] << 24 | (uint32_t)bytes[at + 1] << 16 |
                           (uint32_t)bytes[at + 2] << 8 | bytes[at + 3];
            uint32_t then = likely_length(now);
            for (int i = 0; i < 4; i++)
                bytes[at + i] = (uint8_t)(then >> (24 - 8 * i));
        }
        break;
    case 3: /* a part is left out */
        memmove(bytes + at, bytes + at + size, *length - at - size);
        *length -= size;
        break;
    case 4: /* a part stands twice */
        if (*length + size <= ROOM) {
            memmove(bytes + at + size, bytes + at, *length - at);
            *length += size;
        }
        break;
    default: /* the rest is cut off */
        *length = at;
    }
}

/* A capture made from another, or of any bytes. */
static struct bytes make(const struct bytes *from) {
    static uint8_t bytes[ROOM];
    size_t length = from->length;
    if (below(50) == 0) {
        length = below(300);
        for (size_t i = 0; i < length; i++)
            bytes[i] = (uint8_t)draw();
        return (struct bytes){bytes, length, ROOM};
    }
    memcpy(bytes, from->at, length);
    for (size_t edits = 1 + below(MOST_EDITS); edits > 0 && length > 0; edits--)
        edit(bytes, &length);
    return (struct bytes){bytes, length, ROOM};
}

/* The commands read a file in memory and print to another. */
static void prepare(void) {
    report = fdopen(dup(STDOUT_FILENO), "w");
    file = memfd_create("hostile", 0);
    output = memfd_create("printed", 0);
    must(report != NULL && file >= 0 && output >= 0, "hostile");
    must(dup2(file, STDIN_FILENO) >= 0 && dup2(output, STDOUT_FILENO) >= 0, "hostile");
    snprintf(path, sizeof path, "/proc/self/fd/%d", file);
}

/* The number of cases; one that is none, or zero, is an error. */
static long cases_of(const char *word) {
    char *end;
    long cases = strtol(word, &end, 10);
    must(*word != 0 && *end == 0 && cases > 0, "CASES is a number from 1 up");
    return cases;
}

/* A run in which nearly everything is refused has not tried what comes after a good message. */
static void demand(const char *command, unsigned long good) {
    if (good >= LEAST_GOOD)
        return;
    failed++;
    fprintf(report, "failed: %s ended well %lu times, fewer than %d\n", command, good, LEAST_GOOD);
}

int main(int words_count, char **words) {
    struct bytes captures[MOST_CAPTURES];
    int captures_count = words_count - 2;
    must(captures_count > 0 && captures_count <= MOST_CAPTURES, "usage");
    long cases = cases_of(words[1]);
    prepare();
    for (int i = 0; i < captures_count; i++) {
        captures[i] = load(words[i + 2]);
        must(captures[i].length <= ROOM, words[i + 2]);
        for (struct bytes start = {captures[i].at, 0, 0}; start.length < captures[i].length; start.length++)
            try(&start);
    }
    for (; cases > 0; cases--) {
        struct bytes made = make(&captures[below((size_t)captures_count)]);
        try(&made);
    }
    for (int i = 0; i < captures_count; i++)
        free(captures[i].at);
    demand("check", checked);
    demand("find", found);
    fprintf(report, "%lu passed, %lu failed\n", passed, failed);
    fclose(report);
    return failed > 0;
}
