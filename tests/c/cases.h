/* What the C tests share: how cases are written, counted and compared, and a thread with a small
 * stack. A test defines _DEFAULT_SOURCE before it includes this. */
#ifndef CASES_H
#define CASES_H

#include "../../include/rembulfose.h"
#include "../hex.h"

#include <pthread.h>
#include <stdio.h>
#include <stdlib.h>
#include <string.h>
#include <sys/mman.h>

/* Bytes of stack that must be enough for any call. */
enum { STACK = REMBULFOSE_STACK };

enum { FILL = 0xa5, MARGIN = 16, MOST = 1024 };

/* The header's constants have short names here and in the tests; header.c holds them to the numbers of
 * docs/RULES.md. */
enum { MOST_WORDS = REMBULFOSE_MOST_WORDS };

static unsigned passed, failed;

static inline rembulfose_answer answered(uint32_t first, uint32_t second) {
    return (rembulfose_answer){0, 0, first, second};
}

static inline rembulfose_answer accepted(uint32_t first) {
    return answered(first, 0);
}

static inline rembulfose_answer refused(uint32_t number, uint32_t place) {
    return (rembulfose_answer){number, place, 0, 0};
}

static inline void count(const char *name, int good) {
    if (good) {
        passed++;
    } else {
        failed++;
        printf("failed: %s\n", name);
    }
}

static inline void put_word(uint8_t *at, uint32_t word) {
    for (int i = 0; i < 4; i++)
        at[i] = (uint8_t)(word >> (24 - 8 * i));
}

/* The bytes of decimal words, four to a word; how many is returned. */
static inline size_t words_of(const char *decimal, uint8_t *bytes) {
    size_t length = 0;
    char *end;
    for (;;) {
        unsigned long word = strtoul(decimal, &end, 10);
        if (end == decimal)
            return length;
        put_word(bytes + length, (uint32_t)word);
        length += 4;
        decimal = end;
    }
}

/* Bytes that a call is lent to read, and what they were before it. */
struct lent {
    uint8_t bytes[MOST], before[MOST];
    size_t length;
};

/* Bytes that were written to `lent`, so many of them. */
static inline void keep(struct lent *lent, size_t length) {
    memcpy(lent->before, lent->bytes, length);
    lent->length = length;
}

static inline struct lent lent_bytes(const char *hex) {
    struct lent lent;
    keep(&lent, bytes_of(hex, lent.bytes));
    return lent;
}

static inline struct lent lent_words(const char *decimal) {
    struct lent lent;
    keep(&lent, words_of(decimal, lent.bytes));
    return lent;
}

static inline int unchanged(const struct lent *lent) {
    return memcmp(lent->bytes, lent->before, lent->length) == 0;
}

static inline int same_answer(rembulfose_answer one, rembulfose_answer other) {
    return one.number == other.number && one.place == other.place && one.first == other.first &&
           one.second == other.second;
}

/* Whether memory with a margin on either side holds these bytes, and all else is as it was. */
static inline int holds(const uint8_t *memory, const uint8_t *bytes, size_t length) {
    uint8_t expected[MARGIN + MOST + MARGIN];
    memset(expected, FILL, sizeof expected);
    memcpy(expected + MARGIN, bytes, length);
    return memcmp(memory, expected, sizeof expected) == 0;
}

/* A call that reads two runs of bytes and writes to a room. */
typedef rembulfose_answer call_of_two(const uint8_t *, size_t, const uint8_t *, size_t, uint8_t *,
                                      size_t);

/* Makes a call; the room of so many bytes must then start with the words that are expected, and what
 * it was lent must be as it was. */
static inline void call_on(const char *name, call_of_two *call, struct lent one, struct lent other,
                           size_t room, rembulfose_answer expected, const char *words) {
    uint8_t bytes[MOST], memory[MARGIN + MOST + MARGIN];
    size_t length = words_of(words, bytes);
    memset(memory, FILL, sizeof memory);
    rembulfose_answer answer =
        call(one.bytes, one.length, other.bytes, other.length, memory + MARGIN, room);
    count(name, same_answer(answer, expected) && holds(memory, bytes, length) && unchanged(&one) &&
                    unchanged(&other));
}

static inline void *on_thread(void *cases) {
    (*(void (**)(void))cases)();
    return NULL;
}

/* Prints how much of a stack that was filled before was used. */
static inline void print_use(const uint8_t *stack) {
    size_t untouched = 0;
    while (untouched < STACK && stack[untouched] == FILL)
        untouched++;
    printf("stack: %zu of %d bytes were used, those of the thread itself included\n",
           STACK - untouched, STACK);
}

/* Runs cases on a stack of so many bytes, with pages below it that may not be touched. Valgrind
 * takes a look at the stack of an ended thread for an error, so that under it (UNDER_VALGRIND is
 * set) the cases run as always, but their use of the stack is not measured. */
static inline void small_stack(void (*cases)(void)) {
    enum { FENCE = 65536 };
    pthread_attr_t attributes;
    pthread_t thread;
    uint8_t *memory =
        mmap(NULL, FENCE + STACK, PROT_READ | PROT_WRITE, MAP_PRIVATE | MAP_ANONYMOUS, -1, 0);
    int good = memory != MAP_FAILED && mprotect(memory, FENCE, PROT_NONE) == 0;
    if (good) {
        memset(memory + FENCE, FILL, STACK);
        good = pthread_attr_init(&attributes) == 0 &&
               pthread_attr_setstack(&attributes, memory + FENCE, STACK) == 0 &&
               pthread_create(&thread, &attributes, on_thread, &cases) == 0 &&
               pthread_join(thread, NULL) == 0;
    }
    count("thread with a small stack", good);
    if (good && !getenv("UNDER_VALGRIND"))
        print_use(memory + FENCE);
}

/* The last line of a test, and its status. */
static inline int finish(void) {
    printf("%u passed, %u failed\n", passed, failed);
    return failed != 0;
}

#endif
