/* Compiles a descriptor, runs a value by its plan, and prints the list: an entry a line.
 *
 *     cc examples/list.c $(pkg-config --cflags --libs rembulfose) -o list
 */
#include <rembulfose.h>
#include <stdio.h>

/* The blocks of std::int64 and of a set of it, the set's id, and the set {7, -1}. */
static const uint8_t descriptor[] =
    "\3\0\0\0\0\0\0\0\0\0\0\0\0\0\0\1\5\0\0\0\12std::int64\1\0\0"
    "\0\21\21\21\21\21\21\21\21\21\21\21\21\21\21\21\21\0\0";
static const uint8_t root[] = "\21\21\21\21\21\21\21\21\21\21\21\21\21\21\21\21";
static const uint8_t value[] = "\0\0\0\1\0\0\0\0\0\0\0\0\0\0\0\2\0\0\0\1"
                               "\0\0\0\10\0\0\0\0\0\0\0\7"
                               "\0\0\0\10\377\377\377\377\377\377\377\377";

static int refused(const char *call, rembulfose_answer answer) {
    if (answer.number != 0)
        fprintf(stderr, "%s: refused with %u at %u: %s\n", call, answer.number, answer.place,
                rembulfose_refusal_text(answer.number));
    return answer.number != 0;
}

/* A text has a zero after its last byte, which is not lent. */
int main(void) {
    static uint8_t plan[REMBULFOSE_ROOM], list[REMBULFOSE_ROOM];
    rembulfose_answer compiled = rembulfose_compile(descriptor, sizeof descriptor - 1, root,
                                                    sizeof root - 1, plan, sizeof plan);
    if (refused("compile", compiled))
        return 1;
    rembulfose_answer listed = rembulfose_run(plan, 4 * compiled.first, value, sizeof value - 1,
                                              list, sizeof list);
    if (refused("run", listed))
        return 1;
    for (size_t entry = 0; entry < listed.first; entry += REMBULFOSE_ENTRY_WORDS)
        printf("node %u, index %u, start %u, length %u, below %u\n",
               rembulfose_word(list, entry + REMBULFOSE_ENTRY_NODE),
               rembulfose_word(list, entry + REMBULFOSE_ENTRY_INDEX),
               rembulfose_word(list, entry + REMBULFOSE_ENTRY_START),
               rembulfose_word(list, entry + REMBULFOSE_ENTRY_LENGTH),
               rembulfose_word(list, entry + REMBULFOSE_ENTRY_BELOW));
    return 0;
}
