/* Reads a server's messages off a file descriptor, in whatever pieces they come, and lists the rows: an
 * entry a line.
 *
 *     cc examples/stream.c $(pkg-config --cflags --libs rembulfose) -o stream
 *     ./stream <FILE
 *
 * A message that is refused ends the intake and so the program; a description or a row that is refused is
 * passed over. The exit status is 0 if every row was listed, nothing refused and the last message whole, 1 if
 * not, 2 if reading fails.
 */
#include <errno.h>
#include <rembulfose.h>
#include <stdbool.h>
#include <stdio.h>
#include <unistd.h>

enum { HEAD = 5, MOST_READ = 4096 };

/* The intake's own: any message fits. */
static uint8_t room[REMBULFOSE_MOST_MESSAGE];
static uint8_t fields[REMBULFOSE_ROOM], plan[REMBULFOSE_ROOM], list[REMBULFOSE_ROOM];
static size_t plan_length; /* bytes of the last T's plan; 0 as long as rows are not described */
static bool all_good = true;

static bool refused(const char *what, uint32_t number, uint32_t place) {
    if (number == 0)
        return false;
    printf("%s: refused with %u at %u: %s\n", what, number, place, rembulfose_refusal_text(number));
    all_good = false;
    return true;
}

/* T's last two fields are the id and the descriptor of rows. */
static void describe(const uint8_t *id, const uint8_t *descriptor, size_t length) {
    rembulfose_answer answer = rembulfose_compile(descriptor, length, id, 16, plan, sizeof plan);
    bool bad = refused("description", answer.number, answer.place);
    plan_length = bad ? 0 : 4 * (size_t)answer.first;
}

/* D's last field is the row. */
static void list_row(const uint8_t *row, size_t length) {
    rembulfose_answer listed = rembulfose_run(plan, plan_length, row, length, list, sizeof list);
    printf("row: %zu bytes\n", length);
    refused("row", listed.number, listed.place);
    for (size_t at = 0; at < listed.first; at += REMBULFOSE_ENTRY_WORDS) {
        uint32_t size = rembulfose_word(list, at + REMBULFOSE_ENTRY_LENGTH);
        printf("node %u, index %u, start %u, ", rembulfose_word(list, at + REMBULFOSE_ENTRY_NODE),
               rembulfose_word(list, at + REMBULFOSE_ENTRY_INDEX),
               rembulfose_word(list, at + REMBULFOSE_ENTRY_START));
        if (size == REMBULFOSE_ABSENT)
            puts("absent");
        else
            printf("length %u\n", size);
    }
}

/* A message that the intake gave. T describes the rows, D is one; `fields` gets two words a field, start and
 * length. A T with more fields than there is room for (31) leaves rows not described: none is listed by a plan
 * that is out of date. */
static void take_message(const uint8_t *message, size_t length) {
    if (message[0] != 'T' && message[0] != 'D')
        return;
    rembulfose_answer answer =
        rembulfose_read_message(REMBULFOSE_SERVER, message, length, fields, sizeof fields);
    uint32_t last = answer.second - 2;
    if (refused("fields", answer.number, answer.place)) {
        plan_length = 0;
    } else if (message[0] == 'T') {
        describe(message + rembulfose_word(fields, last - 2),
                 message + rembulfose_word(fields, last), rembulfose_word(fields, last + 1));
    } else if (plan_length > 0) {
        list_row(message + rembulfose_word(fields, last), rembulfose_word(fields, last + 1));
    } else {
        puts("row: not described");
        all_good = false;
    }
}

/* Takes all messages that are whole with this delivery: the loop that stands in rembulfose.h. */
static rembulfose_delivery drain(rembulfose_intake intake, const uint8_t *delivery, size_t length) {
    rembulfose_delivery got;
    do {
        got = rembulfose_intake_take(intake, delivery, length, room, sizeof room);
        intake = got.intake, delivery += got.taken, length -= got.taken;
        if (got.length > 0)
            take_message(room, got.length);
    } while (got.length > 0);
    return got;
}

/* What the last delivery left: nothing, a refusal, or a message of which a part is still to come. */
static void say_end(rembulfose_delivery last) {
    uint32_t held = last.intake.held;
    if (refused("message", last.number, last.place) || held == 0)
        return;
    printf("not whole: %u bytes held, %u lacking of the %s\n", held, last.lacks,
           held < HEAD ? "head" : "message");
    all_good = false;
}

int main(void) {
    uint8_t delivery[MOST_READ];
    rembulfose_delivery last = {.intake = rembulfose_intake_start(REMBULFOSE_SERVER, sizeof room)};
    ssize_t length;
    do {
        length = read(STDIN_FILENO, delivery, sizeof delivery);
        if (length > 0)
            last = drain(last.intake, delivery, (size_t)length);
    } while (last.number == 0 && (length > 0 || (length < 0 && errno == EINTR)));
    if (length < 0)
        perror("stream");
    else
        say_end(last);
    return length < 0 ? 2 : all_good ? 0 : 1;
}
