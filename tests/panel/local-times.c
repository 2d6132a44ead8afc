/* Makes a capture on standard output whose rows have local_times: alone, and in a field and a set of an
 * object. Those at the ends of a day are printed; a row with one outside of it is refused with 24 at that
 * local_time, and nothing of it is printed (R5.15). The library's writer does not write such rows, so all
 * values are put together here. */
#include "sending.h"

/* Microseconds: the ends of a day, and those just outside, -1 and 24 hours. */
#define FIRST UINT64_C(0)
#define LAST UINT64_C(86399999999)
#define BEFORE UINT64_MAX
#define AFTER UINT64_C(86400000000)

static const uint64_t times[] = {FIRST, LAST, BEFORE, AFTER};

enum { BREAKS = 3 };

struct shift {
    uint64_t begins, breaks[BREAKS];
};

static const struct shift shifts[] = {
    {FIRST, {LAST, FIRST, LAST}},  {BEFORE, {LAST, FIRST, LAST}}, {AFTER, {LAST, FIRST, LAST}},
    {LAST, {BEFORE, FIRST, LAST}}, {LAST, {FIRST, AFTER, LAST}},  {LAST, {FIRST, LAST, BEFORE}},
};

/* Tags and indexes of blocks, the last two bytes of the local_time's id, and the last of the others. */
enum { SET_TAG = 0, SHAPE_TAG = 1 };
enum { TIME_BLOCK, BREAKS_BLOCK };
enum { TIME_ID = 0x010d, BREAKS_ID = 1, SHIFT_ID = 2 };

/* A descriptor with the id of its root. */
struct described {
    struct run id, descriptor;
};

static void describe_time(struct described *described) {
    add_64(&described->id, 0);
    add_64(&described->id, TIME_ID);
    add_scalar(&described->descriptor, TIME_ID, "cal::local_time");
}

static void add_element(struct run *run, uint8_t cardinality, const char *name, uint16_t block) {
    add_32(run, 0);
    add_8(run, cardinality);
    add_text(run, name);
    add_16(run, block);
    add_16(run, 0);
}

/* A free shape, which needs no object type (R3.12). */
static void describe_shift(struct described *described) {
    struct run *run = &described->descriptor;
    add_id(&described->id, SHIFT_ID);
    add_scalar(run, TIME_ID, "cal::local_time");
    add_8(run, SET_TAG);
    add_id(run, BREAKS_ID);
    add_16(run, TIME_BLOCK);
    add_8(run, SHAPE_TAG);
    add_id(run, SHIFT_ID);
    add_8(run, 1);
    add_16(run, 0);
    add_16(run, 2);
    add_element(run, REMBULFOSE_CARDINALITY_ONE, "begins", TIME_BLOCK);
    add_element(run, REMBULFOSE_CARDINALITY_MANY, "breaks", BREAKS_BLOCK);
}

/* A length and as many bytes. */
static void add_time(struct run *run, uint64_t time) {
    add_32(run, 8);
    add_64(run, time);
}

static void shift_value(struct run *run, const struct shift *shift) {
    run->length = 0;
    add_32(run, 2);
    add_32(run, 0);
    add_time(run, shift->begins);
    add_32(run, 0);
    add_32(run, 20 + 12 * BREAKS);
    add_32(run, 1);
    add_64(run, 0);
    add_32(run, BREAKS);
    add_32(run, 1);
    for (unsigned i = 0; i < BREAKS; i++)
        add_time(run, shift->breaks[i]);
}

int main(void) {
    /* Too large for the stack. */
    static struct sending sending;
    static struct described time, shift;
    static struct run value;
    start_capture(&sending);
    describe_time(&time);
    send_description(&sending, &time.id, &time.descriptor, REMBULFOSE_CARDINALITY_MANY);
    for (size_t i = 0; i < sizeof times / sizeof times[0]; i++) {
        value.length = 0;
        add_64(&value, times[i]);
        send_row(&sending, &value);
    }
    describe_shift(&shift);
    send_description(&sending, &shift.id, &shift.descriptor, REMBULFOSE_CARDINALITY_MANY);
    for (size_t i = 0; i < sizeof shifts / sizeof shifts[0]; i++) {
        shift_value(&value, &shifts[i]);
        send_row(&sending, &value);
    }
    print_run(&sending.capture);
    return 0;
}
