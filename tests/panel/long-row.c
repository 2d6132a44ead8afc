/* Makes a capture on standard output with one row that is good and has too many elements to be listed:
 * an array of 2,000 int16, each its own index. The library's writer takes no such list either, so the
 * value is put together here. */
#include "sending.h"

enum { ELEMENTS = 2000, ARRAY_ID = 1 };

static void describe(struct run *run) {
    add_scalar(run, 0x0103, "std::int16");
    add_8(run, 6);
    add_id(run, ARRAY_ID);
    add_text(run, "array<std::int16>");
    add_8(run, 0);
    add_16(run, 0);
    add_16(run, 0);
    add_16(run, 1);
    add_32(run, UINT32_MAX);
}

static void row_value(struct run *run) {
    add_32(run, 1);
    add_64(run, 0);
    add_32(run, ELEMENTS);
    add_32(run, 1);
    for (uint16_t i = 0; i < ELEMENTS; i++) {
        add_32(run, 2);
        add_16(run, i);
    }
}

int main(void) {
    /* Too large for the stack. */
    static struct sending sending;
    static struct run descriptor, id, value;
    start_capture(&sending);
    describe(&descriptor);
    add_id(&id, ARRAY_ID);
    send_description(&sending, &id, &descriptor, REMBULFOSE_CARDINALITY_ONE);
    row_value(&value);
    send_row(&sending, &value);
    print_run(&sending.capture);
    return 0;
}
