/* Makes a capture on standard output whose rows have every scalar format: the examples of the protocol's
 * description first, then values at the edges. The last element of a row is a set of arrays. */
#include "../hex.h"
#include "sending.h"

enum { FORMATS = REMBULFOSE_FORMATS, ROWS = 4, SET_OF_ARRAYS_AT = FORMATS, ELEMENTS = FORMATS + 1 };
enum { INT16_BLOCK = 3, ARRAY_BLOCK = FORMATS, SET_BLOCK, TUPLE_BLOCK };

/* The scalars of each row, in hex, in the order of the formats. */
static const char *const rows[ROWS][FORMATS] = {
    {"b9545c351fe7485fa6eaf8ead251abd3", "48656c6c6f2120f09f9982", "00ff", "199c", "000a0131",
     "01b69b4be052fab1", "c17a0000", "c02f400000000000", "000400014000000700011388186a0000", "01",
     "00022b359bc41000", "00022b359bc41000", "00001b99", "0000000a32aef600",
     "00000028dd1172800000000000000000", "017b2261223a317d", "000200014000000000011388",
     "00000028dd117280000000100000001f", "0000000000000000000000020000000c", "0000000007b00000"},
    {"00000000000000000000000000000000", "", "", "8000", "80000000", "8000000000000000", "ff800000",
     "fff0000000000000", "0000000000000000", "00", "8000000000000000", "8000000000000000",
     "80000000", "0000000000000000", "80000000000000000000000000000000", "01", "0000000000000000",
     "80000000000000008000000080000000", "ffffffffffffffff8000000080000000", "8000000000000000"},
    {"ffffffffffffffffffffffffffffffff", "1b5b316d22e280ae5c0a", "0d0a", "7fff", "7fffffff",
     "7fffffffffffffff", "7fc00001", "7ff0000000000001", "00010064000000000001", "01",
     "7fffffffffffffff", "7fffffffffffffff", "7fffffff", "000000141dd75fff",
     "7fffffffffffffff0000000000000000", "0122c29b22", "000100020000000003e7",
     "7fffffffffffffff7fffffff7fffffff", "00000000000000007fffffff7fffffff", "7fffffffffffffff"},
    {"0123456789abcdef0123456789abcdef", "c3a4", "01", "ffff", "ffffffff", "ffffffffffffffff",
     "3dcccccd", "3fb999999999999a", "0002ffff4000000000050000", "00", "ffffffffffffffff",
     "0000000000000000", "ffffffff", "000000141dd75fff", "ffffffffffffffff0000000000000000",
     "016e756c6c", "00010000400000000000", "fffffffffff85ee000000001fffffff3",
     "0000000000000000ffffffff00000001", "0000000000000400"},
};

static void add_head(struct run *run, uint8_t tag, uint8_t id, const char *name) {
    add_8(run, tag);
    add_id(run, id);
    add_text(run, name);
    add_8(run, 0);
    add_16(run, 0);
}

/* A tuple of every format and a set of arrays of int16. */
static void descriptor(struct run *run) {
    for (unsigned i = 0; i < FORMATS; i++)
        add_scalar(run, (uint16_t)(i < FORMATS - 1 ? 0x0100 + i : 0x0130), "");
    add_head(run, 6, 0x01, "array<std::int16>");
    add_16(run, INT16_BLOCK);
    add_16(run, 1);
    add_32(run, UINT32_MAX);
    add_8(run, 0);
    add_id(run, 0x02);
    add_16(run, ARRAY_BLOCK);
    add_head(run, 4, 0x03, "");
    add_16(run, ELEMENTS);
    for (uint16_t i = 0; i < FORMATS; i++)
        add_16(run, i);
    add_16(run, SET_BLOCK);
}

/* So many arrays: of no element, of one, and so on. */
static void add_arrays(const struct plan *plan, struct supply *supply, unsigned count) {
    uint32_t set = plan_element(plan, plan_root(plan), SET_OF_ARRAYS_AT);
    uint32_t array = plan_element(plan, set, 0), number = plan_element(plan, array, 0);
    open_node(supply, set, SET_OF_ARRAYS_AT, count);
    for (unsigned i = 0; i < count; i++) {
        open_node(supply, array, i, i);
        for (unsigned j = 0; j < i; j++)
            add_leaf_number(supply, number, j, 100 * i + j, 2);
    }
}

static void row_value(const struct plan *plan, unsigned row, struct supply *supply,
                      struct run *value) {
    uint8_t bytes[64];
    supply->list.length = supply->source.length = 0;
    open_node(supply, plan_root(plan), 0, ELEMENTS);
    for (unsigned i = 0; i < FORMATS; i++)
        add_leaf(supply, plan_element(plan, plan_root(plan), i), i, bytes,
                 bytes_of(rows[row][i], bytes));
    add_arrays(plan, supply, row);
    write_supply(plan, supply, value);
}

struct work {
    struct sending sending;
    struct run descriptor, id, value;
    struct plan plan;
    struct supply supply;
};

static void describe(struct work *work) {
    descriptor(&work->descriptor);
    add_id(&work->id, 0x03);
    rembulfose_answer answer = plan_compile(&work->plan, work->id.bytes, work->descriptor.bytes,
                                            work->descriptor.length);
    must(answer.number == 0, rembulfose_refusal_text(answer.number));
    send_description(&work->sending, &work->id, &work->descriptor, REMBULFOSE_CARDINALITY_MANY);
}

int main(void) {
    static struct work all; /* too large for the stack */
    struct work *work = &all;
    start_capture(&work->sending);
    describe(work);
    for (unsigned i = 0; i < ROWS; i++) {
        row_value(&work->plan, i, &work->supply, &work->value);
        send_row(&work->sending, &work->value);
    }
    print_run(&work->sending.capture);
    return 0;
}
