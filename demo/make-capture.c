/* Makes the demo's capture, side-marked, on standard output: a handshake, a description, twenty rows
 * of acid batches, and at the end an input record with the batch given twice, which is refused.
 *
 * Of the ten messages that the library knows, only C carries an input record: its state data, which
 * the shape in the last s describes. So it stands there. Values and messages are the work of the
 * library's writers. The writer does not write a record with an index twice: it is written with two
 * indexes, and the second is then altered. */
#include "../host/bytes.h"
#include "../host/capture.h"
#include "batches.h"
#include "descriptors.h"

#include <string.h>

struct work {
    struct run capture, descriptor, value, id;
    struct plan batch, state;
    struct supply supply;
    struct fields fields;
};

/* The id of a root as a run, for fields and compiling. */
static const uint8_t *root_id(struct work *work, uint8_t which) {
    work->id.length = 0;
    add_id(&work->id, which);
    return work->id.bytes;
}

static void send(struct work *work, uint32_t side, uint8_t type) {
    write_record(&work->capture, side, type, &work->fields);
}

/* A descriptor's two fields: id and bytes. */
static void add_descriptor(struct work *work, uint8_t which) {
    add_field(&work->fields, root_id(work, which), 16);
    add_field(&work->fields, work->descriptor.bytes, work->descriptor.length);
}

/* Compiles the descriptor at hand. */
static void compile(struct work *work, uint8_t which, struct plan *plan) {
    rembulfose_answer answer = plan_compile(plan, root_id(work, which), work->descriptor.bytes,
                                            work->descriptor.length);
    must(answer.number == 0, rembulfose_refusal_text(answer.number));
}

static void send_ready(struct work *work, uint8_t state) {
    add_field_number(&work->fields, 0, 2);
    add_field_number(&work->fields, state, 1);
    send(work, SERVER, 'Z');
}

static void send_handshake(struct work *work) {
    struct fields *fields = &work->fields;
    add_field_number(fields, 1, 2);
    add_field_number(fields, 0, 2);
    add_field_number(fields, 2, 2);
    add_field_text(fields, "user");
    add_field_text(fields, "panel-3");
    add_field_text(fields, "branch");
    add_field_text(fields, "mixing-room");
    add_field_number(fields, 0, 2);
    send(work, CLIENT, 'V');
    add_field_text(fields, "suggested_pool_concurrency");
    add_field_text(fields, "4");
    send(work, SERVER, 'S');
    state_descriptor(&work->descriptor);
    compile(work, STATE_ID, &work->state);
    add_descriptor(work, STATE_ID);
    send(work, SERVER, 's');
    send_ready(work, 'I');
}

static void send_description(struct work *work) {
    struct fields *fields = &work->fields;
    send(work, CLIENT, 'S');
    add_field_number(fields, 1, 2);
    add_field_text(fields, "query");
    add_field_text(fields, "\"batches since\"");
    add_field_number(fields, 0, 8);
    add_field_number(fields, 'm', 1);
    arguments_descriptor(&work->descriptor);
    add_descriptor(work, ARGUMENTS_ID);
    batch_descriptor(&work->descriptor);
    compile(work, BATCH_ID, &work->batch);
    add_descriptor(work, BATCH_ID);
    send(work, SERVER, 'T');
}

static void send_rows(struct work *work) {
    for (unsigned i = 0; i < BATCHES; i++) {
        batch_value(&work->batch, i, &work->supply, &work->value);
        add_field_number(&work->fields, 1, 2);
        add_field(&work->fields, work->value.bytes, work->value.length);
        send(work, SERVER, 'D');
    }
}

/* The session's state: batch and operator. */
static void write_state(struct work *work, uint64_t batch, const void *operator, size_t length) {
    uint32_t root = plan_root(&work->state);
    work->supply.list.length = work->supply.source.length = 0;
    open_node(&work->supply, root, 0, 2);
    add_leaf_number(&work->supply, plan_element(&work->state, root, STATE_BATCH), STATE_BATCH, batch,
                    8);
    add_leaf(&work->supply, plan_element(&work->state, root, STATE_OPERATOR), STATE_OPERATOR, operator,
             length);
    write_supply(&work->state, &work->supply, &work->value);
}

static void send_complete(struct work *work, const char *status) {
    struct fields *fields = &work->fields;
    add_field_number(fields, 0, 2);
    add_field_number(fields, 1, 8);
    add_field_text(fields, status);
    add_field(fields, root_id(work, STATE_ID), 16);
    add_field(fields, work->value.bytes, work->value.length);
    send(work, SERVER, 'C');
}

static void send_log(struct work *work) {
    struct fields *fields = &work->fields;
    add_field_number(fields, 0x50, 1);
    add_field_number(fields, 0xf0000001, 4);
    add_field_text(fields, "tank T-3: the potassium sensor's zero is off");
    add_field_number(fields, 0, 2);
    send(work, SERVER, 'L');
}

/* The record with batch twice, 329 and 330. The second is written as the operator; its head, which
 * starts after the count, the first head and 8 bytes, then gets the batch's index. */
static void send_batch_twice(struct work *work) {
    static const uint8_t second[8] = {0, 0, 0, 0, 0, 0, 0x01, 0x4a};
    write_state(work, 329, second, sizeof second);
    put_32(work->value.bytes + 4 + 8 + 8, STATE_BATCH);
    send_complete(work, "UPDATE");
}

static void send_error(struct work *work) {
    struct fields *fields = &work->fields;
    add_field_number(fields, 0x78, 1);
    add_field_number(fields, 0x03010001, 4);
    add_field_text(fields, "the session's state names two batches");
    add_field_number(fields, 1, 2);
    add_field_number(fields, 1, 2);
    add_field_text(fields, "set the batch again");
    send(work, SERVER, 'E');
}

int main(void) {
    static struct work all; /* too large for the stack */
    struct work *work = &all;
    add_bytes(&work->capture, CAPTURE_MAGIC, strlen(CAPTURE_MAGIC));
    send_handshake(work);
    send_description(work);
    send_rows(work);
    write_state(work, 329, "M. Okafor", strlen("M. Okafor"));
    send_complete(work, "SELECT");
    send_log(work);
    send_ready(work, 'I');
    send(work, CLIENT, 'S');
    send_batch_twice(work);
    send_error(work);
    send_ready(work, 'I');
    print_run(&work->capture);
    return 0;
}
