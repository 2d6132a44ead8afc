/* A description and the rows after it, as the programs that make a whole capture of their own send them. */
#ifndef SENDING_H
#define SENDING_H

#include "../../demo/build.h"
#include "../../host/capture.h"

#include <string.h>

/* A capture, and the message that is made for it. */
struct sending {
    struct run capture;
    struct fields fields;
};

static inline void start_capture(struct sending *sending) {
    add_bytes(&sending->capture, CAPTURE_MAGIC, strlen(CAPTURE_MAGIC));
}

/* A T without arguments: the rows are of the descriptor's block that has this id. */
static inline void send_description(struct sending *sending, const struct run *id,
                                    const struct run *descriptor,
                                    enum rembulfose_cardinality cardinality) {
    static const uint8_t zero[16] = {0};
    struct fields *fields = &sending->fields;
    add_field_number(fields, 0, 2);
    add_field_number(fields, 0, 8);
    add_field_number(fields, cardinality, 1);
    add_field(fields, zero, sizeof zero);
    add_field(fields, NULL, 0);
    add_field(fields, id->bytes, id->length);
    add_field(fields, descriptor->bytes, descriptor->length);
    write_record(&sending->capture, SERVER, 'T', fields);
}

/* A D with this value. */
static inline void send_row(struct sending *sending, const struct run *value) {
    add_field_number(&sending->fields, 1, 2);
    add_field(&sending->fields, value->bytes, value->length);
    write_record(&sending->capture, SERVER, 'D', &sending->fields);
}

#endif
