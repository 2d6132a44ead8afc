#include "build.h"

#include "../host/bytes.h"

#include <stdio.h>
#include <stdlib.h>
#include <string.h>

void must(int good, const char *what) {
    if (good)
        return;
    fprintf(stderr, "demo: %s\n", what);
    exit(1);
}

void add_bytes(struct run *run, const void *bytes, size_t length) {
    must(length <= sizeof run->bytes - run->length, "a run is full");
    if (length > 0)
        memcpy(run->bytes + run->length, bytes, length);
    run->length += length;
}

void print_run(const struct run *run) {
    size_t written = fwrite(run->bytes, 1, run->length, stdout);
    must(written == run->length && fflush(stdout) == 0, "cannot write");
}

/* A number of so many bytes, big-endian. */
static void add_number(struct run *run, uint64_t number, size_t size) {
    uint8_t bytes[8];
    for (size_t i = 0; i < size; i++)
        bytes[i] = (uint8_t)(number >> (8 * (size - 1 - i)));
    add_bytes(run, bytes, size);
}

void add_8(struct run *run, uint8_t number) {
    add_number(run, number, 1);
}

void add_16(struct run *run, uint16_t number) {
    add_number(run, number, 2);
}

void add_32(struct run *run, uint32_t number) {
    add_number(run, number, 4);
}

void add_64(struct run *run, uint64_t number) {
    add_number(run, number, 8);
}

void add_text(struct run *run, const char *text) {
    add_32(run, (uint32_t)strlen(text));
    add_bytes(run, text, strlen(text));
}

void add_scalar(struct run *run, uint16_t known_id, const char *name) {
    static const uint8_t zeros[14] = {0};
    add_8(run, 3);
    add_bytes(run, zeros, sizeof zeros);
    add_16(run, known_id);
    add_text(run, name);
    add_8(run, 1);
    add_16(run, 0);
}

void add_id(struct run *run, uint8_t which) {
    for (int i = 0; i < 15; i++)
        add_8(run, 0xaa);
    add_8(run, which);
}

static void add_entry(struct supply *supply, uint32_t node, uint32_t index, uint32_t length,
                      uint32_t count) {
    add_32(&supply->list, node);
    add_32(&supply->list, index);
    add_32(&supply->list, (uint32_t)supply->source.length);
    add_32(&supply->list, length);
    add_32(&supply->list, count);
}

void open_node(struct supply *supply, uint32_t node, uint32_t index, uint32_t count) {
    add_entry(supply, node, index, 0, count);
}

void add_leaf(struct supply *supply, uint32_t node, uint32_t index, const void *bytes,
              size_t length) {
    add_entry(supply, node, index, (uint32_t)length, 0);
    add_bytes(&supply->source, bytes, length);
}

void add_leaf_text(struct supply *supply, uint32_t node, uint32_t index, const char *text) {
    add_leaf(supply, node, index, text, strlen(text));
}

void add_leaf_number(struct supply *supply, uint32_t node, uint32_t index, uint64_t number,
                     size_t size) {
    add_entry(supply, node, index, (uint32_t)size, 0);
    add_number(&supply->source, number, size);
}

/* How many letters stand before the point, or in all. */
static int whole_letters(const char *text) {
    return (int)strcspn(text, ".");
}

/* The base-10,000 digit that counts 10,000 to this power. */
static uint16_t digit_of(const char *text, int power) {
    int whole = whole_letters(text), length = (int)strlen(text);
    unsigned digit = 0;
    for (int place = 4 * power + 3; place >= 4 * power; place--) {
        int at = place >= 0 ? whole - 1 - place : whole - place;
        digit = 10 * digit + (at >= 0 && at < length ? (unsigned)(text[at] - '0') : 0);
    }
    return (uint16_t)digit;
}

void add_leaf_decimal(struct supply *supply, uint32_t node, uint32_t index, const char *text) {
    int negative = *text == '-';
    text += negative;
    int whole = whole_letters(text), length = (int)strlen(text);
    int scale = whole < length ? length - whole - 1 : 0;
    int weight = (whole + 3) / 4 - 1, count = weight + 1 + (scale + 3) / 4;
    add_entry(supply, node, index, (uint32_t)(8 + 2 * count), 0);
    add_16(&supply->source, (uint16_t)count);
    add_16(&supply->source, (uint16_t)weight);
    add_16(&supply->source, negative ? 0x4000 : 0);
    add_16(&supply->source, (uint16_t)scale);
    for (int i = 0; i < count; i++)
        add_16(&supply->source, digit_of(text, weight - i));
}

void open_range(struct supply *supply, uint32_t node, uint32_t index, uint8_t flags,
                uint32_t count) {
    add_entry(supply, node, index, 0, count);
    add_8(&supply->source, flags);
}

void add_absent(struct supply *supply, uint32_t node, uint32_t index) {
    add_entry(supply, node, index, REMBULFOSE_ABSENT, 0);
}

void write_supply(const struct plan *plan, const struct supply *supply, struct run *value) {
    rembulfose_answer answer = rembulfose_write_value(
        plan->words, plan->length, supply->list.bytes, supply->list.length, supply->source.bytes,
        supply->source.length, value->bytes, sizeof value->bytes);
    must(answer.number == 0, rembulfose_refusal_text(answer.number));
    value->length = answer.first;
}

/* The pair of the field whose bytes come next. */
static void add_pair(struct fields *fields, size_t length) {
    add_32(&fields->list, (uint32_t)fields->source.length);
    add_32(&fields->list, (uint32_t)length);
}

void add_field(struct fields *fields, const void *bytes, size_t length) {
    add_pair(fields, length);
    add_bytes(&fields->source, bytes, length);
}

void add_field_text(struct fields *fields, const char *text) {
    add_field(fields, text, strlen(text));
}

void add_field_number(struct fields *fields, uint64_t number, size_t size) {
    add_pair(fields, size);
    add_number(&fields->source, number, size);
}

void write_record(struct run *capture, uint32_t side, uint8_t type, struct fields *fields) {
    size_t head = capture->length;
    add_8(capture, (uint8_t)side);
    add_32(capture, 0);
    rembulfose_answer answer = rembulfose_write_message(
        side, type, fields->list.bytes, fields->list.length, fields->source.bytes,
        fields->source.length, capture->bytes + capture->length,
        sizeof capture->bytes - capture->length);
    must(answer.number == 0, rembulfose_refusal_text(answer.number));
    put_32(capture->bytes + head + 1, answer.first);
    capture->length += answer.first;
    fields->list.length = fields->source.length = 0;
}
