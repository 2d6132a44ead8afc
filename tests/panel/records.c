#include "records.h"

#include "../../host/bytes.h"

#include <string.h>

enum { FIRST_ROOM = 1 << 16, MOST_AT_RANDOM = 60, EMPTY_ONCE_IN = 6 };

void append(struct bytes *bytes, const uint8_t *from, size_t length) {
    while (bytes->room - bytes->length < length) {
        bytes->room = bytes->room == 0 ? FIRST_ROOM : 2 * bytes->room;
        uint8_t *more = realloc(bytes->at, bytes->room);
        must(more != NULL, "memory");
        bytes->at = more;
    }
    if (length > 0)
        memcpy(bytes->at + bytes->length, from, length);
    bytes->length += length;
}

struct bytes load(const char *name) {
    struct bytes bytes = {NULL, 0, 0};
    uint8_t some[4096];
    size_t got;
    FILE *file = fopen(name, "rb");
    must(file != NULL, name);
    while ((got = fread(some, 1, sizeof some, file)) > 0)
        append(&bytes, some, got);
    must(!ferror(file) && fclose(file) == 0, name);
    return bytes;
}

void save(const char *folder, const char *name, const uint8_t *bytes, size_t length) {
    char path[512];
    must(snprintf(path, sizeof path, "%s/%s.capture", folder, name) < (int)sizeof path, folder);
    FILE *file = fopen(path, "wb");
    must(file != NULL, path);
    size_t written = fwrite(bytes, 1, length, file);
    must(fclose(file) == 0 && written == length, path);
}

bool is_marked(const struct bytes *capture) {
    size_t length = strlen(CAPTURE_MAGIC);
    return capture->length >= length && memcmp(capture->at, CAPTURE_MAGIC, length) == 0;
}

bool next_record(const struct bytes *capture, size_t *position, struct found *record) {
    size_t left = capture->length - *position;
    const uint8_t *head = capture->at + *position;
    if (left < RECORD_HEAD || get_32(head + 1) > left - RECORD_HEAD)
        return false;
    *record = (struct found){head[0], *position, *position + RECORD_HEAD, get_32(head + 1)};
    *position = record->at + record->length;
    return true;
}

void append_record(struct bytes *capture, uint8_t side, const uint8_t *bytes, size_t length) {
    uint8_t head[RECORD_HEAD] = {side};
    put_32(head + 1, (uint32_t)length);
    append(capture, head, sizeof head);
    append(capture, bytes, length);
}

/* By splitmix64. */
uint64_t draw(void) {
    static uint64_t state = 1;
    uint64_t mixed = state += 0x9e3779b97f4a7c15;
    mixed = (mixed ^ mixed >> 30) * 0xbf58476d1ce4e5b9;
    mixed = (mixed ^ mixed >> 27) * 0x94d049bb133111eb;
    return mixed ^ mixed >> 31;
}

static void append_cut(struct bytes *capture, uint8_t side, const uint8_t *bytes, size_t length,
                       size_t size) {
    for (size_t at = 0; at < length;) {
        size_t most = size > 0 ? size : draw() % EMPTY_ONCE_IN == 0 ? 0 : 1 + draw() % MOST_AT_RANDOM;
        size_t next = most < length - at ? most : length - at;
        append_record(capture, side, bytes + at, next);
        at += next;
    }
}

struct bytes cut_records(const struct bytes *capture, uint8_t side, size_t size) {
    struct bytes cut = {NULL, 0, 0};
    struct found record;
    size_t position = strlen(CAPTURE_MAGIC);
    append(&cut, (const uint8_t *)CAPTURE_MAGIC, position);
    if (!is_marked(capture)) {
        append_cut(&cut, side, capture->at, capture->length, size);
        return cut;
    }
    while (next_record(capture, &position, &record))
        append_cut(&cut, record.side, capture->at + record.at, record.length, size);
    append(&cut, capture->at + position, capture->length - position);
    return cut;
}
