#include "joined.h"

#include <string.h>

/* Bytes of a record, from one up to, and not with, another, as a record of their own. */
struct slice {
    size_t record, from, to; /* to: REST for all that are left */
    int side;                /* OWN, or the byte that stands for another */
};

enum { OWN = -1 };
#define REST SIZE_MAX

/* Messages cut in their heads, with bytes of the other side between. */
static const struct slice in_heads[] = {
    {HANDSHAKE, 0, 1, OWN},   {PARAMETER, 0, 4, OWN},      {HANDSHAKE, 1, 5, OWN},
    {PARAMETER, 4, 5, OWN},   {HANDSHAKE, 5, REST, OWN},   {PARAMETER, 5, REST, OWN},
    {STATE, 0, 2, OWN},       {STATE, 2, 3, OWN},          {STATE, 3, REST, OWN},
    {SYNC, 0, 4, OWN},        {DESCRIPTION, 0, 3, OWN},    {SYNC, 4, REST, OWN},
    {SYNC, 0, 1, OWN},        {DESCRIPTION, 3, REST, OWN}, {ROW_1, 0, REST, OWN},
    {SYNC, 1, REST, OWN},
};

/* The same in their bodies: in the middle, and before the last byte. */
static const struct slice in_bodies[] = {
    {HANDSHAKE, 0, 40, OWN},       {PARAMETER, 0, 6, OWN},       {HANDSHAKE, 40, 56, OWN},
    {PARAMETER, 6, REST, OWN},     {HANDSHAKE, 56, REST, OWN},   {STATE, 0, 100, OWN},
    {STATE, 100, REST, OWN},       {DESCRIPTION, 0, 1327, OWN},  {SYNC, 0, REST, OWN},
    {DESCRIPTION, 1327, REST, OWN}, {ROW_1, 0, 11, OWN},         {ROW_1, 11, 300, OWN},
    {HANDSHAKE, 0, 56, OWN},       {ROW_1, 300, REST, OWN},      {HANDSHAKE, 56, REST, OWN},
};

/* Bytes of sides that are neither the client's nor the server's. Each is joined apart: a row of side 2 that is
 * cut by one of side 7, a length that is not permitted in side 9's, and unfinished ends, which come in
 * another order than they are said in. */
static const struct slice other_sides[] = {
    {DESCRIPTION, 0, REST, OWN}, {ROW_1, 0, 200, 2},      {ROW_2, 0, REST, 7},
    {ROW_1, 0, REST, OWN},       {ROW_1, 200, REST, 2},   {ROW_1, 5, 30, 9},
    {ROW_1, 30, 31, 9},          {DESCRIPTION, 0, 3, 255}, {DESCRIPTION, 3, 100, 255},
    {READY, 0, 3, 2},            {ROW_2, 0, REST, OWN},   {SYNC, 0, 2, OWN},
};

/* All that can be said at an end, but for the record that is cut, which is ROW_2 after these: host/README.md
 * shows it. */
static const struct slice all_ends[] = {
    {HANDSHAKE, 0, REST, OWN},   {PARAMETER, 0, REST, OWN}, {STATE, 0, REST, OWN},
    {READY, 0, REST, OWN},       {SYNC, 0, REST, OWN},      {DESCRIPTION, 0, REST, OWN},
    {ROW_1, 0, REST, OWN},       {ROW_1, 5, 31, 9},         {SYNC, 0, 3, OWN},
    {ROW_2, 0, REST, OWN},
};
enum { LACKING = 174 };

/* Captures that end inside messages of both sides: so many bytes of a handshake and of a row are there. */
struct end {
    const char *name;
    size_t client, server;
};

static const struct end ends[] = {
    {"unfinished-1", 1, 1},          {"unfinished-4", 4, 4},
    {"unfinished-5", 5, 5},          {"unfinished-last", 56, 476},
    {"unfinished-client", 3, 0},     {"unfinished-server", 0, 300},
};

static const uint8_t *bytes_of(const struct copy *copy, size_t record) {
    return copy->bytes + copy->records[record] + RECORD_HEAD;
}

static size_t length_of(const struct copy *copy, size_t record) {
    return copy->records[record + 1] - copy->records[record] - RECORD_HEAD;
}

static uint8_t side_of(const struct copy *copy, size_t record) {
    return copy->bytes[copy->records[record]];
}

static void append_slice(struct bytes *capture, const struct copy *copy, struct slice slice) {
    size_t to = slice.to == REST ? length_of(copy, slice.record) : slice.to;
    uint8_t side = slice.side == OWN ? side_of(copy, slice.record) : (uint8_t)slice.side;
    append_record(capture, side, bytes_of(copy, slice.record) + slice.from, to - slice.from);
}

static struct bytes first_line(void) {
    struct bytes capture = {NULL, 0, 0};
    append(&capture, (const uint8_t *)CAPTURE_MAGIC, strlen(CAPTURE_MAGIC));
    return capture;
}

/* A capture of so many slices, without so many bytes at its end. */
static void save_slices(const char *folder, const char *name, const struct copy *copy,
                        const struct slice *slices, size_t count, size_t without) {
    struct bytes capture = first_line();
    for (size_t i = 0; i < count; i++)
        append_slice(&capture, copy, slices[i]);
    save(folder, name, capture.at, capture.length - without);
    free(capture.at);
}

/* The server's bytes come first, and are said last. */
static void save_end(const char *folder, const struct copy *copy, const struct end *end) {
    const struct slice slices[] = {{STATE, 0, REST, OWN},
                                   {DESCRIPTION, 0, REST, OWN},
                                   {ROW_1, 0, end->server, OWN},
                                   {HANDSHAKE, 0, end->client, OWN}};
    save_slices(folder, end->name, copy, slices, sizeof slices / sizeof slices[0], 0);
}

/* All bytes of one side. */
static struct bytes bytes_from(const struct copy *copy, uint8_t side) {
    struct bytes all = {NULL, 0, 0};
    for (size_t i = 0; i < copy->count; i++)
        if (side_of(copy, i) == side)
            append(&all, bytes_of(copy, i), length_of(copy, i));
    return all;
}

/* A byte of each side in turn. */
static void save_interleaved(const char *folder, const struct copy *copy) {
    struct bytes capture = first_line();
    struct bytes client = bytes_from(copy, CLIENT), server = bytes_from(copy, SERVER);
    for (size_t i = 0; i < client.length || i < server.length; i++) {
        if (i < client.length)
            append_record(&capture, CLIENT, client.at + i, 1);
        if (i < server.length)
            append_record(&capture, SERVER, server.at + i, 1);
    }
    save(folder, "interleaved", capture.at, capture.length);
    free(client.at);
    free(server.at);
    free(capture.at);
}

#define SAVE(name, slices, without)                                                                \
    save_slices(folder, name, two_rows, slices, sizeof slices / sizeof slices[0], without)

void save_joined(const char *folder, const struct copy *two_rows) {
    SAVE("joined-in-heads", in_heads, 0);
    SAVE("joined-in-bodies", in_bodies, 0);
    SAVE("other-sides", other_sides, 0);
    SAVE("all-ends", all_ends, LACKING);
    save_interleaved(folder, two_rows);
    for (size_t i = 0; i < sizeof ends / sizeof ends[0]; i++)
        save_end(folder, two_rows, &ends[i]);
}
