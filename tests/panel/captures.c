/* Makes the captures of the panel tests from the demo's: some parts of it, damaged ones, and such whose
 * records cut messages.
 *
 *     captures DEMO FOLDER DESCRIBED
 *
 * Most start from a short form of the demo, with two of its twenty rows. In those that go to the folder
 * DESCRIBED, descriptions are sent more than once. */
#include "../../host/bytes.h"
#include "joined.h"

#include <string.h>

enum { HEAD = RECORD_HEAD };

/* In the demo, the third row and the last one. */
enum { ROW_3 = 8, LAST_ROW = 25 };

/* The short form in which both descriptions and a Sync are sent once more between the two rows: what
 * is done to these tells by what the second row and the state data after it are read. */
enum { DESCRIPTION_AGAIN = 7, STATE_AGAIN = 8, SYNC_AGAIN = 9 };

static void find_records(struct copy *copy) {
    const struct bytes capture = {copy->bytes, copy->length, copy->length};
    struct found record;
    size_t position = strlen(CAPTURE_MAGIC);
    for (copy->count = 0; next_record(&capture, &position, &record); copy->count++) {
        must(copy->count < MOST_RECORDS, "the demo's records");
        copy->records[copy->count] = record.head;
    }
    must(position == copy->length, "the demo's last record");
    copy->records[copy->count] = copy->length;
}

/* Records from one up to, and not with, another. */
struct stretch {
    size_t from, to;
};

/* A copy of so many stretches of records, one after the other. */
static struct copy joined(const struct copy *of, const struct stretch *stretches, size_t count) {
    struct copy copy = {malloc(2 * of->length), 0, {0}, 0};
    must(copy.bytes != NULL, "memory");
    memcpy(copy.bytes, of->bytes, copy.length = strlen(CAPTURE_MAGIC));
    for (size_t i = 0; i < count; i++) {
        size_t start = of->records[stretches[i].from], end = of->records[stretches[i].to];
        must(copy.length + end - start <= 2 * of->length, "the stretches are too long");
        memcpy(copy.bytes + copy.length, of->bytes + start, end - start);
        copy.length += end - start;
    }
    find_records(&copy);
    return copy;
}

/* A damage: bytes of one message that are altered. */
struct damage {
    const char *name;
    size_t record, offset; /* offset in the message; type byte at 0 */
    unsigned size;
    uint32_t number;
};

/* A row's value starts at 11 of its message; a complete's state data at 45 in the demo. */
static const struct damage damages[] = {
    {"length-small", ROW_1, 1, 4, 3},
    {"length-large", ROW_1, 1, 4, 65536},
    {"length-past-record", ROW_2, 1, 4, 3000},
    {"type-unknown", ROW_1, 0, 1, 'Q'},
    {"field-past-end", ROW_1, 7, 4, 467},
    {"bytes-left", ROW_1, 7, 4, 465},
    {"state-unknown", READY, 7, 1, 'X'},
    {"descriptor-tag", DESCRIPTION, 203, 1, 12},
    {"descriptor-root", DESCRIPTION, 198, 1, 0x55},
    {"value-count", ROW_1, 11, 4, 14},
    {"value-element-length", ROW_1, 11 + 8, 4, 4000},
    {"value-required-absent", ROW_1, 11 + 32, 4, UINT32_MAX},
    {"value-text", ROW_2, 11 + 37, 1, 0xff},
    {"value-decimal-digit", ROW_1, 11 + 93, 2, 10000},
    {"value-bool", ROW_1, 11 + 441, 1, 2},
    {"input-index-outside", COMPLETE, 45 + 20, 4, 3},
    {"client-length", SYNC, 1, 4, 3},
    {"client-length-first", HANDSHAKE, 1, 4, 65536},
    {"client-type", HANDSHAKE, 0, 1, 'O'},
};

/* Side byte and record length, which stand before a message. */
static const struct damage head_damages[] = {
    {"side-unknown", ROW_1, 0, 1, 7},
    {"side-client", ROW_1, 0, 1, CLIENT},
    {"record-short", ROW_2, 1, 4, 100},
};

/* Of what is sent again. In a T the cardinality stands at 43, the input descriptor at 64, the output
 * descriptor's length at 199 and the descriptor after it; in an s the length at 21. */
static const struct damage again_damages[] = {
    {"description-length", DESCRIPTION_AGAIN, 1, 4, 3},
    {"description-not-whole", DESCRIPTION_AGAIN, 1, 4, 3000},
    {"description-type", DESCRIPTION_AGAIN, 0, 1, 'Q'},
    {"description-past-end", DESCRIPTION_AGAIN, 199, 4, 1126},
    {"description-left", DESCRIPTION_AGAIN, 199, 4, 1124},
    {"description-field", DESCRIPTION_AGAIN, 43, 1, 'x'},
    {"description-output", DESCRIPTION_AGAIN, 203, 1, 12},
    {"description-input", DESCRIPTION_AGAIN, 64, 1, 12},
    {"state-length", STATE_AGAIN, 1, 4, 65536},
    {"state-not-whole", STATE_AGAIN, 1, 4, 3000},
    {"state-past-end", STATE_AGAIN, 21, 4, 203},
    {"state-descriptor", STATE_AGAIN, 25, 1, 12},
    {"sync-type", SYNC_AGAIN, 0, 1, 'O'},
    {"sync-not-whole", SYNC_AGAIN, 1, 4, 9},
    {"sync-length", SYNC_AGAIN, 1, 4, 3},
    {"sync-unread", SYNC, 1, 4, 3}, /* SYNC_AGAIN is behind it, and the description between them */
};

static const struct damage again_head_damages[] = {
    {"description-side-client", DESCRIPTION_AGAIN, 0, 1, CLIENT},
    {"description-side-unknown", DESCRIPTION_AGAIN, 0, 1, 7},
    {"state-side-client", STATE_AGAIN, 0, 1, CLIENT},
};

static void damage(const char *folder, struct copy copy, const struct damage *damage, size_t skip) {
    uint8_t bytes[4], before[4];
    uint8_t *at = copy.bytes + copy.records[damage->record] + skip + damage->offset;
    put_32(bytes, damage->number);
    memcpy(before, at, damage->size);
    memcpy(at, bytes + 4 - damage->size, damage->size);
    save(folder, damage->name, copy.bytes, copy.length);
    memcpy(at, before, damage->size);
}

/* Damages of the message and of the head before it. */
static void damage_all(const char *folder, struct copy copy, const struct damage *all, size_t count,
                       size_t skip) {
    for (size_t i = 0; i < count; i++)
        damage(folder, copy, &all[i], skip);
}

/* A record of which only so many bytes were kept, as its head says, and the records after it. */
static void save_cut(const char *folder, const char *name, struct copy copy, size_t record,
                     size_t kept) {
    size_t end = copy.records[record] + HEAD + kept, next = copy.records[record + 1];
    put_32(copy.bytes + copy.records[record] + 1, (uint32_t)kept);
    memmove(copy.bytes + end, copy.bytes + next, copy.length - next);
    save(folder, name, copy.bytes, copy.length - (next - end));
}

/* The bytes of one side alone, from a record on. */
static size_t one_side(const struct copy *copy, size_t from, uint8_t side, uint8_t *out) {
    size_t length = 0;
    for (size_t i = from; i < copy->count; i++) {
        size_t start = copy->records[i] + HEAD, end = copy->records[i + 1];
        if (copy->bytes[copy->records[i]] == side) {
            memcpy(out + length, copy->bytes + start, end - start);
            length += end - start;
        }
    }
    return length;
}

static void save_parts(const char *folder, const struct copy *copy) {
    uint8_t *out = malloc(copy->length);
    must(out != NULL, "memory");
    size_t server = one_side(copy, 0, SERVER, out);
    save(folder, "server-side", out, server);
    save(folder, "server-side-cut", out, server - 3);
    put_32(out + copy->records[PARAMETER + 1] - copy->records[PARAMETER] - HEAD + 1, 3);
    save(folder, "server-side-length", out, server);
    save(folder, "client-side", out, one_side(copy, 0, CLIENT, out));
    save(folder, "no-description", out, one_side(copy, ROW_1, SERVER, out));
    save(folder, "short-first", out, one_side(copy, READY, SERVER, out));
    save(folder, "good", copy->bytes, copy->records[TWICE]);
    save(folder, "cut-in-record", copy->bytes, copy->records[ROW_2] + 300);
    save(folder, "cut-in-head", copy->bytes, copy->records[ROW_2] + 3);
    save(folder, "empty", copy->bytes, 0);
    save(folder, "magic-alone", copy->bytes, strlen(CAPTURE_MAGIC));
    save(folder, "magic-cut", copy->bytes, strlen(CAPTURE_MAGIC) - 1);
    memcpy(out, copy->bytes, copy->length);
    out[strlen(CAPTURE_MAGIC) - 2] = '2';
    save(folder, "magic-other", out, copy->length);
    free(out);
}

/* The short form, its parts, and damaged ones. */
static struct copy save_short(const char *folder, const struct copy *whole) {
    const struct stretch stretches[] = {{0, ROW_3}, {LAST_ROW + 1, whole->count}};
    struct copy copy = joined(whole, stretches, 2);
    save(folder, "two-rows", copy.bytes, copy.length);
    save_parts(folder, &copy);
    save_joined(folder, &copy);
    damage_all(folder, copy, damages, sizeof damages / sizeof damages[0], HEAD);
    damage_all(folder, copy, head_damages, sizeof head_damages / sizeof head_damages[0], 0);
    return copy;
}

/* A description that is refused, and after it a good one. The demo's last record, which is refused, is
 * left out here and below. */
static void save_anew(const char *folder, const struct copy *two_rows) {
    static const struct damage first = {"description-anew", DESCRIPTION, 43, 1, 'x'};
    const struct stretch stretches[] = {{0, ROW_1}, {DESCRIPTION, TWICE}};
    struct copy copy = joined(two_rows, stretches, 2);
    damage(folder, copy, &first, HEAD);
    free(copy.bytes);
}

/* Descriptions that are sent again: good ones, and with each damage that may lose them. */
static void save_again(const char *folder, const struct copy *two_rows) {
    const struct stretch stretches[] = {{0, ROW_2},
                                        {DESCRIPTION, DESCRIPTION + 1},
                                        {STATE, STATE + 1},
                                        {SYNC, SYNC + 1},
                                        {ROW_2, TWICE}};
    struct copy copy = joined(two_rows, stretches, sizeof stretches / sizeof stretches[0]);
    save(folder, "good", copy.bytes, copy.length);
    damage_all(folder, copy, again_damages, sizeof again_damages / sizeof again_damages[0], HEAD);
    damage_all(folder, copy, again_head_damages,
               sizeof again_head_damages / sizeof again_head_damages[0], 0);
    save_cut(folder, "description-cut", copy, DESCRIPTION_AGAIN, 300);
    free(copy.bytes);
}

int main(int count, char **words) {
    must(count == 4, "usage: captures DEMO FOLDER DESCRIBED");
    struct bytes demo = load(words[1]);
    must(is_marked(&demo), words[1]);
    struct copy whole = {demo.at, demo.length, {0}, 0};
    find_records(&whole);
    struct copy two_rows = save_short(words[2], &whole);
    save_again(words[3], &two_rows);
    save_anew(words[3], &two_rows);
    free(two_rows.bytes);
    free(demo.at);
    return 0;
}
