/* The message calls as a C host makes them, on cases worked out by hand.
 *
 *     cc -std=c11 -Wall -Wextra -pthread tests/c/messages.c target/staticlib/libc_panel.a \
 *         -o target/c-messages
 *
 * Bytes are written in hex, spaces for the eye only. Every room is filled before the call and looked
 * at whole after it, with some bytes more on either side. The largest cases run on a thread with a
 * small stack.
 */
#define _DEFAULT_SOURCE
#include "samples.h"

/* Reads `source`; the room of so many bytes must then start with `list`. */
static void reading(const char *name, uint32_t side, const char *source, size_t room,
                    rembulfose_answer expected, const char *list) {
    uint8_t src[MOST], words[MOST], memory[MARGIN + MOST + MARGIN];
    size_t src_length = bytes_of(source, src), words_length = bytes_of(list, words);
    memset(memory, FILL, sizeof memory);
    rembulfose_answer answer = rembulfose_read_message(side, src, src_length, memory + MARGIN, room);
    count(name, same_answer(answer, expected) && holds(memory, words, words_length));
}

/* Writes from `list` and `source`; the room of so many bytes must then start with `message`. */
static void writing(const char *name, uint32_t side, uint8_t type, const char *list,
                    const char *source, size_t room, rembulfose_answer expected,
                    const char *message) {
    uint8_t words[MOST], src[MOST], bytes[MOST], memory[MARGIN + MOST + MARGIN];
    size_t words_length = bytes_of(list, words), src_length = bytes_of(source, src);
    size_t length = bytes_of(message, bytes);
    memset(memory, FILL, sizeof memory);
    rembulfose_answer answer = rembulfose_write_message(side, type, words, words_length, src,
                                                        src_length, memory + MARGIN, room);
    count(name, same_answer(answer, expected) && holds(memory, bytes, length));
}

/* A good message and its list: read with a byte after it, and written again. */
static void good(const char *name, uint32_t side, const char *message, const char *list) {
    uint8_t bytes[MOST] = {0}, words[MOST];
    char followed[2 * MOST];
    uint32_t length = (uint32_t)bytes_of(message, bytes);
    uint32_t words_length = (uint32_t)bytes_of(list, words);
    snprintf(followed, sizeof followed, "%s ff", message);
    reading(name, side, followed, words_length, answered(length, words_length / 4), list);
    writing(name, side, bytes[0], list, message, length, answered(length, 0), message);
}

static void each_sample(void) {
    for (size_t i = 0; i < GOOD_MESSAGES; i++)
        good(good_messages[i].name, good_messages[i].side, good_messages[i].message,
             good_messages[i].list);
}

static void reader_refusals(void) {
    for (size_t i = 0; i < BAD_MESSAGES; i++)
        reading(bad_messages[i].name, bad_messages[i].side, bad_messages[i].message, 64,
                refused(bad_messages[i].number, bad_messages[i].place), "");
    reading("no bytes", CLIENT, "", 8, refused(1, 0), "");
    reading("four bytes", CLIENT, "53 000000", 8, refused(1, 0), "");
    reading("not whole, type unknown", CLIENT, "00 00000005", 8, refused(1, 0), "");
    reading("room a byte short", SERVER, "5a 00000007 0000 49", 15, refused(31, 0), "");
    reading("odd room", SERVER, "5a 00000007 0000 49", 19, answered(8, 4),
            "00000005 00000002 00000007 00000001");
}

static void writer_refusals(void) {
    const char *z = "00000000 00000002 00000002 00000001";
    writing("Z", SERVER, 0x5a, z, "0000 54", 9, answered(8, 0), "5a 00000007 0000 54");
    writing("room a byte short", SERVER, 0x5a, z, "0000 54", 7, refused(32, 0), "");
    writing("no room", SERVER, 0x5a, z, "0000 54", 0, refused(32, 0), "");
    writing("unknown type, list of 5 bytes", SERVER, 0x56, "00000000 00", "", 9, refused(3, 0), "");
    writing("side 2", 2, 0x5a, z, "0000 54", 9, refused(3, 0), "");
    writing("list of 5 bytes", CLIENT, 0x53, "00000000 00", "", 9, refused(6, 0), "");
    writing("a word too many", CLIENT, 0x53, "00000000", "", 9, refused(6, 0), "");
    writing("a pair too few", SERVER, 0x5a, "00000000 00000002", "0000 54", 9, refused(6, 0), "");
    writing("a pair too many", CLIENT, 0x53, "00000000 00000000", "", 9, refused(6, 0), "");
    writing("unknown state", SERVER, 0x5a, z, "0000 55", 0, refused(6, 0), "");
    writing("count of another width", SERVER, 0x5a, "00000000 00000001 00000002 00000001",
            "0000 54", 9, refused(6, 0), "");
    writing("start past 32 bits", SERVER, 0x53, "00000000 00000001 ffffffff 00000001", "07", 20,
            refused(6, 0), "");
    writing("empty pair at the source's end", SERVER, 0x53, "00000000 00000001 00000001 00000000",
            "07", 14, answered(14, 0), "53 0000000d 00000001 07 00000000");
    writing("empty pair past the source's end", SERVER, 0x53,
            "00000000 00000001 00000002 00000000", "07", 14, refused(6, 0), "");
}

/* D from a source of 0001 and letters, with so many of them. */
static rembulfose_answer write_data(uint32_t length, uint8_t *out, size_t room) {
    static uint8_t src[70002] = {0, 1};
    uint8_t list[16] = {0};
    memset(src + 2, 'a', sizeof src - 2);
    put_word(list + 4, 2);
    put_word(list + 8, 2);
    put_word(list + 12, length);
    return rembulfose_write_message(SERVER, 0x44, list, sizeof list, src, sizeof src, out, room);
}

/* A V whose list has 8,192 words, the most that cross: 2,046 pairs of empty texts. It is read, and written
 * again from its list. */
static void most_fields(void) {
    static uint8_t message[MOST_MESSAGE], list[4 * MOST_WORDS], out[MOST_MESSAGE];
    uint32_t length = put_handshake(message, 2046);
    count("8,192 words, read",
          same_answer(rembulfose_read_message(CLIENT, message, length, list, sizeof list),
                      answered(length, MOST_WORDS)));
    count("8,192 words, written",
          same_answer(rembulfose_write_message(CLIENT, 0x56, list, sizeof list, message, length, out,
                                               length),
                      answered(length, 0)) && memcmp(out, message, length) == 0);
}

static void large(void) {
    static uint8_t list[32772], out[65537];
    most_fields();
    rembulfose_answer six = refused(6, 0);
    count("list of 32,772 bytes", same_answer(rembulfose_write_message(CLIENT, 0x53, list, 32772,
                                                                       NULL, 0, out, 5), six));
    count("list of 32,769 bytes", same_answer(rembulfose_write_message(CLIENT, 0x53, list, 32769,
                                                                       NULL, 0, out, 5), six));
    count("length 65,535", same_answer(write_data(65525, out, 65537), answered(65536, 0)) &&
                               out[0] == 0x44 && out[3] == 0xff && out[4] == 0xff &&
                               out[65535] == 'a' && out[65536] == 0);
    count("length 65,535, read", same_answer(rembulfose_read_message(SERVER, out, 65537, list, 16),
                                             answered(65536, 4)));
    count("length 65,536", same_answer(write_data(65526, out, 0), refused(2, 0)));
}

/* A null pointer may be lent with length 0. */
static void null_pointers(void) {
    const uint8_t sync[5] = {0x53, 0, 0, 0, 4};
    uint8_t out[5] = {0};
    count("no list room", same_answer(rembulfose_read_message(CLIENT, sync, 5, NULL, 0),
                                      answered(5, 0)));
    count("no source", same_answer(rembulfose_read_message(CLIENT, NULL, 0, NULL, 0),
                                   refused(1, 0)));
    count("no list and no source",
          same_answer(rembulfose_write_message(CLIENT, 0x53, NULL, 0, NULL, 0, out, 5),
                      answered(5, 0)) && memcmp(out, sync, 5) == 0);
    count("no output room",
          same_answer(rembulfose_write_message(CLIENT, 0x53, NULL, 0, NULL, 0, NULL, 0),
                      refused(32, 0)));
}

int main(void) {
    each_sample();
    reader_refusals();
    writer_refusals();
    small_stack(large);
    null_pointers();
    return finish();
}
