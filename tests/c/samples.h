/* Messages worked out by hand, in hex: what the reader and the intake make of them is the same. */
#ifndef SAMPLES_H
#define SAMPLES_H

#include "cases.h"

enum { CLIENT = REMBULFOSE_CLIENT, SERVER = REMBULFOSE_SERVER };
enum { MOST_MESSAGE = REMBULFOSE_MOST_MESSAGE };

#define UUID "00112233 44556677 8899aabb ccddeeff"

/* A good message and the list that reading it gives: one for each type of each side. */
struct good {
    const char *name;
    uint32_t side;
    const char *message, *list;
};

static const struct good good_messages[] = {
    {"E", SERVER, "45 00000018 78 00000001 00000002 6162 0001 0001 00000001 7f",
     "00000005 00000001 00000006 00000004 0000000e 00000002"
     "00000010 00000002 00000012 00000002 00000018 00000001"},
    {"L", SERVER, "4c 00000019 14 00000000 00000000 0001 00000001 6b 00000001 76",
     "00000005 00000001 00000006 00000004 0000000e 00000000"
     "0000000e 00000002 00000014 00000001 00000019 00000001"},
    {"Z", SERVER, "5a 00000007 0000 49", "00000005 00000002 00000007 00000001"},
    {"C", SERVER, "43 00000028 0000 0000000000000001 00000002 4f4b" UUID "00000000",
     "00000005 00000002 00000007 00000008 00000013 00000002"
     "00000015 00000010 00000029 00000000"},
    {"T", SERVER, "54 00000038 0000 ffffffffffffffff 41" UUID "00000001 80" UUID "00000000",
     "00000005 00000002 00000007 00000008 0000000f 00000001 00000010 00000010"
     "00000024 00000001 00000025 00000010 00000039 00000000"},
    {"s", SERVER, "73 0000001a" UUID "00000002 c328", "00000005 00000010 00000019 00000002"},
    {"D", SERVER, "44 0000000d 0001 00000003 010203", "00000005 00000002 0000000b 00000003"},
    {"S of the server", SERVER, "53 0000000d 00000001 ff 00000000",
     "00000009 00000001 0000000e 00000000"},
    {"S of the client", CLIENT, "53 00000004", ""},
    {"V", CLIENT, "56 0000001c 0001 0000 0001 00000001 61 00000000 0001 00000001 78 0000",
     "00000005 00000002 00000007 00000002 00000009 00000002 0000000f 00000001"
     "00000014 00000000 00000014 00000002 0000001a 00000001 0000001b 00000002"},
};

/* A message that is refused with this number and place: with 2 once its first five bytes are there, with
 * the others once it is whole. */
struct bad {
    const char *name;
    uint32_t side;
    const char *message;
    uint32_t number, place;
};

static const struct bad bad_messages[] = {
    {"length 0", CLIENT, "53 00000000", 2, 0},
    {"length 3, type unknown", CLIENT, "00 00000003", 2, 0},
    {"length 65,536", CLIENT, "53 00010000", 2, 0},
    {"length of 2^31", CLIENT, "53 80000004", 2, 0},
    {"length of 2^32 - 1", CLIENT, "53 ffffffff", 2, 0},
    {"V from the server", SERVER, "56 00000004", 3, 0},
    {"unknown type with a body", CLIENT, "99 00000005 00", 3, 0},
    {"side 2", 2, "53 00000004", 3, 0},
    {"side of 2^32 - 1", UINT32_MAX, "5a 00000007 0000 49", 3, 0},
    {"S of the server without fields", SERVER, "53 00000004", 4, 5},
    {"bytes past the end", SERVER, "53 0000000d 00000001 ff 00000001", 4, 10},
    {"length of bytes that wraps", SERVER, "53 0000000d 00000001 ff ffffffff", 4, 10},
    {"count without items", SERVER, "5a 00000006 ffff", 4, 7},
    {"bytes left over", SERVER, "5a 00000009 0000 49 0000", 5, 8},
    {"unknown state", SERVER, "5a 00000007 0000 48", 6, 7},
    {"D's number 2", SERVER, "44 00000006 0002", 6, 5},
    {"second text of an annotation not UTF-8", SERVER,
     "5a 00000012 0001 00000001 6b 00000002 c080 49", 6, 12},
};

enum {
    GOOD_MESSAGES = sizeof good_messages / sizeof good_messages[0],
    BAD_MESSAGES = sizeof bad_messages / sizeof bad_messages[0]
};

/* Puts a V with so many parameters, whose names and values are empty, into memory that is zero; its length
 * is returned. */
static inline uint32_t put_handshake(uint8_t *message, uint32_t parameters) {
    uint32_t length = 5 + 3 * 2 + 8 * parameters + 2;
    message[0] = 0x56;
    put_word(message + 1, length - 1);
    message[9] = (uint8_t)(parameters >> 8);
    message[10] = (uint8_t)parameters;
    return length;
}

#endif
