/* Bytes as the tests write them: in hex, spaces for the eye only. */
#ifndef HEX_H
#define HEX_H

#include <stddef.h>
#include <stdint.h>

static inline int digit(char letter) {
    return letter <= '9' ? letter - '0' : letter - 'a' + 10;
}

/* The bytes of a text in hex; how many is returned. */
static inline size_t bytes_of(const char *hex, uint8_t *bytes) {
    size_t length = 0;
    while (*hex) {
        if (*hex == ' ') {
            hex++;
        } else {
            bytes[length++] = (uint8_t)(digit(hex[0]) << 4 | digit(hex[1]));
            hex += 2;
        }
    }
    return length;
}

#endif
