/* Big-endian numbers in runs of bytes. */
#ifndef BYTES_H
#define BYTES_H

#include <stdint.h>

static inline uint16_t get_16(const uint8_t *at) {
    return (uint16_t)(at[0] << 8 | at[1]);
}

static inline uint32_t get_32(const uint8_t *at) {
    return (uint32_t)get_16(at) << 16 | get_16(at + 2);
}

static inline uint64_t get_64(const uint8_t *at) {
    return (uint64_t)get_32(at) << 32 | get_32(at + 4);
}

static inline void put_32(uint8_t *at, uint32_t number) {
    for (int i = 0; i < 4; i++)
        at[i] = (uint8_t)(number >> (24 - 8 * i));
}

/* Two's complement, without the conversions that C leaves to the compiler. */
static inline int64_t signed_64(uint64_t bits) {
    return bits <= INT64_MAX ? (int64_t)bits : -(int64_t)(UINT64_MAX - bits) - 1;
}

static inline int32_t signed_32(uint32_t bits) {
    return (int32_t)(bits <= INT32_MAX ? (int64_t)bits : (int64_t)bits - 4294967296);
}

static inline int16_t signed_16(uint16_t bits) {
    return (int16_t)(bits <= INT16_MAX ? bits : bits - 65536);
}

#endif
