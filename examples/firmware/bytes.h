/* Numbers as little-endian bytes, a set's attributes as set-up's body, and an admin command's dwords: what a C program needs to
 * speak to the functions of card.h. Free to be copied into a firmware. */
#ifndef BYTES_H
#define BYTES_H

#include <stdint.h>

static inline void put_number(uint8_t *at, unsigned width, uint64_t value)
{
    for (unsigned i = 0; i < width; i++) {
        at[i] = (uint8_t)value;
        value >>= 8;
    }
}

static inline uint64_t get_number(const uint8_t *at, unsigned width)
{
    uint64_t value = 0;
    while (width-- > 0)
        value = value << 8 | at[width];
    return value;
}

/* Dword n of a submission queue entry is its bytes 4n+3:4n; the command dwords "CDW10" to "CDW15" count from the same start. */
static inline void put_dword(uint8_t *command, unsigned n, uint32_t value)
{
    put_number(command + 4 * n, 4, value);
}

/* One set's attributes, in the order of set-up's body. */
enum attribute {
    IDENTIFIER,
    ENDURANCE_GROUP,
    RANDOM_READ_TYPICAL,
    OPTIMAL_WRITE_SIZE,
    TOTAL_CAPACITY,
    UNALLOCATED_CAPACITY,
    READS_TYPICAL,
    WRITES_TYPICAL,
    TIME_MAXIMUM,
    MINIMUM_HIGH,
    MINIMUM_LOW,
    ATTRIBUTES
};

/* How many bytes attribute a takes in a body. A capacity has 16, of which 64 bits are enough here. */
static inline unsigned attribute_bytes(unsigned a)
{
    static const uint8_t bytes[ATTRIBUTES] = {2, 2, 4, 4, 16, 16, 8, 8, 8, 8, 8};
    return bytes[a];
}

static inline void put_body(uint8_t *body, const uint64_t values[ATTRIBUTES])
{
    for (unsigned a = 0; a < ATTRIBUTES; a++) {
        put_number(body, attribute_bytes(a), values[a]);
        body += attribute_bytes(a);
    }
}

#endif
