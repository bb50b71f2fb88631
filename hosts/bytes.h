/* Fields of a message or a descriptor, read by their order of bytes. */
#ifndef BYTES_H
#define BYTES_H

#include <stdint.h>

static inline uint16_t le16(const uint8_t *field)
{
    return (uint16_t)(field[0] | field[1] << 8);
}

static inline uint32_t le32(const uint8_t *field)
{
    return le16(field) | (uint32_t)le16(field + 2) << 16;
}

static inline uint32_t be32(const uint8_t *field)
{
    return (uint32_t)field[0] << 24 | (uint32_t)field[1] << 16 | (uint32_t)field[2] << 8 | field[3];
}

#endif
