/* The checksum of a frame: CRC-8 with the polynomial 0x07, from 0. */
#ifndef CHECKSUM_H
#define CHECKSUM_H

#include <stddef.h>
#include <stdint.h>

static inline uint8_t checksum(const uint8_t *bytes, size_t size) {
    unsigned crc = 0;
    for (size_t i = 0; i < size; i++) {
        crc ^= bytes[i];
        for (int bit = 0; bit < 8; bit++) {
            crc <<= 1;
            if (crc & 0x100)
                crc ^= 0x107;
        }
    }
    return (uint8_t)crc;
}

#endif
