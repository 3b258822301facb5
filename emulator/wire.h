/* Numbers as they lie in buffers: the most significant byte first. */
#ifndef EMULATOR_WIRE_H
#define EMULATOR_WIRE_H

#include <stdint.h>

static inline uint16_t number16(const uint8_t *bytes) {
    return (uint16_t)(bytes[0] << 8 | bytes[1]);
}

static inline uint32_t number32(const uint8_t *bytes) {
    return (uint32_t)number16(bytes) << 16 | number16(bytes + 2);
}

static inline uint64_t number64(const uint8_t *bytes) {
    return (uint64_t)number32(bytes) << 32 | number32(bytes + 4);
}

static inline void put16(uint8_t *bytes, uint16_t number) {
    bytes[0] = (uint8_t)(number >> 8);
    bytes[1] = (uint8_t)number;
}

static inline void put32(uint8_t *bytes, uint32_t number) {
    put16(bytes, (uint16_t)(number >> 16));
    put16(bytes + 2, (uint16_t)number);
}

static inline void put64(uint8_t *bytes, uint64_t number) {
    put32(bytes, (uint32_t)(number >> 32));
    put32(bytes + 4, (uint32_t)number);
}

#endif
