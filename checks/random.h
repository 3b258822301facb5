/* What the programs beside this one share: random numbers that a seed repeats, bytes changed by them, numbers as a TPM
 * writes them, and a SHA-256 of their own. */
#ifndef RANDOM_H
#define RANDOM_H

#include "vinjakwe.h"

#include <stdio.h>
#include <stdlib.h>
#include <string.h>

static void wrong(const char *what) {
    printf("%s\n", what);
    exit(1);
}

/* ---- random numbers: xorshift, so that a seed gives the same run everywhere */

static uint64_t state;

static uint64_t number(void) {
    state ^= state << 13;
    state ^= state >> 7;
    state ^= state << 17;
    return state;
}

static size_t below(size_t n) {
    return (size_t)(number() >> 11) % n;
}

/* ---- SHA-256 (FIPS 180-4, section 6.2). Its constants are the first bits of the fractions of the roots of primes
 * (4.2.2 and 5.3.3), which are computed. */

__extension__ typedef unsigned __int128 wide;

static uint32_t root_bits(unsigned prime, int cube) {
    /* The greatest root whose power is at most prime * 2^(32 * degree), bit by bit; its low 32 bits are those of the
     * fraction. */
    uint64_t root = 0;
    for (int bit = 36; bit >= 0; bit--) {
        wide r = root | (uint64_t)1 << bit, power = r * r;
        if (cube ? power <= ((wide)prime << 96) / r : power <= (wide)prime << 64)
            root = (uint64_t)r;
    }
    return (uint32_t)root;
}

static uint32_t rotate(uint32_t x, int n) {
    return x >> n | x << (32 - n);
}

static void sha256(const uint8_t *bytes, size_t len, uint8_t *digest) {
    static uint32_t first[8], added[64];
    uint8_t block[64];
    uint32_t h[8], w[64], v[8];
    for (unsigned n = 0, prime = 2; added[63] == 0; prime++) {
        int is_prime = 1;
        for (unsigned d = 2; d * d <= prime; d++)
            is_prime &= prime % d != 0;
        if (is_prime) {
            if (n < 8)
                first[n] = root_bits(prime, 0);
            added[n++] = root_bits(prime, 1);
        }
    }
    memcpy(h, first, sizeof h);
    for (size_t at = 0; at < len + 9; at += 64) {
        for (size_t i = 0; i < 64; i++)
            block[i] = at + i < len ? bytes[at + i] : at + i == len ? 0x80 : 0;
        for (size_t i = 0; at + 64 >= len + 9 && i < 8; i++)
            block[56 + i] = (uint8_t)((uint64_t)len * 8 >> 8 * (7 - i));
        for (size_t i = 0; i < 64; i++)
            w[i] = i < 16 ? (uint32_t)block[4 * i] << 24 | (uint32_t)block[4 * i + 1] << 16 |
                                (uint32_t)block[4 * i + 2] << 8 | block[4 * i + 3]
                          : w[i - 16] + (rotate(w[i - 15], 7) ^ rotate(w[i - 15], 18) ^ w[i - 15] >> 3) + w[i - 7] +
                                (rotate(w[i - 2], 17) ^ rotate(w[i - 2], 19) ^ w[i - 2] >> 10);
        memcpy(v, h, sizeof v);
        for (size_t i = 0; i < 64; i++) {
            uint32_t one = v[7] + (rotate(v[4], 6) ^ rotate(v[4], 11) ^ rotate(v[4], 25)) +
                           ((v[4] & v[5]) ^ (~v[4] & v[6])) + added[i] + w[i];
            uint32_t two = (rotate(v[0], 2) ^ rotate(v[0], 13) ^ rotate(v[0], 22)) +
                           ((v[0] & v[1]) ^ (v[0] & v[2]) ^ (v[1] & v[2]));
            memmove(v + 1, v, 7 * sizeof *v);
            v[4] += one;
            v[0] = one + two;
        }
        for (size_t i = 0; i < 8; i++)
            h[i] += v[i];
    }
    for (size_t i = 0; i < 32; i++)
        digest[i] = (uint8_t)(h[i / 4] >> 8 * (3 - i % 4));
}

/* ---- bytes */

static void change(uint8_t *bytes, size_t *len, size_t most) {
    for (size_t changes = 1 + below(3); changes > 0; changes--) {
        size_t at = *len == 0 ? 0 : below(*len);
        switch (below(6)) {
        case 0: /* the bytes end early */
            *len = at;
            break;
        case 1: /* bytes are behind the end */
            for (size_t more = 1 + below(8); more > 0 && *len < most; more--)
                bytes[(*len)++] = (uint8_t)number();
            break;
        case 2: /* bytes are left out */
            if (*len > 0) {
                memmove(bytes + at, bytes + at + 1, *len - at - 1);
                *len -= 1;
            }
            break;
        case 3: /* another byte */
            if (*len > 0)
                bytes[at] = (uint8_t)number();
            break;
        default: /* another bit */
            if (*len > 0)
                bytes[at] ^= (uint8_t)(1u << below(8));
        }
    }
}

static uint8_t *put(uint8_t *to, uint64_t value, size_t width) {
    for (size_t i = 0; i < width; i++)
        to[i] = (uint8_t)(value >> 8 * (width - 1 - i));
    return to + width;
}

static uint8_t *put_bytes(uint8_t *to, const void *bytes, size_t len) {
    memcpy(to, bytes, len);
    return to + len;
}

#endif
