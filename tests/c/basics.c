#include "basics.h"

#include "../peer/peer.h"

#include <stdarg.h>
#include <stdio.h>
#include <stdlib.h>
#include <string.h>

void put16(uint8_t *to, uint32_t value)
{
    to[0] = (uint8_t)value;
    to[1] = (uint8_t)(value >> 8);
}

void put32(uint8_t *to, uint32_t value)
{
    put16(to, value);
    put16(to + 2, value >> 16);
}

/* The mapping, 1381h, is signed with the values. */
uint16_t signature_c(const uint8_t covered[COVERED_C])
{
    static const uint8_t mapping[11] = { 2, 1, 0x20, 0x01, 0x30, 0x50, 2, 0x20, 0x02, 0x30, 0x50 };
    uint8_t bytes[COVERED_C + sizeof mapping];
    memcpy(bytes, covered, COVERED_C);
    memcpy(bytes + COVERED_C, mapping, sizeof mapping);
    return peer_crc(bytes, sizeof bytes);
}

uint16_t signature_a(const uint8_t covered[COVERED_A])
{
    return peer_crc(covered, COVERED_A);
}

uint32_t any(chance *c)
{
    c->at += UINT64_C(0x9E3779B97F4A7C15);
    uint64_t x = c->at;
    x = (x ^ (x >> 30)) * UINT64_C(0xBF58476D1CE4E5B9);
    x = (x ^ (x >> 27)) * UINT64_C(0x94D049BB133111EB);
    return (uint32_t)(x >> 32);
}

uint32_t below(chance *c, uint32_t end)
{
    return (uint32_t)(((uint64_t)any(c) * end) >> 32);
}

bool once_in(chance *c, uint32_t times)
{
    return below(c, times) == 0;
}

uint32_t any_scale(chance *c)
{
    static const uint32_t chosen[] = { 0x00000000, 0x43200000, 0x49742400, 0x3EC28F5C, 0x42C80000, 0x00000001 };
    const uint32_t sign = once_in(c, 3) ? 0x80000000u : 0;
    if (once_in(c, 2))
        return sign | chosen[below(c, sizeof chosen / sizeof *chosen)];
    return sign | (once_in(c, 4) ? below(c, 0x49742401) : 0x3F000000 + below(c, 0x0A742401));
}

void fail(const char *test, const char *form, ...)
{
    va_list words;
    va_start(words, form);
    fprintf(stderr, "%s: ", test);
    vfprintf(stderr, form, words);
    fprintf(stderr, "\n");
    va_end(words);
    exit(1);
}
