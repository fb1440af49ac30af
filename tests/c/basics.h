/* Bytes, signatures and chance, for every test here. */
#ifndef BASICS_H
#define BASICS_H

#include <stdbool.h>
#include <stddef.h>
#include <stdint.h>

/* Numbers travel low byte first. */
void put16(uint8_t *to, uint32_t value);
void put32(uint8_t *to, uint32_t value);

/* 13FFh:1 over the bytes of 1301h:1, 2, 3, 5, 6, and 51FFh:1 over those of 6121h, 6123h, 6124h, 6132h. */
enum { COVERED_C = 12, COVERED_A = 13 };
uint16_t signature_c(const uint8_t covered[COVERED_C]);
uint16_t signature_a(const uint8_t covered[COVERED_A]);

/* A run of numbers that a seed fixes. */
typedef struct {
    uint64_t at;
} chance;

uint32_t any(chance *c);                            /* any 32 bits */
uint32_t below(chance *c, uint32_t end);            /* 0 to end - 1 */
bool once_in(chance *c, uint32_t times);

/* A Real32 in the range of 6121h to 6124h: often a round one or an end, at times a very small one. */
uint32_t any_scale(chance *c);

/* Ends the program with a line that names the test and says what was found. */
void fail(const char *test, const char *form, ...) __attribute__((noreturn, format(printf, 2, 3)));

#endif
