/* The node of document 01 once more, by hand in plain C and for speed: what the proved one is measured
 * against. Same contract, but the state is lent by pointer and lies in memory as the store has it, so
 * that a signature is computed, and a group saved or loaded, without taking values apart. For that the
 * machine has to keep numbers low byte first.
 *
 * The state is plain data: a caller may build any, and one that breaks a state rule is refused (6). */
#ifndef FAST_H
#define FAST_H

#include <stdbool.h>
#include <stddef.h>
#include <stdint.h>

/* Without gaps, wherever it starts, and also over the bytes of a store. */
#define FAST_PACKED __attribute__((packed, may_alias))

typedef struct {
    uint32_t vendor, product, revision, serial;      /* 1018h:1 to 4 */
} fast_identity;

/* Record N: the Node-ID and the bit timing index. */
typedef struct FAST_PACKED {
    uint8_t id, bit;
} fast_n;

/* Record C: the active Node-ID and group C. */
typedef struct FAST_PACKED {
    uint8_t id;
    uint16_t heartbeat;          /* 1017h */
    uint8_t direction;           /* 1301h:1 */
    uint16_t refresh;            /* 1301h:2 */
    uint8_t validation;          /* 1301h:3 */
    uint32_t first, second;      /* 1301h:5 and 6 */
    uint8_t kind;                /* 1800h:2 */
    uint16_t period;             /* 1800h:5 */
    uint8_t valid;               /* 13FEh */
    uint16_t signature;          /* 13FFh:1 */
} fast_c;

/* Record A: group A. */
typedef struct FAST_PACKED {
    uint8_t autostart;           /* 2330h */
    float low, high, offset;     /* 6121h:1, 6123h:1, 6124h:1 */
    uint8_t digits;              /* 6132h:1 */
    uint8_t valid;               /* 51FEh */
    uint16_t signature;          /* 51FFh:1 */
} fast_a;

typedef struct {
    fast_identity identity;
    fast_c c;                    /* with the active Node-ID */
    fast_a a;
    uint8_t active_bit;
    fast_n pending;
    uint8_t nmt;                 /* 4 Stopped, 5 Operational, 127 Pre-operational */
    uint16_t fv;                 /* 7100h:1 */
    uint16_t clock;              /* ticks, wraps at 65536 */
    uint16_t heartbeat_start, tpdo_start, srdo_start;
    uint8_t syncs;               /* SYNCs counted towards a TPDO */
    bool sample;                 /* a sample came since the last TPDO */
    bool reported;               /* the last EMCY said capped */
    bool configuration;          /* LSS configuration */
    uint8_t progress;            /* of 40h to 43h, how many have matched */
    bool busy;                   /* an upload of the name is open, */
    uint8_t at, toggle;          /* at this byte, with this toggle next */
} fast_state;

typedef struct {
    uint8_t number, count;       /* 0 or the refusal; frames written */
} fast_answer;

fast_answer fast_power_on(fast_state *state, const fast_identity *identity,
                          uint8_t *out, size_t out_length, const uint8_t *store, size_t store_length);

fast_answer fast_event(fast_state *state, const uint8_t *event, size_t event_length,
                       uint8_t *out, size_t out_length, uint8_t *store, size_t store_length);

#endif
