/* A CANopen pressure node, written in plain C straight from the requirements
 * page (docs: "Requirements and rules for the build"), for comparison with the
 * proved code. It shares no code and no tables with it.
 *
 * The state is plain data: a caller may build any value of it, and a call on a
 * state that breaks a state rule is refused with number 6. */
#ifndef PEER_H
#define PEER_H

#include <stdbool.h>
#include <stddef.h>
#include <stdint.h>

enum { PEER_EVENT_BYTES = 13, PEER_FRAME_BYTES = 12, PEER_OUT_BYTES = 48, PEER_STORE_BYTES = 64 };

typedef struct {
    uint32_t vendor, product, revision, serial;
} peer_identity;

typedef struct {
    peer_identity identity;      /* 1018h:1..4 */

    /* group C, in the order of the table */
    uint16_t heartbeat;          /* 1017h:0 */
    uint8_t direction;           /* 1301h:1 */
    uint16_t refresh;            /* 1301h:2 */
    uint8_t validation;          /* 1301h:3 */
    uint32_t first, second;      /* 1301h:5, 1301h:6 */
    uint8_t kind;                /* 1800h:2 */
    uint16_t period;             /* 1800h:5 */
    uint8_t valid_c;             /* 13FEh:0 */
    uint16_t signature_c;        /* 13FFh:1 */

    /* group A, in the order of the table */
    uint8_t autostart;           /* 2330h:0 */
    float low, high, offset;     /* 6121h:1, 6123h:1, 6124h:1 */
    uint8_t digits;              /* 6132h:1 */
    uint8_t valid_a;             /* 51FEh:0 */
    uint16_t signature_a;        /* 51FFh:1 */

    /* Node-ID and bit timing index, in force and pending */
    uint8_t active_id, active_bit, pending_id, pending_bit;

    uint8_t nmt;                 /* 4 Stopped, 5 Operational, 127 Pre-operational */
    bool reported;               /* the last EMCY said "capped" */
    uint16_t fv;                 /* 7100h:1 */

    uint16_t clock, heartbeat_start, tpdo_start, srdo_start;
    uint8_t syncs;               /* SYNCs since the last TPDO, types 1..240 */
    bool sample;                 /* a sample came since the last TPDO */

    bool configuration;          /* LSS configuration state */
    uint8_t progress;            /* LSS selection: numbers matched so far */

    bool busy;                   /* an upload of 1008h is open ... */
    uint8_t at, toggle;          /* ... at this byte, with this toggle next */
} peer_state;

typedef struct {
    uint8_t number, count;       /* 0 or the refusal's number; frames written */
} peer_answer;

peer_answer peer_power_on(peer_state *out_state, const peer_identity *id,
                          uint8_t *out, size_t out_len,
                          const uint8_t *store, size_t store_len);

peer_answer peer_event(peer_state *state, const uint8_t *event, size_t event_len,
                       uint8_t *out, size_t out_len,
                       uint8_t *store, size_t store_len);

/* Three pure parts, open to checks of their own. */
uint16_t peer_crc(const uint8_t *bytes, size_t length);
float peer_pv(float low, float high, float offset, uint16_t fv);
int32_t peer_integer_pv(float pv, uint8_t digits, bool *capped);

#endif
