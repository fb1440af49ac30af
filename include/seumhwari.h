/* Seumhwari: a CANopen pressure node, proved, for firmware to call.
 *
 * Two calls: seumhwari_power_on once, then seumhwari_event for each frame that comes in, each
 * millisecond and each sample. A call takes the state by value and hands the next one back in its
 * answer; the node keeps nothing of its own, takes no lock and allocates nothing.
 *
 *     seumhwari_answer a = seumhwari_power_on(identity, out, sizeof out, store, sizeof store);
 *     for (;;) {
 *         send(out, a.count);                                  // your driver: a.count frames
 *         wait_for(event);                                     // your queue: 13 bytes
 *         a = seumhwari_event(event, sizeof event, a.state, out, sizeof out, store, sizeof store);
 *     }
 *
 * (examples/firmware.c is that loop in full.)
 *
 * What C owes: each pointer may be read, and out and store also written, for the length given with
 * it; out and store overlap neither each other nor event; a bool is 0 or 1 (any C compiler sees to
 * that, a memcpy from a foreign image may not); floating point is as a program starts with it:
 * rounding to nearest, no flushing of subnormals to zero. Nothing else is owed: any bytes, any
 * lengths and any state are answered.
 *
 * The archive is x86-64 code: rt lib, in crates/port, writes out/libport.a there. */
#ifndef SEUMHWARI_H
#define SEUMHWARI_H

#include <stdbool.h>
#include <stddef.h>
#include <stdint.h>

#ifdef __cplusplus
extern "C" {
#endif

/* ---- Sizes, in bytes */

enum {
    SEUMHWARI_EVENT = 13,        /* an event */
    SEUMHWARI_FRAME = 12,        /* a frame */
    SEUMHWARI_OUT = 48,          /* the least output: four frames */
    SEUMHWARI_STORE = 64         /* the store */
};

/* An event is a kind and 12 bytes:
 *   1  a frame came in: CAN-ID (2, low first), flag (0 data, 1 remote), length, 8 data bytes
 *   2  a millisecond passed; the rest is ignored
 *   3  a sample: FV (2, low first); the rest is ignored
 * A frame in the output has the same 12 bytes, always flag 0, and zeros past its length. */
enum { SEUMHWARI_KIND_FRAME = 1, SEUMHWARI_KIND_TICK = 2, SEUMHWARI_KIND_SAMPLE = 3 };

/* ---- The answer's number: 0, or the lowest that applies. After a refusal no frame is to be sent,
 * and state, output and store are as they were. */

enum {
    SEUMHWARI_DONE = 0,
    SEUMHWARI_BAD_EVENT = 1,     /* the event is not 13 bytes */
    SEUMHWARI_BAD_KIND = 2,      /* its kind is not 1, 2 or 3 */
    SEUMHWARI_BAD_FRAME = 3,     /* CAN-ID above 2047, flag above 1 or length above 8 */
    SEUMHWARI_SHORT_OUT = 4,     /* the output has fewer than 48 bytes */
    SEUMHWARI_BAD_STORE = 5,     /* the store is not 64 bytes */
    SEUMHWARI_BAD_STATE = 6      /* the state breaks a rule, so no call of these made it */
};

/* ---- The state, 88 bytes. It can be read, copied and kept; index and sub stand beside each field. */

typedef struct {
    uint32_t vendor, product, revision, serial;              /* 1018h:1 to 4 */
} seumhwari_identity;

typedef struct {
    uint8_t direction;           /* 1301h:1 */
    uint16_t refresh;            /* 1301h:2, ms */
    uint8_t validation;          /* 1301h:3 */
    uint32_t first, second;      /* 1301h:5 and 6, the pair's COB-IDs */
} seumhwari_srdo;

typedef struct {
    uint8_t kind;                /* 1800h:2, the transmission type */
    uint16_t period;             /* 1800h:5, ms */
} seumhwari_tpdo;

/* Group C. */
typedef struct {
    uint16_t heartbeat;          /* 1017h, ms */
    seumhwari_srdo srdo;
    seumhwari_tpdo tpdo;
    uint8_t valid;               /* 13FEh: A5h only while the signature holds */
    uint16_t signature;          /* 13FFh:1 */
} seumhwari_communication;

typedef struct {
    float low, high, offset;     /* 6121h:1, 6123h:1, 6124h:1 */
} seumhwari_scaling;

/* Group A. */
typedef struct {
    uint8_t autostart;           /* 2330h */
    seumhwari_scaling scaling;
    uint8_t digits;              /* 6132h:1 */
    uint8_t valid;               /* 51FEh: A5h only while the signature holds */
    uint16_t signature;          /* 51FFh:1 */
} seumhwari_application;

typedef struct {
    seumhwari_communication communication;
    seumhwari_application application;
} seumhwari_settings;

typedef struct {
    uint8_t id, bit;             /* Node-ID, bit timing index */
} seumhwari_address;

typedef struct {
    uint16_t clock;              /* ticks, wraps at 65536 */
    uint16_t heartbeat, tpdo, srdo;                          /* when each timer last started */
} seumhwari_timers;

typedef struct {
    uint8_t syncs;               /* SYNCs counted towards a TPDO */
    bool sample;                 /* a sample came since the last TPDO */
} seumhwari_sending;

typedef struct {
    bool configuration;          /* LSS configuration */
    uint8_t progress;            /* of 40h to 43h, how many have matched */
} seumhwari_selection;

typedef struct {
    bool busy;                   /* an upload of the name is open, */
    uint8_t at, toggle;          /* at this byte, with this toggle next */
} seumhwari_upload;

typedef struct {
    uint16_t count;              /* FV, 7100h:1 */
} seumhwari_fv;

typedef struct {
    seumhwari_address active, pending;
    uint8_t nmt;                 /* 4 Stopped, 5 Operational, 127 Pre-operational */
    bool reported;               /* the last EMCY said capped */
    seumhwari_fv fv;
    seumhwari_timers timers;
    seumhwari_sending tpdo;
    seumhwari_selection lss;
    seumhwari_upload upload;
} seumhwari_core;

typedef struct {
    seumhwari_identity identity;
    seumhwari_settings settings;
    seumhwari_core core;
} seumhwari_state;

typedef struct {
    uint8_t number;              /* SEUMHWARI_DONE or the refusal */
    uint8_t count;               /* frames written to the output, 0 to 4 */
    seumhwari_state state;       /* for the next call */
} seumhwari_answer;

/* ---- The calls */

/* Powers the node on over what the store holds; refused only by 4 or 5. The store is read, never
 * written. A refused power-on hands back the state that a store of zeros gives. */
seumhwari_answer seumhwari_power_on(seumhwari_identity identity,
                                    uint8_t *out, size_t out_length,
                                    const uint8_t *store, size_t store_length);

/* Serves one event. The store is written only by an accepted save, load word or LSS store (17h); the
 * output only in its first count * 12 bytes. */
seumhwari_answer seumhwari_event(const uint8_t *event, size_t event_length,
                                 seumhwari_state state,
                                 uint8_t *out, size_t out_length,
                                 uint8_t *store, size_t store_length);

/* ---- The layout that the archive was built with. A compiler that lays a struct out otherwise stops
 * here. */

#ifdef __cplusplus
#define SEUMHWARI_LAID_OUT(test) static_assert(test, #test)
#else
#define SEUMHWARI_LAID_OUT(test) _Static_assert(test, #test)
#endif
#define SEUMHWARI_SIZE(type, size) SEUMHWARI_LAID_OUT(sizeof(type) == (size))
#define SEUMHWARI_PLACE(type, field, place) SEUMHWARI_LAID_OUT(offsetof(type, field) == (place))

SEUMHWARI_SIZE(seumhwari_identity, 16);
SEUMHWARI_PLACE(seumhwari_identity, vendor, 0);
SEUMHWARI_PLACE(seumhwari_identity, product, 4);
SEUMHWARI_PLACE(seumhwari_identity, revision, 8);
SEUMHWARI_PLACE(seumhwari_identity, serial, 12);

SEUMHWARI_SIZE(seumhwari_srdo, 16);
SEUMHWARI_PLACE(seumhwari_srdo, direction, 0);
SEUMHWARI_PLACE(seumhwari_srdo, refresh, 2);
SEUMHWARI_PLACE(seumhwari_srdo, validation, 4);
SEUMHWARI_PLACE(seumhwari_srdo, first, 8);
SEUMHWARI_PLACE(seumhwari_srdo, second, 12);

SEUMHWARI_SIZE(seumhwari_tpdo, 4);
SEUMHWARI_PLACE(seumhwari_tpdo, kind, 0);
SEUMHWARI_PLACE(seumhwari_tpdo, period, 2);

SEUMHWARI_SIZE(seumhwari_communication, 28);
SEUMHWARI_PLACE(seumhwari_communication, heartbeat, 0);
SEUMHWARI_PLACE(seumhwari_communication, srdo, 4);
SEUMHWARI_PLACE(seumhwari_communication, tpdo, 20);
SEUMHWARI_PLACE(seumhwari_communication, valid, 24);
SEUMHWARI_PLACE(seumhwari_communication, signature, 26);

SEUMHWARI_SIZE(seumhwari_scaling, 12);
SEUMHWARI_PLACE(seumhwari_scaling, low, 0);
SEUMHWARI_PLACE(seumhwari_scaling, high, 4);
SEUMHWARI_PLACE(seumhwari_scaling, offset, 8);

SEUMHWARI_SIZE(seumhwari_application, 20);
SEUMHWARI_PLACE(seumhwari_application, autostart, 0);
SEUMHWARI_PLACE(seumhwari_application, scaling, 4);
SEUMHWARI_PLACE(seumhwari_application, digits, 16);
SEUMHWARI_PLACE(seumhwari_application, valid, 17);
SEUMHWARI_PLACE(seumhwari_application, signature, 18);

SEUMHWARI_SIZE(seumhwari_settings, 48);
SEUMHWARI_PLACE(seumhwari_settings, communication, 0);
SEUMHWARI_PLACE(seumhwari_settings, application, 28);

SEUMHWARI_SIZE(seumhwari_address, 2);
SEUMHWARI_PLACE(seumhwari_address, id, 0);
SEUMHWARI_PLACE(seumhwari_address, bit, 1);

SEUMHWARI_SIZE(seumhwari_timers, 8);
SEUMHWARI_PLACE(seumhwari_timers, clock, 0);
SEUMHWARI_PLACE(seumhwari_timers, heartbeat, 2);
SEUMHWARI_PLACE(seumhwari_timers, tpdo, 4);
SEUMHWARI_PLACE(seumhwari_timers, srdo, 6);

SEUMHWARI_SIZE(seumhwari_sending, 2);
SEUMHWARI_PLACE(seumhwari_sending, syncs, 0);
SEUMHWARI_PLACE(seumhwari_sending, sample, 1);

SEUMHWARI_SIZE(seumhwari_selection, 2);
SEUMHWARI_PLACE(seumhwari_selection, configuration, 0);
SEUMHWARI_PLACE(seumhwari_selection, progress, 1);

SEUMHWARI_SIZE(seumhwari_upload, 3);
SEUMHWARI_PLACE(seumhwari_upload, busy, 0);
SEUMHWARI_PLACE(seumhwari_upload, at, 1);
SEUMHWARI_PLACE(seumhwari_upload, toggle, 2);

SEUMHWARI_SIZE(seumhwari_fv, 2);

SEUMHWARI_SIZE(seumhwari_core, 24);
SEUMHWARI_PLACE(seumhwari_core, active, 0);
SEUMHWARI_PLACE(seumhwari_core, pending, 2);
SEUMHWARI_PLACE(seumhwari_core, nmt, 4);
SEUMHWARI_PLACE(seumhwari_core, reported, 5);
SEUMHWARI_PLACE(seumhwari_core, fv, 6);
SEUMHWARI_PLACE(seumhwari_core, timers, 8);
SEUMHWARI_PLACE(seumhwari_core, tpdo, 16);
SEUMHWARI_PLACE(seumhwari_core, lss, 18);
SEUMHWARI_PLACE(seumhwari_core, upload, 20);

SEUMHWARI_SIZE(seumhwari_state, 88);
SEUMHWARI_PLACE(seumhwari_state, identity, 0);
SEUMHWARI_PLACE(seumhwari_state, settings, 16);
SEUMHWARI_PLACE(seumhwari_state, core, 64);

SEUMHWARI_SIZE(seumhwari_answer, 92);
SEUMHWARI_PLACE(seumhwari_answer, number, 0);
SEUMHWARI_PLACE(seumhwari_answer, count, 1);
SEUMHWARI_PLACE(seumhwari_answer, state, 4);

#undef SEUMHWARI_PLACE
#undef SEUMHWARI_SIZE
#undef SEUMHWARI_LAID_OUT

#ifdef __cplusplus
}
#endif

#endif
