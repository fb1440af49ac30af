/* The node by hand, for speed; see fast.h. Three things make it quick: numbers are taken from and put to
 * bytes whole (a frame is two stores, an SDO reply one addition to its request), the reading is computed
 * once for an event and handed on, and EMCY is judged only where the reading or the NMT state has changed,
 * for the state rules say that it is not due elsewhere. */
#include "fast.h"

#include <string.h>

_Static_assert(__BYTE_ORDER__ == __ORDER_LITTLE_ENDIAN__, "numbers are taken from bytes whole");
_Static_assert(sizeof(fast_n) == 2 && sizeof(fast_c) == 21 && sizeof(fast_a) == 17, "the records as stored");

enum { EVENT = 13, FRAME = 12, OUT = 48, STORE = 64 };
enum { STOPPED = 4, OPERATIONAL = 5, PRE_OPERATIONAL = 127 };
enum { VALID = 0xA5 };

/* ---- Numbers in bytes */

static uint16_t load16(const uint8_t *from) { uint16_t n; memcpy(&n, from, sizeof n); return n; }
static uint32_t load32(const uint8_t *from) { uint32_t n; memcpy(&n, from, sizeof n); return n; }
static uint64_t load64(const uint8_t *from) { uint64_t n; memcpy(&n, from, sizeof n); return n; }
static void store16(uint8_t *to, uint16_t n) { memcpy(to, &n, sizeof n); }
static void store32(uint8_t *to, uint32_t n) { memcpy(to, &n, sizeof n); }
static void store64(uint8_t *to, uint64_t n) { memcpy(to, &n, sizeof n); }

static uint32_t bits_of(float value) { uint32_t n; memcpy(&n, &value, sizeof n); return n; }
static float float_of(uint32_t bits) { float value; memcpy(&value, &bits, sizeof value); return value; }

/* ---- Output frames */

typedef struct {
    uint8_t *next;
    uint8_t count;
} sink;

/* CAN-ID, flag 0 and the length are one number, the data bytes another. */
static inline void send(sink *to, uint32_t can_id, uint32_t length, uint64_t data)
{
    store32(to->next, can_id | length << 24);
    store64(to->next + 4, data);
    to->next += FRAME;
    to->count++;
}

/* ---- Validity */

/* The compiler knows this loop: it makes the table of 256 by itself. */
static inline uint16_t crc_from(uint16_t crc, const uint8_t *bytes, size_t length)
{
    for (size_t i = 0; i < length; i++) {
        crc ^= (uint16_t)(bytes[i] << 8);
        for (int bit = 0; bit < 8; bit++)
            crc = (uint16_t)(crc & 0x8000 ? (crc << 1) ^ 0x1021 : crc << 1);
    }
    return crc;
}

/* 6121h, 6123h, 6124h and 6132h, as they lie. */
static bool signed_a(const fast_a *a)
{
    return crc_from(0, (const uint8_t *)a + offsetof(fast_a, low), 13) == a->signature;
}

/* 1301h:1, 2, 3, 5, 6 as they lie, then the mapping; and the COB-IDs are neighbours. */
static bool signed_c(const fast_c *c)
{
    static const uint8_t mapping[11] = { 2, 1, 0x20, 0x01, 0x30, 0x50, 2, 0x20, 0x02, 0x30, 0x50 };
    const uint16_t crc = crc_from(0, (const uint8_t *)c + offsetof(fast_c, direction), 12);
    return c->second == c->first + 1 && crc_from(crc, mapping, sizeof mapping) == c->signature;
}

/* ---- Ranges */

#define MILLION_BITS 0x49742400u /* 1,000,000.0 */
#define FINITE_BITS  0x7F7FFFFFu /* the greatest finite Real32 */

static bool id_ok(uint8_t id) { return (uint8_t)(id - 1) < 127; }
static bool bit_ok(uint8_t bit) { return bit <= 8 && (0x1DD >> bit & 1) != 0; } /* 0, 2, 3, 4, 6, 7, 8 */
static bool first_ok(uint32_t id) { return id - 0x101 <= 0x7E && (id & 1) == 1; }
static bool second_ok(uint32_t id) { return id - 0x102 <= 0x7E && (id & 1) == 0; }
static bool kind_ok(uint32_t kind) { return kind <= 240 || kind >= 252; }
static bool real_ok(float value) { return (bits_of(value) & 0x7FFFFFFF) <= MILLION_BITS; }

static bool c_ok(const fast_c *c)
{
    return id_ok(c->id) && c->direction <= 1 && c->refresh != 0 && c->validation != 0
        && first_ok(c->first) && second_ok(c->second) && kind_ok(c->kind)
        && (c->valid != VALID || signed_c(c));
}

static bool a_ok(const fast_a *a)
{
    return a->autostart <= 1 && real_ok(a->low) && real_ok(a->high) && real_ok(a->offset) && a->digits <= 4
        && (a->valid != VALID || signed_a(a));
}

/* ---- Readings */

typedef struct {
    uint32_t pv;                 /* its bits */
    int32_t integer;
    bool capped;
} reading;

static float scaled(const fast_a *a, uint16_t fv)
{
    const float product = (a->high - a->low) * (float)(fv - 4000);
    return a->low + product / 16000.0f + a->offset;
}

/* In range a PV stays below 2^24, so its last place is worth 1 at most, and 2^-62 of it is nothing. */
static reading read_now(const fast_state *s)
{
    static const uint32_t power[5] = { 1, 10, 100, 1000, 10000 };
    const uint32_t pv = bits_of(scaled(&s->a, s->fv));
    const uint32_t places = 150 - (pv >> 23 & 0xFF);
    const uint64_t times = (uint64_t)((pv & 0x7FFFFF) | 0x800000) * power[s->a.digits];
    const uint64_t size = places > 62 ? 0 : (times + (UINT64_C(1) << places >> 1)) >> places;
    const uint64_t end = UINT64_C(0x7FFFFFFF) + (pv >> 31);
    const bool capped = size > end;
    const uint32_t held = (uint32_t)(capped ? end : size);
    const reading now = { pv, (int32_t)(pv >> 31 ? 0 - held : held), capped };
    return now;
}

/* ---- The store */

enum { TRAILER = 56, ABSENT = 0xFFFF };

/* Where the records lie; null where there is none. */
typedef struct {
    const fast_n *n;
    const fast_c *c;
    const fast_a *a;
} saved;

/* Notes a record that may only be at the end of those before it. */
static inline bool placed(uint16_t place, size_t size, size_t *end)
{
    if (place == ABSENT)
        return true;
    if (place != *end)
        return false;
    *end += size;
    return true;
}

/* From the end of the records, 40 at most, to the trailer; the steps may overlap. */
static bool zeros(const uint8_t *store, size_t end)
{
    uint64_t any = load64(store + TRAILER - 8);
    for (; end < TRAILER - 8; end += 8)
        any |= load64(store + end);
    return any == 0;
}

/* Any content but a whole good image counts as nothing saved. */
static saved records_of(const uint8_t *store)
{
    static const saved nothing;
    const uint16_t place_c = load16(store + TRAILER), place_a = load16(store + TRAILER + 2);
    const uint16_t place_n = load16(store + TRAILER + 4);
    size_t end = 0;
    saved r = nothing;

    if (!placed(place_n, sizeof *r.n, &end) || !placed(place_c, sizeof *r.c, &end)
        || !placed(place_a, sizeof *r.a, &end) || !zeros(store, end)
        || crc_from(0, store, TRAILER + 6) != load16(store + TRAILER + 6))
        return nothing;
    if (place_n != ABSENT)
        r.n = (const fast_n *)store;
    if (place_c != ABSENT)
        r.c = (const fast_c *)(store + place_c);
    if (place_a != ABSENT)
        r.a = (const fast_a *)(store + place_a);
    if ((r.n && !(id_ok(r.n->id) && bit_ok(r.n->bit))) || (r.c && !c_ok(r.c)) || (r.a && !a_ok(r.a)))
        return nothing;
    return r;
}

static inline uint16_t append(uint8_t *image, size_t *end, const void *record, size_t size)
{
    const uint16_t place = (uint16_t)*end;
    if (record == NULL)
        return ABSENT;
    memcpy(image + place, record, size);
    *end += size;
    return place;
}

/* The records may lie in the store itself, so the image is made beside it. */
static void write_store(uint8_t *store, saved r)
{
    uint8_t image[STORE] = { 0 };
    size_t end = 0;
    store16(image + TRAILER + 4, append(image, &end, r.n, sizeof *r.n));
    store16(image + TRAILER, append(image, &end, r.c, sizeof *r.c));
    store16(image + TRAILER + 2, append(image, &end, r.a, sizeof *r.a));
    store16(image + TRAILER + 6, crc_from(0, image, TRAILER + 6));
    memcpy(store, image, STORE);
}

/* 1010h */
static void save(const fast_state *s, uint8_t *store, bool c, bool a)
{
    saved r = records_of(store);
    if (c)
        r.c = &s->c;
    if (a)
        r.a = &s->a;
    write_store(store, r);
}

/* 1011h */
static void load_defaults(fast_state *s, uint8_t *store, bool c, bool a)
{
    saved r = records_of(store);
    if (c) {
        r.c = NULL;
        s->c.valid = 0;
    }
    if (a) {
        r.a = NULL;
        s->a.valid = 0;
    }
    write_store(store, r);
}

/* ---- NMT and resets */

static void close_upload(fast_state *s)
{
    s->busy = false;
    s->at = 0;
    s->toggle = 0;
}

static void end_lss(fast_state *s)
{
    s->configuration = false;
    s->progress = 0;
}

static void restart_tpdo(fast_state *s)
{
    s->tpdo_start = s->clock;
    s->syncs = 0;
    s->sample = false;
}

static bool start_allowed(const fast_state *s)
{
    return s->a.valid == VALID && (s->c.direction == 0 || s->c.valid == VALID);
}

/* Not Stopped, that is for the caller to know. */
static void emergency(fast_state *s, bool capped, sink *to)
{
    if (capped == s->reported)
        return;
    s->reported = capped;
    send(to, 0x80u + s->c.id, 8, capped ? 0x81FF01 : 0);
}

static void start(fast_state *s)
{
    if (s->nmt == OPERATIONAL || !start_allowed(s))
        return;
    if (s->nmt == PRE_OPERATIONAL)
        end_lss(s);
    s->nmt = OPERATIONAL;
    s->srdo_start = s->clock;
    restart_tpdo(s);
}

static void default_cob_ids(fast_c *c)
{
    const uint32_t id = c->id > 64 ? 64 : c->id;
    c->first = 0xFF + 2 * id;
    c->second = 0x100 + 2 * id;
}

static void load_c(fast_c *c, const fast_c *record, uint8_t id)
{
    static const fast_c factory = { .direction = 1, .refresh = 25, .validation = 20, .kind = 254,
                                    .period = 100 };
    *c = record ? *record : factory;
    if (c->id == id)
        return;
    c->id = id; /* the factory block, or saved under another Node-ID */
    c->valid = 0;
    default_cob_ids(c);
}

static void reset_communication(fast_state *s, const fast_c *record, sink *to)
{
    load_c(&s->c, record, s->pending.id);
    send(to, 0x700u + s->c.id, 1, 0);
    s->nmt = PRE_OPERATIONAL;
    close_upload(s);
    end_lss(s);
    s->reported = false;
    s->heartbeat_start = s->clock;
    s->srdo_start = s->clock;
    restart_tpdo(s);
    if (s->a.autostart == 1)
        start(s);
    emergency(s, read_now(s).capped, to);
}

static void reset_node(fast_state *s, saved r, sink *to)
{
    static const fast_a factory = { .high = 160.0f, .digits = 2 };
    static const fast_n first = { 1, 3 };
    s->fv = 0;
    s->a = r.a ? *r.a : factory;
    s->pending = r.n ? *r.n : first;
    s->active_bit = s->pending.bit;
    reset_communication(s, r.c, to);
}

static void nmt_command(fast_state *s, const uint8_t *data, const uint8_t *store, sink *to)
{
    if (data[1] != 0 && data[1] != s->c.id)
        return;
    const uint8_t before = s->nmt;
    switch (data[0]) {
    case 1:
        start(s);
        break;
    case 2:
        if (before == PRE_OPERATIONAL)
            end_lss(s);
        close_upload(s);
        s->nmt = STOPPED;
        return;
    case 128:
        s->nmt = PRE_OPERATIONAL;
        break;
    case 129:
        reset_node(s, records_of(store), to);
        return;
    case 130:
        reset_communication(s, records_of(store).c, to);
        return;
    default:
        return;
    }
    if (before == STOPPED && s->nmt != STOPPED) /* samples may have come while it was silent */
        emergency(s, read_now(s).capped, to);
}

/* ---- Time, SYNC, TPDO, SRDO */

static inline bool fires(uint16_t clock, uint16_t *since, uint16_t period)
{
    if ((uint16_t)(clock - *since) < period)
        return false;
    *since = clock;
    return true;
}

static void send_tpdo(fast_state *s, const reading *now, sink *to)
{
    s->sample = false;
    send(to, 0x180u + s->c.id, 4, (uint32_t)now->integer);
}

static uint8_t tick(fast_state *s, const reading *now, uint8_t *out)
{
    sink to = { out, 0 };
    const uint16_t clock = ++s->clock;
    if (s->c.heartbeat != 0 && fires(clock, &s->heartbeat_start, s->c.heartbeat))
        send(&to, 0x700u + s->c.id, 1, s->nmt);
    if (s->nmt != OPERATIONAL)
        return to.count;
    if (s->c.kind >= 254 && s->c.period != 0 && fires(clock, &s->tpdo_start, s->c.period))
        send_tpdo(s, now, &to);
    if (s->c.direction == 1 && fires(clock, &s->srdo_start, s->c.refresh) && !now->capped) {
        send(&to, s->c.first, 4, now->pv);
        send(&to, s->c.second, 4, ~now->pv);
    }
    return to.count;
}

static uint8_t sampled(fast_state *s, uint16_t fv, uint8_t *out)
{
    sink to = { out, 0 };
    s->fv = fv;
    s->sample = true;
    if (s->nmt != STOPPED)
        emergency(s, read_now(s).capped, &to);
    return to.count;
}

static void sync(fast_state *s, const reading *now, sink *to)
{
    if (s->nmt != OPERATIONAL || s->c.kind > 240)
        return;
    if (s->c.kind == 0) {
        if (s->sample)
            send_tpdo(s, now, to);
    } else if (++s->syncs == s->c.kind) {
        s->syncs = 0;
        send_tpdo(s, now, to);
    }
}

static void tpdo_asked(fast_state *s, const reading *now, sink *to)
{
    if (s->nmt == OPERATIONAL && (s->c.kind == 252 || s->c.kind == 253))
        send_tpdo(s, now, to);
}

/* ---- Dictionary: every entry has a number, a length and a kind of access */

typedef enum {
    E1000, E1001, E1005, E1008, E1010_0, E1010_1, E1010_2, E1010_3, E1011_0, E1011_1, E1011_2, E1011_3, E1014,
    E1017, E1018_0, E1018_1, E1018_2, E1018_3, E1018_4, E1200_0, E1200_1, E1200_2, E1301_0, E1301_1, E1301_2,
    E1301_3, E1301_4, E1301_5, E1301_6, E1381_0, E1381_1, E1381_2, E13FE, E13FF_0, E13FF_1, E1800_0, E1800_1,
    E1800_2, E1800_3, E1800_4, E1800_5, E1A00_0, E1A00_1, E2330, E5030_0, E5030_1, E5030_2, E51FE, E51FF_0,
    E51FF_1, E6121_0, E6121_1, E6123_0, E6123_1, E6124_0, E6124_1, E6130_0, E6130_1, E6131_0, E6131_1, E6132_0,
    E6132_1, E7100_0, E7100_1, E7120_0, E7120_1, E7122_0, E7122_1, E9130_0, E9130_1, NO_SUB, NO_OBJECT
} entry;

enum { READ_ONLY = 0, OPEN = 8, STARRED = 16, LENGTH = 7 }; /* the access, added to the length */

static const uint8_t shape[NO_SUB] = {
    [E1000] = 4, [E1001] = 1, [E1005] = 4, [E1008] = 0,
    [E1010_0] = 1, [E1010_1] = 4 + STARRED, [E1010_2] = 4 + STARRED, [E1010_3] = 4 + STARRED,
    [E1011_0] = 1, [E1011_1] = 4 + STARRED, [E1011_2] = 4 + STARRED, [E1011_3] = 4 + STARRED,
    [E1014] = 4, [E1017] = 2 + OPEN,
    [E1018_0] = 1, [E1018_1] = 4, [E1018_2] = 4, [E1018_3] = 4, [E1018_4] = 4,
    [E1200_0] = 1, [E1200_1] = 4, [E1200_2] = 4,
    [E1301_0] = 1, [E1301_1] = 1 + STARRED, [E1301_2] = 2 + STARRED, [E1301_3] = 1 + STARRED, [E1301_4] = 1,
    [E1301_5] = 4 + STARRED, [E1301_6] = 4 + STARRED,
    [E1381_0] = 1, [E1381_1] = 4, [E1381_2] = 4,
    [E13FE] = 1 + STARRED, [E13FF_0] = 1, [E13FF_1] = 2 + STARRED,
    [E1800_0] = 1, [E1800_1] = 4, [E1800_2] = 1 + OPEN, [E1800_5] = 2 + OPEN,
    [E1A00_0] = 1, [E1A00_1] = 4, [E2330] = 1 + OPEN,
    [E5030_0] = 1, [E5030_1] = 4, [E5030_2] = 4,
    [E51FE] = 1 + STARRED, [E51FF_0] = 1, [E51FF_1] = 2 + STARRED,
    [E6121_0] = 1, [E6121_1] = 4 + STARRED, [E6123_0] = 1, [E6123_1] = 4 + STARRED,
    [E6124_0] = 1, [E6124_1] = 4 + STARRED, [E6130_0] = 1, [E6130_1] = 4,
    [E6131_0] = 1, [E6131_1] = 4, [E6132_0] = 1, [E6132_1] = 1 + STARRED,
    [E7100_0] = 1, [E7100_1] = 2, [E7120_0] = 1, [E7120_1] = 2, [E7122_0] = 1, [E7122_1] = 2,
    [E9130_0] = 1, [E9130_1] = 4,
};

static inline entry sub_of(entry first, entry last, uint32_t sub)
{
    return sub <= last - first ? first + sub : NO_SUB;
}

static entry find(uint32_t index, uint32_t sub)
{
    switch (index) {
    case 0x1000: return sub_of(E1000, E1000, sub);
    case 0x1001: return sub_of(E1001, E1001, sub);
    case 0x1005: return sub_of(E1005, E1005, sub);
    case 0x1008: return sub_of(E1008, E1008, sub);
    case 0x1010: return sub_of(E1010_0, E1010_3, sub);
    case 0x1011: return sub_of(E1011_0, E1011_3, sub);
    case 0x1014: return sub_of(E1014, E1014, sub);
    case 0x1017: return sub_of(E1017, E1017, sub);
    case 0x1018: return sub_of(E1018_0, E1018_4, sub);
    case 0x1200: return sub_of(E1200_0, E1200_2, sub);
    case 0x1301: return sub_of(E1301_0, E1301_6, sub);
    case 0x1381: return sub_of(E1381_0, E1381_2, sub);
    case 0x13FE: return sub_of(E13FE, E13FE, sub);
    case 0x13FF: return sub_of(E13FF_0, E13FF_1, sub);
    case 0x1800: return sub == 3 || sub == 4 ? NO_SUB : sub_of(E1800_0, E1800_5, sub);
    case 0x1A00: return sub_of(E1A00_0, E1A00_1, sub);
    case 0x2330: return sub_of(E2330, E2330, sub);
    case 0x5030: return sub_of(E5030_0, E5030_2, sub);
    case 0x51FE: return sub_of(E51FE, E51FE, sub);
    case 0x51FF: return sub_of(E51FF_0, E51FF_1, sub);
    case 0x6121: return sub_of(E6121_0, E6121_1, sub);
    case 0x6123: return sub_of(E6123_0, E6123_1, sub);
    case 0x6124: return sub_of(E6124_0, E6124_1, sub);
    case 0x6130: return sub_of(E6130_0, E6130_1, sub);
    case 0x6131: return sub_of(E6131_0, E6131_1, sub);
    case 0x6132: return sub_of(E6132_0, E6132_1, sub);
    case 0x7100: return sub_of(E7100_0, E7100_1, sub);
    case 0x7120: return sub_of(E7120_0, E7120_1, sub);
    case 0x7122: return sub_of(E7122_0, E7122_1, sub);
    case 0x9130: return sub_of(E9130_0, E9130_1, sub);
    default: return NO_OBJECT;
    }
}

static uint32_t content(const fast_state *s, const reading *now, entry e)
{
    switch (e) {
    case E1000: return 0x00020194;
    case E1001: return now->capped ? 0x81 : 0;
    case E1005: return 0x80;
    case E1008: return 15; /* the size of the name */
    case E1010_0: case E1011_0: return 3;
    case E1014: return 0x80u + s->c.id;
    case E1017: return s->c.heartbeat;
    case E1018_0: return 4;
    case E1018_1: return s->identity.vendor;
    case E1018_2: return s->identity.product;
    case E1018_3: return s->identity.revision;
    case E1018_4: return s->identity.serial;
    case E1200_0: case E1381_0: case E5030_0: return 2;
    case E1200_1: return 0x600u + s->c.id;
    case E1200_2: return 0x580u + s->c.id;
    case E1301_0: return 6;
    case E1301_1: return s->c.direction;
    case E1301_2: return s->c.refresh;
    case E1301_3: return s->c.validation;
    case E1301_4: return 254;
    case E1301_5: return s->c.first;
    case E1301_6: return s->c.second;
    case E1381_1: return 0x50300120;
    case E1381_2: return 0x50300220;
    case E13FE: return s->c.valid;
    case E13FF_1: return s->c.signature;
    case E1800_0: return 5;
    case E1800_1: return 0x180u + s->c.id;
    case E1800_2: return s->c.kind;
    case E1800_5: return s->c.period;
    case E1A00_1: return 0x91300120;
    case E2330: return s->a.autostart;
    case E5030_1: case E6130_1: return now->pv;
    case E5030_2: return ~now->pv;
    case E51FE: return s->a.valid;
    case E51FF_1: return s->a.signature;
    case E6121_1: return bits_of(s->a.low);
    case E6123_1: return bits_of(s->a.high);
    case E6124_1: return bits_of(s->a.offset);
    case E6131_1: return 0x004E0000;
    case E6132_1: return s->a.digits;
    case E7100_1: return s->fv;
    case E7120_1: return 4000;
    case E7122_1: return 20000;
    case E9130_1: return (uint32_t)now->integer;
    default: return 1; /* the other sub 0, and 1010h and 1011h */
    }
}

/* ---- SDO */

#define ABORT_TOGGLE     0x05030000u
#define ABORT_COMMAND    0x05040001u
#define ABORT_READ_ONLY  0x06010002u
#define ABORT_NO_OBJECT  0x06020000u
#define ABORT_NOT_VALID  0x06040043u
#define ABORT_TOO_LONG   0x06070012u
#define ABORT_TOO_SHORT  0x06070013u
#define ABORT_NO_SUB     0x06090011u
#define ABORT_VALUE      0x06090030u
#define ABORT_ABOVE      0x06090031u
#define ABORT_BELOW      0x06090032u
#define ABORT_WORD       0x08000020u
#define ABORT_STATE      0x08000022u

#define WORD_SAVE 0x65766173u
#define WORD_LOAD 0x64616F6Cu

/* A request is its eight data bytes as one number: command, index, sub, content. */
#define NAMED(request) ((request) & 0xFFFFFF00u)
#define NAME_OPEN      0x00100800u /* 1008h:00, so placed */

static inline void reply(const fast_state *s, uint32_t command, uint32_t named, uint32_t content, sink *to)
{
    send(to, 0x580u + s->c.id, 8, (uint64_t)content << 32 | named | command);
}

static void abort_transfer(fast_state *s, uint32_t named, uint32_t code, sink *to)
{
    close_upload(s);
    reply(s, 0x80, named, code, to);
}

static uint32_t missing(entry e)
{
    return e == NO_SUB ? ABORT_NO_SUB : ABORT_NO_OBJECT;
}

/* All checks ahead of the value's. */
static uint32_t check_access(const fast_state *s, entry e, uint32_t command)
{
    if (e >= NO_SUB)
        return missing(e);
    const uint32_t own = shape[e] & LENGTH, access = shape[e] - own;
    if (access == READ_ONLY)
        return ABORT_READ_ONLY;
    if (access == STARRED && s->nmt == OPERATIONAL)
        return ABORT_STATE;
    if ((command & 1) == 0)
        return 0;
    const uint32_t given = 4 - (command >> 2 & 3);
    return given == own ? 0 : given > own ? ABORT_TOO_LONG : ABORT_TOO_SHORT;
}

static uint32_t within(uint32_t value, uint32_t least, uint32_t most)
{
    return value > most ? ABORT_ABOVE : value < least ? ABORT_BELOW : 0;
}

static uint32_t real_code(uint32_t bits)
{
    const uint32_t size = bits & 0x7FFFFFFF;
    if (size > FINITE_BITS)
        return ABORT_VALUE;
    return size <= MILLION_BITS ? 0 : bits >> 31 ? ABORT_BELOW : ABORT_ABOVE;
}

/* The last of the write checks: 0 or the abort code. */
static uint32_t check_value(const fast_state *s, entry e, uint32_t value)
{
    switch (e) {
    case E1010_1: case E1010_2: case E1010_3: return value == WORD_SAVE ? 0 : ABORT_WORD;
    case E1011_1: case E1011_2: case E1011_3: return value == WORD_LOAD ? 0 : ABORT_WORD;
    case E1301_1: case E2330: return within(value, 0, 1);
    case E1301_2: case E1301_3: return within(value, 1, 0xFFFF);
    case E1301_5: return first_ok(value) ? 0 : ABORT_VALUE;
    case E1301_6: return second_ok(value) ? 0 : ABORT_VALUE;
    case E1800_2: return kind_ok(value) ? 0 : ABORT_VALUE;
    case E6121_1: case E6123_1: case E6124_1: return real_code(value);
    case E6132_1: return within(value, 0, 4);
    case E13FE: return value != VALID || signed_c(&s->c) ? 0 : ABORT_NOT_VALID;
    case E51FE: return value != VALID || signed_a(&s->a) ? 0 : ABORT_NOT_VALID;
    default: return 0;
    }
}

/* For what a signature covers: other bytes than before take the validity byte. A Real32 goes by its bits,
 * where 0.0 and -0.0 differ. */
#define SET_C(field, value) (s->c.valid = s->c.field == (value) ? s->c.valid : 0, s->c.field = (value))
#define SET_A(field, value) (s->a.valid = s->a.field == (value) ? s->a.valid : 0, s->a.field = (value))
#define SET_REAL(field, bits) \
    (s->a.valid = bits_of(s->a.field) == (bits) ? s->a.valid : 0, s->a.field = float_of(bits))

/* An accepted write, with all that follows from it but EMCY. */
static void write_entry(fast_state *s, uint8_t *store, entry e, uint32_t value)
{
    switch (e) {
    case E1010_1: save(s, store, true, true); break;
    case E1010_2: save(s, store, true, false); break;
    case E1010_3: save(s, store, false, true); break;
    case E1011_1: load_defaults(s, store, true, true); break;
    case E1011_2: load_defaults(s, store, true, false); break;
    case E1011_3: load_defaults(s, store, false, true); break;
    case E1017: s->c.heartbeat = (uint16_t)value; s->heartbeat_start = s->clock; break;
    case E1301_1: SET_C(direction, (uint8_t)value); break;
    case E1301_2: SET_C(refresh, (uint16_t)value); s->srdo_start = s->clock; break;
    case E1301_3: SET_C(validation, (uint8_t)value); break;
    case E1301_5: SET_C(first, value); break;
    case E1301_6: SET_C(second, value); break;
    case E13FE: s->c.valid = (uint8_t)value; break;
    case E13FF_1: SET_C(signature, (uint16_t)value); break;
    case E1800_2: s->c.kind = (uint8_t)value; restart_tpdo(s); break;
    case E1800_5: s->c.period = (uint16_t)value; restart_tpdo(s); break;
    case E2330: s->a.autostart = (uint8_t)value; break;
    case E51FE: s->a.valid = (uint8_t)value; break;
    case E51FF_1: SET_A(signature, (uint16_t)value); break;
    case E6121_1: SET_REAL(low, value); break;
    case E6123_1: SET_REAL(high, value); break;
    case E6124_1: SET_REAL(offset, value); break;
    case E6132_1: SET_A(digits, (uint8_t)value); break;
    default: break;
    }
}

/* What the reading is made of; all other writes leave EMCY as it was. */
static bool moves_reading(entry e)
{
    return e == E6121_1 || e == E6123_1 || e == E6124_1 || e == E6132_1;
}

static void download(fast_state *s, uint8_t *store, uint64_t request, sink *to)
{
    const uint32_t low = (uint32_t)request;
    entry e = NO_OBJECT;
    uint32_t value = (uint32_t)(request >> 32);
    uint32_t code = ABORT_COMMAND;

    if (low & 2) { /* expedited */
        e = find(low >> 8 & 0xFFFF, low >> 24);
        code = check_access(s, e, low);
    }
    if (code == 0) {
        value &= 0xFFFFFFFFu >> (32 - 8 * (shape[e] & LENGTH));
        code = check_value(s, e, value);
    }
    if (code != 0) {
        abort_transfer(s, NAMED(low), code, to);
        return;
    }
    close_upload(s);
    write_entry(s, store, e, value);
    reply(s, 0x60, NAMED(low), 0, to);
    if (moves_reading(e))
        emergency(s, read_now(s).capped, to);
}

static void upload(fast_state *s, const reading *now, uint64_t request, sink *to)
{
    static const uint8_t command[5] = { 0x41, 0x4F, 0x4B, 0, 0x43 };
    const uint32_t low = (uint32_t)request;
    const entry e = find(low >> 8 & 0xFFFF, low >> 24);

    close_upload(s);
    if (e >= NO_SUB) {
        abort_transfer(s, NAMED(low), missing(e), to);
        return;
    }
    s->busy = e == E1008;
    reply(s, command[shape[e] & LENGTH], NAMED(low), content(s, now, e), to);
}

/* CRADLE-PRESSURE in segments of 7, 7 and 1, each with its command byte in front. */
static void upload_segment(fast_state *s, uint64_t request, sink *to)
{
    static const uint8_t segments[3][8] = {
        { 0x00, 'C', 'R', 'A', 'D', 'L', 'E', '-' },
        { 0x10, 'P', 'R', 'E', 'S', 'S', 'U', 'R' },
        { 0x0D, 'E' },
    };
    if (!s->busy) {
        abort_transfer(s, 0, ABORT_COMMAND, to);
        return;
    }
    if ((request >> 4 & 1) != s->toggle) {
        abort_transfer(s, NAME_OPEN, ABORT_TOGGLE, to);
        return;
    }
    const uint32_t part = s->at == 0 ? 0 : s->at == 7 ? 1 : 2;
    send(to, 0x580u + s->c.id, 8, load64(segments[part]));
    if (part == 2) {
        close_upload(s);
    } else {
        s->at += 7;
        s->toggle ^= 1;
    }
}

static void sdo(fast_state *s, const reading *now, uint8_t *store, uint64_t request, sink *to)
{
    switch ((uint8_t)request >> 5) {
    case 1: download(s, store, request, to); break;
    case 2: upload(s, now, request, to); break;
    case 3: upload_segment(s, request, to); break;
    case 4: close_upload(s); break; /* the client's abort */
    case 0: abort_transfer(s, s->busy ? NAME_OPEN : 0, ABORT_COMMAND, to); break;
    default: abort_transfer(s, NAMED((uint32_t)request), ABORT_COMMAND, to); break;
    }
}

/* ---- LSS */

static inline void lss_answer(uint32_t command, uint32_t content, sink *to)
{
    send(to, 0x7E4, 8, (uint64_t)content << 8 | command);
}

/* 40h to 43h: in order, or the first again. */
static void lss_select(fast_state *s, uint32_t place, uint32_t number, sink *to)
{
    const uint32_t own[4] = { s->identity.vendor, s->identity.product, s->identity.revision, s->identity.serial };
    const uint32_t before = s->progress;
    s->progress = 0;
    if ((place != 0 && place != before) || number != own[place])
        return;
    if (place < 3) {
        s->progress = (uint8_t)(place + 1);
        return;
    }
    s->configuration = true;
    lss_answer(0x44, 0, to);
}

static void lss_configure(fast_state *s, uint8_t *store, const uint8_t *data, sink *to)
{
    switch (data[0]) {
    case 0x11: {
        const bool good = id_ok(data[1]);
        if (good)
            s->pending.id = data[1];
        lss_answer(0x11, !good, to);
        break;
    }
    case 0x13: {
        const bool good = data[1] == 0 && bit_ok(data[2]);
        if (good)
            s->pending.bit = data[2];
        lss_answer(0x13, !good, to);
        break;
    }
    case 0x17: {
        saved r = records_of(store);
        r.n = &s->pending;
        write_store(store, r);
        lss_answer(0x17, 0, to);
        break;
    }
    case 0x5A: lss_answer(0x5A, s->identity.vendor, to); break;
    case 0x5B: lss_answer(0x5B, s->identity.product, to); break;
    case 0x5C: lss_answer(0x5C, s->identity.revision, to); break;
    case 0x5D: lss_answer(0x5D, s->identity.serial, to); break;
    case 0x5E: lss_answer(0x5E, s->c.id, to); break;
    default: break;
    }
}

static void lss(fast_state *s, uint8_t *store, const uint8_t *data, sink *to)
{
    if (s->nmt != PRE_OPERATIONAL)
        return;
    if (data[0] >= 0x40 && data[0] <= 0x43) {
        lss_select(s, data[0] - 0x40u, load32(data + 1), to);
        return;
    }
    s->progress = 0;
    if (data[0] == 0x04) {
        if (data[1] <= 1)
            s->configuration = data[1] == 1;
    } else if (s->configuration) {
        lss_configure(s, store, data, to);
    }
}

/* ---- The state rules, and both calls */

static bool upload_ok(const fast_state *s)
{
    return !s->busy || (s->at == 0 && s->toggle == 0) || (s->at == 7 && s->toggle == 1)
        || (s->at == 14 && s->toggle == 0);
}

/* All rules but the one on the reported flag, which needs the reading, and that needs these. */
static bool rules_kept(const fast_state *s)
{
    const uint8_t nmt = s->nmt, kind = s->c.kind;
    if (nmt != PRE_OPERATIONAL && (s->configuration || (nmt == OPERATIONAL ? !start_allowed(s) : nmt != STOPPED)))
        return false;
    return id_ok(s->pending.id) && bit_ok(s->active_bit) && bit_ok(s->pending.bit) && s->progress <= 3
        && (kind - 1u < 240 ? s->syncs < kind : s->syncs == 0) && upload_ok(s) && c_ok(&s->c) && a_ok(&s->a);
}

/* CAN-ID, flag and length are compared as the one number that they are in the event. This is kept out of the
 * call below, so that a tick saves no registers for the services. */
static __attribute__((noinline)) uint8_t frame(fast_state *s, const reading *now, uint8_t *store,
                                               const uint8_t *event, uint8_t *out)
{
    const uint32_t head = load32(event + 1);
    sink to = { out, 0 };
    if (head == 0x00000080)
        sync(s, now, &to);
    else if (head == 0x08000600u + s->c.id) {
        if (s->nmt != STOPPED)
            sdo(s, now, store, load64(event + 5), &to);
    } else if (head == 0x02000000)
        nmt_command(s, event + 5, store, &to);
    else if ((head & 0xFFFFFF) == 0x00010180u + s->c.id)
        tpdo_asked(s, now, &to);
    else if (head == 0x080007E5)
        lss(s, store, event + 5, &to);
    return to.count;
}

static uint8_t refusal(const uint8_t *event, size_t event_length, size_t out_length, size_t store_length)
{
    if (event_length != EVENT)
        return 1;
    if (event[0] - 1u > 2)
        return 2;
    const uint32_t head = load32(event + 1);
    if (event[0] == 1 && ((head & 0xFEF800) != 0 || head >= 0x09000000))
        return 3;
    return out_length < OUT ? 4 : store_length != STORE ? 5 : 0;
}

fast_answer fast_event(fast_state *s, const uint8_t *event, size_t event_length,
                       uint8_t *out, size_t out_length, uint8_t *store, size_t store_length)
{
    fast_answer answer = { refusal(event, event_length, out_length, store_length), 0 };
    reading now = { 0, 0, false };

    if (answer.number != 0)
        return answer;
    answer.number = 6;
    if (!rules_kept(s))
        return answer;
    if (s->nmt != STOPPED) { /* who is Stopped shows no reading */
        now = read_now(s);
        if (now.capped != s->reported)
            return answer;
    }
    answer.number = 0;
    if (event[0] == 2)
        answer.count = tick(s, &now, out);
    else if (event[0] == 1)
        answer.count = frame(s, &now, store, event, out);
    else
        answer.count = sampled(s, load16(event + 1), out);
    return answer;
}

/* Reset node at clock 0; where that is refused, over nothing saved and unseen. */
fast_answer fast_power_on(fast_state *s, const fast_identity *identity,
                          uint8_t *out, size_t out_length, const uint8_t *store, size_t store_length)
{
    static const saved nothing;
    const fast_state zero = { .identity = *identity };
    uint8_t unseen[OUT];
    const uint8_t number = out_length < OUT ? 4 : store_length != STORE ? 5 : 0;
    sink to = { number == 0 ? out : unseen, 0 };

    *s = zero;
    reset_node(s, number == 0 ? records_of(store) : nothing, &to);
    const fast_answer answer = { number, number == 0 ? to.count : 0 };
    return answer;
}
