/* The node of the requirements page in plain C; see peer.h. The parts follow
 * the page's sections, named at the head of each part. */
#include "peer.h"

#include <string.h>

enum { STOPPED = 4, OPERATIONAL = 5, PRE_OPERATIONAL = 127 };
enum { VALID = 0xA5 };

/* ------------------------------------------------------------------------
 * Bytes: every number travels low byte first.
 */

static void put16(uint8_t *to, uint16_t value)
{
    to[0] = (uint8_t)(value & 0xFFu);
    to[1] = (uint8_t)(value >> 8);
}

static void put32(uint8_t *to, uint32_t value)
{
    put16(to, (uint16_t)(value & 0xFFFFu));
    put16(to + 2, (uint16_t)(value >> 16));
}

static uint16_t get16(const uint8_t *from)
{
    return (uint16_t)(from[0] | ((uint32_t)from[1] << 8));
}

static uint32_t get32(const uint8_t *from)
{
    return get16(from) | ((uint32_t)get16(from + 2) << 16);
}

static uint32_t bits_of(float value)
{
    uint32_t bits;
    memcpy(&bits, &value, sizeof bits);
    return bits;
}

static float float_of(uint32_t bits)
{
    float value;
    memcpy(&value, &bits, sizeof value);
    return value;
}

/* ------------------------------------------------------------------------
 * Events, frames and the answer: writing output frames.
 */

typedef struct {
    uint8_t *out;
    uint8_t count;
} sink;

/* Frame number n goes to the 12 bytes from 12*n on; unused data is zero. */
static void send(sink *to, uint32_t can_id, const uint8_t *data, uint8_t length)
{
    uint8_t *frame = to->out + (size_t)PEER_FRAME_BYTES * to->count;
    memset(frame, 0, PEER_FRAME_BYTES);
    put16(frame, (uint16_t)can_id);
    frame[3] = length;
    memcpy(frame + 4, data, length);
    to->count++;
}

static void send32(sink *to, uint32_t can_id, uint32_t value)
{
    uint8_t data[4];
    put32(data, value);
    send(to, can_id, data, 4);
}

/* ------------------------------------------------------------------------
 * Validity: the CRC and what the two signatures cover.
 */

/* Polynomial 1021h, start 0, high bit first, no final change. */
uint16_t peer_crc(const uint8_t *bytes, size_t length)
{
    uint32_t crc = 0;
    for (size_t i = 0; i < length; i++) {
        crc ^= (uint32_t)bytes[i] << 8;
        for (int bit = 0; bit < 8; bit++) {
            crc <<= 1;
            if (crc & 0x10000u)
                crc ^= 0x11021u;
        }
    }
    return (uint16_t)crc;
}

enum { MAPPED_1 = 0x50300120, MAPPED_2 = 0x50300220 }; /* 1381h:1 and :2 */

/* 51FEh may be A5h: 51FFh:1 signs 6121h, 6123h, 6124h, 6132h. */
static bool signed_a(const peer_state *s)
{
    uint8_t covered[13];
    put32(covered + 0, bits_of(s->low));
    put32(covered + 4, bits_of(s->high));
    put32(covered + 8, bits_of(s->offset));
    covered[12] = s->digits;
    return s->signature_a == peer_crc(covered, sizeof covered);
}

/* 13FEh may be A5h: 13FFh:1 signs 1301h:1, 2, 3, 5, 6 and the mapping, and
 * the COB-IDs are neighbours. */
static bool signed_c(const peer_state *s)
{
    uint8_t covered[23];
    covered[0] = s->direction;
    put16(covered + 1, s->refresh);
    covered[3] = s->validation;
    put32(covered + 4, s->first);
    put32(covered + 8, s->second);
    covered[12] = 2;
    covered[13] = 1;
    put32(covered + 14, MAPPED_1);
    covered[18] = 2;
    put32(covered + 19, MAPPED_2);
    return s->signature_c == peer_crc(covered, sizeof covered)
        && s->second == s->first + 1;
}

/* ------------------------------------------------------------------------
 * Readings.
 */

/* Every step is stored as a Real32 before the next one uses it. */
float peer_pv(float low, float high, float offset, uint16_t fv)
{
    volatile float count = (float)fv;
    volatile float a = high - low;
    volatile float b = count - 4000.0f;
    volatile float c = a * b;
    volatile float d = c / 16000.0f;
    volatile float e = low + d;
    volatile float pv = e + offset;
    return pv;
}

/* The exact PV times 10^k, halves away from zero, held to Integer32.
 *
 * PV is M / 2^149 and |M| is fraction * 2^shift. With n = fraction * 10^k the
 * page's (2*|M|*10^k + 2^149) div 2^150 is n * 2^shift / 2^149, rounded; so it
 * is a plain shift to the left for shift >= 149, and for less a shift to the
 * right by rest = 149 - shift after half a unit, 2^(rest - 1), was added. */
int32_t peer_integer_pv(float pv, uint8_t digits, bool *capped)
{
    static const uint64_t power[5] = { 1, 10, 100, 1000, 10000 };
    const uint32_t bits = bits_of(pv);
    const bool negative = (bits >> 31) != 0;
    const uint32_t exponent = (bits >> 23) & 0xFFu;
    uint64_t fraction = bits & 0x7FFFFFu;
    uint32_t shift = 0;
    if (exponent != 0) {
        fraction |= 0x800000u;
        shift = exponent - 1;
    }

    const uint64_t n = fraction * power[digits <= 4 ? digits : 4]; /* below 2^38 */
    const uint64_t end = negative ? UINT64_C(0x80000000) : UINT64_C(0x7FFFFFFF);
    uint64_t size;
    if (shift >= 149) {
        const uint32_t up = shift - 149;
        size = up > 24 ? end + 1 : n << up; /* n >= 2^23 here: past the end anyway */
    } else {
        const uint32_t rest = 149 - shift;
        size = rest > 40 ? 0 : (n + (UINT64_C(1) << (rest - 1))) >> rest;
    }

    *capped = size > end;
    if (*capped)
        size = end;
    return (int32_t)(negative ? -(int64_t)size : (int64_t)size);
}

static uint32_t pv_bits(const peer_state *s)
{
    return bits_of(peer_pv(s->low, s->high, s->offset, s->fv));
}

static uint32_t integer_pv(const peer_state *s)
{
    bool capped;
    return (uint32_t)peer_integer_pv(float_of(pv_bits(s)), s->digits, &capped);
}

static bool is_capped(const peer_state *s)
{
    bool capped;
    (void)peer_integer_pv(float_of(pv_bits(s)), s->digits, &capped);
    return capped;
}

/* 1001h:0 */
static uint8_t error_register(const peer_state *s)
{
    return is_capped(s) ? 0x81 : 0;
}

/* ------------------------------------------------------------------------
 * Dictionary: ranges and defaults of the saved parameters.
 */

#define MILLION_BITS 0x49742400u /* 1,000,000.0 as Real32 */
#define FINITE_BITS  0x7F7FFFFFu /* the greatest finite Real32 */

/* The size of a Real32 grows with its bits past the sign. */
static bool scale_ok(float value)
{
    return (bits_of(value) & 0x7FFFFFFFu) <= MILLION_BITS;
}

static bool first_ok(uint32_t cob_id)
{
    return cob_id >= 0x101 && cob_id <= 0x17F && cob_id % 2 == 1;
}

static bool second_ok(uint32_t cob_id)
{
    return cob_id >= 0x102 && cob_id <= 0x180 && cob_id % 2 == 0;
}

static bool kind_ok(uint32_t kind)
{
    return kind <= 240 || (kind >= 252 && kind <= 255);
}

static bool bit_index_ok(uint8_t index)
{
    return index == 0 || index == 2 || index == 3 || index == 4
        || index == 6 || index == 7 || index == 8;
}

static bool node_id_ok(uint8_t id)
{
    return id >= 1 && id <= 127;
}

static bool group_c_ok(const peer_state *s)
{
    return s->direction <= 1 && s->refresh >= 1 && s->validation >= 1
        && first_ok(s->first) && second_ok(s->second) && kind_ok(s->kind)
        && (s->valid_c != VALID || signed_c(s));
}

static bool group_a_ok(const peer_state *s)
{
    return s->autostart <= 1 && scale_ok(s->low) && scale_ok(s->high)
        && scale_ok(s->offset) && s->digits <= 4
        && (s->valid_a != VALID || signed_a(s));
}

static uint32_t default_first(uint8_t id)
{
    return id > 64 ? 0x17Fu : 0xFFu + 2u * id;
}

static uint32_t default_second(uint8_t id)
{
    return id > 64 ? 0x180u : 0x100u + 2u * id;
}

static void factory_c(peer_state *s, uint8_t id)
{
    s->heartbeat = 0;
    s->direction = 1;
    s->refresh = 25;
    s->validation = 20;
    s->first = default_first(id);
    s->second = default_second(id);
    s->kind = 254;
    s->period = 100;
    s->valid_c = 0;
    s->signature_c = 0;
}

static void factory_a(peer_state *s)
{
    s->autostart = 0;
    s->low = 0.0f;
    s->high = 160.0f;
    s->offset = 0.0f;
    s->digits = 2;
    s->valid_a = 0;
    s->signature_a = 0;
}

/* ------------------------------------------------------------------------
 * The store.
 */

enum { SIZE_N = 2, SIZE_C = 21, SIZE_A = 17, TRAILER = 56, ABSENT = 0xFFFF };

typedef struct {
    bool has_n, has_c, has_a;
    uint8_t n[SIZE_N], c[SIZE_C], a[SIZE_A];
} records;

static void pack_c(const peer_state *s, uint8_t *record)
{
    record[0] = s->active_id;
    put16(record + 1, s->heartbeat);
    record[3] = s->direction;
    put16(record + 4, s->refresh);
    record[6] = s->validation;
    put32(record + 7, s->first);
    put32(record + 11, s->second);
    record[15] = s->kind;
    put16(record + 16, s->period);
    record[18] = s->valid_c;
    put16(record + 19, s->signature_c);
}

static void unpack_c(peer_state *s, const uint8_t *record)
{
    s->heartbeat = get16(record + 1);
    s->direction = record[3];
    s->refresh = get16(record + 4);
    s->validation = record[6];
    s->first = get32(record + 7);
    s->second = get32(record + 11);
    s->kind = record[15];
    s->period = get16(record + 16);
    s->valid_c = record[18];
    s->signature_c = get16(record + 19);
}

static void pack_a(const peer_state *s, uint8_t *record)
{
    record[0] = s->autostart;
    put32(record + 1, bits_of(s->low));
    put32(record + 5, bits_of(s->high));
    put32(record + 9, bits_of(s->offset));
    record[13] = s->digits;
    record[14] = s->valid_a;
    put16(record + 15, s->signature_a);
}

static void unpack_a(peer_state *s, const uint8_t *record)
{
    s->autostart = record[0];
    s->low = float_of(get32(record + 1));
    s->high = float_of(get32(record + 5));
    s->offset = float_of(get32(record + 9));
    s->digits = record[13];
    s->valid_a = record[14];
    s->signature_a = get16(record + 15);
}

/* The one image that holds these records. */
static void write_store(uint8_t *store, const records *r)
{
    uint16_t place_c = ABSENT, place_a = ABSENT, place_n = ABSENT;
    uint16_t next = 0;
    memset(store, 0, PEER_STORE_BYTES);
    if (r->has_n) {
        place_n = next;
        memcpy(store + next, r->n, SIZE_N);
        next = (uint16_t)(next + SIZE_N);
    }
    if (r->has_c) {
        place_c = next;
        memcpy(store + next, r->c, SIZE_C);
        next = (uint16_t)(next + SIZE_C);
    }
    if (r->has_a) {
        place_a = next;
        memcpy(store + next, r->a, SIZE_A);
    }
    put16(store + TRAILER + 0, place_c);
    put16(store + TRAILER + 2, place_a);
    put16(store + TRAILER + 4, place_n);
    put16(store + TRAILER + 6, peer_crc(store, TRAILER + 6));
}

/* The records of a good store; none at all of any other content. A store is
 * good when writing its records anew gives the same 64 bytes and every record
 * holds legal values. */
static records read_store(const uint8_t *store)
{
    static const records none;
    records r = none;
    uint8_t again[PEER_STORE_BYTES];
    size_t next = 0;

    r.has_c = get16(store + TRAILER + 0) != ABSENT;
    r.has_a = get16(store + TRAILER + 2) != ABSENT;
    r.has_n = get16(store + TRAILER + 4) != ABSENT;
    if (r.has_n) {
        memcpy(r.n, store + next, SIZE_N);
        next += SIZE_N;
    }
    if (r.has_c) {
        memcpy(r.c, store + next, SIZE_C);
        next += SIZE_C;
    }
    if (r.has_a)
        memcpy(r.a, store + next, SIZE_A);

    write_store(again, &r);
    if (memcmp(again, store, PEER_STORE_BYTES) != 0)
        return none;

    peer_state held;
    memset(&held, 0, sizeof held);
    unpack_c(&held, r.c);
    unpack_a(&held, r.a);
    if (r.has_n && !(node_id_ok(r.n[0]) && bit_index_ok(r.n[1])))
        return none;
    if (r.has_c && !(node_id_ok(r.c[0]) && group_c_ok(&held)))
        return none;
    if (r.has_a && !group_a_ok(&held))
        return none;
    return r;
}

/* 1010h: the named groups as they are in force, the other records kept. */
static void save(const peer_state *s, uint8_t *store, bool c, bool a)
{
    records r = read_store(store);
    if (c) {
        r.has_c = true;
        pack_c(s, r.c);
    }
    if (a) {
        r.has_a = true;
        pack_a(s, r.a);
    }
    write_store(store, &r);
}

/* 1011h: the named groups' records go; values stay, validity bytes fall. */
static void load_defaults(peer_state *s, uint8_t *store, bool c, bool a)
{
    records r = read_store(store);
    if (c) {
        r.has_c = false;
        s->valid_c = 0;
    }
    if (a) {
        r.has_a = false;
        s->valid_a = 0;
    }
    write_store(store, &r);
}

/* LSS 17h: the pending pair. */
static void save_pending(const peer_state *s, uint8_t *store)
{
    records r = read_store(store);
    r.has_n = true;
    r.n[0] = s->pending_id;
    r.n[1] = s->pending_bit;
    write_store(store, &r);
}

/* ------------------------------------------------------------------------
 * NMT, time, SYNC.
 */

static void close_upload(peer_state *s)
{
    s->busy = false;
    s->at = 0;
    s->toggle = 0;
}

static void end_lss(peer_state *s)
{
    s->configuration = false;
    s->progress = 0;
}

/* A TPDO restart also forgets earlier samples and SYNCs. */
static void restart_tpdo(peer_state *s)
{
    s->tpdo_start = s->clock;
    s->syncs = 0;
    s->sample = false;
}

static bool start_allowed(const peer_state *s)
{
    return s->valid_a == VALID && (s->direction == 0 || s->valid_c == VALID);
}

/* Leaving Pre-operational, and nothing else, ends LSS here. */
static void change_nmt(peer_state *s, uint8_t next)
{
    if (s->nmt == PRE_OPERATIONAL && next != PRE_OPERATIONAL)
        end_lss(s);
    s->nmt = next;
}

static void start(peer_state *s)
{
    if (s->nmt == OPERATIONAL || !start_allowed(s))
        return;
    change_nmt(s, OPERATIONAL);
    restart_tpdo(s);
    s->srdo_start = s->clock;
}

static void reset_communication(peer_state *s, const records *saved, sink *to)
{
    static const uint8_t boot_up[1] = { 0 };

    s->active_id = s->pending_id;
    if (saved->has_c) {
        unpack_c(s, saved->c);
        if (saved->c[0] != s->active_id) { /* saved under another Node-ID */
            s->first = default_first(s->active_id);
            s->second = default_second(s->active_id);
            s->valid_c = 0;
        }
    } else {
        factory_c(s, s->active_id);
    }
    send(to, 0x700u + s->active_id, boot_up, 1);
    s->nmt = PRE_OPERATIONAL;
    close_upload(s);
    end_lss(s);
    s->reported = false;
    s->heartbeat_start = s->clock;
    s->srdo_start = s->clock;
    restart_tpdo(s);
    if (s->autostart == 1)
        start(s);
}

static void reset_node(peer_state *s, const records *saved, sink *to)
{
    s->fv = 0;
    if (saved->has_a)
        unpack_a(s, saved->a);
    else
        factory_a(s);
    s->pending_id = saved->has_n ? saved->n[0] : 1;
    s->pending_bit = saved->has_n ? saved->n[1] : 3;
    s->active_bit = s->pending_bit;
    reset_communication(s, saved, to);
}

static void nmt_command(peer_state *s, const uint8_t *data, const uint8_t *store, sink *to)
{
    if (data[1] != 0 && data[1] != s->active_id)
        return;
    const records saved = read_store(store);
    switch (data[0]) {
    case 1:
        start(s);
        break;
    case 2:
        change_nmt(s, STOPPED);
        close_upload(s);
        break;
    case 128:
        change_nmt(s, PRE_OPERATIONAL);
        break;
    case 129:
        reset_node(s, &saved, to);
        break;
    case 130:
        reset_communication(s, &saved, to);
        break;
    default:
        break;
    }
}

static void send_tpdo(peer_state *s, sink *to)
{
    send32(to, 0x180u + s->active_id, integer_pv(s));
    s->sample = false;
}

static bool elapsed(const peer_state *s, uint16_t since, uint16_t period)
{
    return (uint16_t)(s->clock - since) >= period;
}

static void tick(peer_state *s, sink *to)
{
    s->clock = (uint16_t)(s->clock + 1u);

    if (s->heartbeat != 0 && elapsed(s, s->heartbeat_start, s->heartbeat)) {
        s->heartbeat_start = s->clock;
        send(to, 0x700u + s->active_id, &s->nmt, 1);
    }
    if (s->nmt != OPERATIONAL)
        return;
    if (s->kind >= 254 && s->period != 0 && elapsed(s, s->tpdo_start, s->period)) {
        s->tpdo_start = s->clock;
        send_tpdo(s, to);
    }
    if (s->direction == 1 && elapsed(s, s->srdo_start, s->refresh)) {
        s->srdo_start = s->clock;
        if (!is_capped(s)) {
            send32(to, s->first, pv_bits(s));
            send32(to, s->second, ~pv_bits(s));
        }
    }
}

static void sync(peer_state *s, sink *to)
{
    if (s->nmt != OPERATIONAL)
        return;
    if (s->kind == 0) {
        if (s->sample)
            send_tpdo(s, to);
    } else if (s->kind <= 240) {
        s->syncs = (uint8_t)(s->syncs + 1u);
        if (s->syncs >= s->kind) {
            s->syncs = 0;
            send_tpdo(s, to);
        }
    }
}

static void tpdo_asked(peer_state *s, sink *to)
{
    if (s->nmt == OPERATIONAL && (s->kind == 252 || s->kind == 253))
        send_tpdo(s, to);
}

/* The last word of every event. */
static void emergency(peer_state *s, sink *to)
{
    const bool capped = is_capped(s);
    if (s->nmt == STOPPED || capped == s->reported)
        return;
    uint8_t data[8] = { 0 };
    put16(data, capped ? 0xFF01 : 0x0000);
    data[2] = error_register(s);
    send(to, 0x80u + s->active_id, data, 8);
    s->reported = capped;
}

/* ------------------------------------------------------------------------
 * Dictionary: the entries.
 */

typedef enum { U8 = 1, U16 = 2, U32 = 4, I32 = 5, REAL32 = 6, STRING = 7 } type;

typedef enum {
    FIXED,  /* read-only, the number in the row */
    LIVE,   /* read-only, from the state */
    OPEN,   /* read and write */
    STARRED /* read and write, not written while Operational */
} access;

typedef struct {
    uint16_t index;
    uint8_t sub;
    type kind;
    access how;
    uint32_t fixed;
} entry;

static const char NAME[] = "CRADLE-PRESSURE";
enum { NAME_BYTES = sizeof NAME - 1 };

static const entry dictionary[] = {
    { 0x1000, 0, U32, FIXED, 0x00020194 },
    { 0x1001, 0, U8, LIVE, 0 },
    { 0x1005, 0, U32, FIXED, 0x80 },
    { 0x1008, 0, STRING, FIXED, 0 },
    { 0x1010, 0, U8, FIXED, 3 },
    { 0x1010, 1, U32, STARRED, 0 },
    { 0x1010, 2, U32, STARRED, 0 },
    { 0x1010, 3, U32, STARRED, 0 },
    { 0x1011, 0, U8, FIXED, 3 },
    { 0x1011, 1, U32, STARRED, 0 },
    { 0x1011, 2, U32, STARRED, 0 },
    { 0x1011, 3, U32, STARRED, 0 },
    { 0x1014, 0, U32, LIVE, 0 },
    { 0x1017, 0, U16, OPEN, 0 },
    { 0x1018, 0, U8, FIXED, 4 },
    { 0x1018, 1, U32, LIVE, 0 },
    { 0x1018, 2, U32, LIVE, 0 },
    { 0x1018, 3, U32, LIVE, 0 },
    { 0x1018, 4, U32, LIVE, 0 },
    { 0x1200, 0, U8, FIXED, 2 },
    { 0x1200, 1, U32, LIVE, 0 },
    { 0x1200, 2, U32, LIVE, 0 },
    { 0x1301, 0, U8, FIXED, 6 },
    { 0x1301, 1, U8, STARRED, 0 },
    { 0x1301, 2, U16, STARRED, 0 },
    { 0x1301, 3, U8, STARRED, 0 },
    { 0x1301, 4, U8, FIXED, 254 },
    { 0x1301, 5, U32, STARRED, 0 },
    { 0x1301, 6, U32, STARRED, 0 },
    { 0x1381, 0, U8, FIXED, 2 },
    { 0x1381, 1, U32, FIXED, MAPPED_1 },
    { 0x1381, 2, U32, FIXED, MAPPED_2 },
    { 0x13FE, 0, U8, STARRED, 0 },
    { 0x13FF, 0, U8, FIXED, 1 },
    { 0x13FF, 1, U16, STARRED, 0 },
    { 0x1800, 0, U8, FIXED, 5 },
    { 0x1800, 1, U32, LIVE, 0 },
    { 0x1800, 2, U8, OPEN, 0 },
    { 0x1800, 5, U16, OPEN, 0 },
    { 0x1A00, 0, U8, FIXED, 1 },
    { 0x1A00, 1, U32, FIXED, 0x91300120 },
    { 0x2330, 0, U8, OPEN, 0 },
    { 0x5030, 0, U8, FIXED, 2 },
    { 0x5030, 1, U32, LIVE, 0 },
    { 0x5030, 2, U32, LIVE, 0 },
    { 0x51FE, 0, U8, STARRED, 0 },
    { 0x51FF, 0, U8, FIXED, 1 },
    { 0x51FF, 1, U16, STARRED, 0 },
    { 0x6121, 0, U8, FIXED, 1 },
    { 0x6121, 1, REAL32, STARRED, 0 },
    { 0x6123, 0, U8, FIXED, 1 },
    { 0x6123, 1, REAL32, STARRED, 0 },
    { 0x6124, 0, U8, FIXED, 1 },
    { 0x6124, 1, REAL32, STARRED, 0 },
    { 0x6130, 0, U8, FIXED, 1 },
    { 0x6130, 1, REAL32, LIVE, 0 },
    { 0x6131, 0, U8, FIXED, 1 },
    { 0x6131, 1, U32, FIXED, 0x004E0000 },
    { 0x6132, 0, U8, FIXED, 1 },
    { 0x6132, 1, U8, STARRED, 0 },
    { 0x7100, 0, U8, FIXED, 1 },
    { 0x7100, 1, U16, LIVE, 0 },
    { 0x7120, 0, U8, FIXED, 1 },
    { 0x7120, 1, U16, FIXED, 4000 },
    { 0x7122, 0, U8, FIXED, 1 },
    { 0x7122, 1, U16, FIXED, 20000 },
    { 0x9130, 0, U8, FIXED, 1 },
    { 0x9130, 1, I32, LIVE, 0 },
};

#define KEY(index, sub) (((uint32_t)(index) << 8) | (sub))

static uint8_t width(type kind)
{
    return kind == U8 ? 1 : kind == U16 ? 2 : 4;
}

/* The value's bits, in the low bytes. */
static uint32_t read_entry(const peer_state *s, const entry *e)
{
    if (e->how == FIXED)
        return e->fixed;
    switch (KEY(e->index, e->sub)) {
    case KEY(0x1001, 0): return error_register(s);
    case KEY(0x1010, 1): case KEY(0x1010, 2): case KEY(0x1010, 3): return 1;
    case KEY(0x1011, 1): case KEY(0x1011, 2): case KEY(0x1011, 3): return 1;
    case KEY(0x1014, 0): return 0x80u + s->active_id;
    case KEY(0x1017, 0): return s->heartbeat;
    case KEY(0x1018, 1): return s->identity.vendor;
    case KEY(0x1018, 2): return s->identity.product;
    case KEY(0x1018, 3): return s->identity.revision;
    case KEY(0x1018, 4): return s->identity.serial;
    case KEY(0x1200, 1): return 0x600u + s->active_id;
    case KEY(0x1200, 2): return 0x580u + s->active_id;
    case KEY(0x1301, 1): return s->direction;
    case KEY(0x1301, 2): return s->refresh;
    case KEY(0x1301, 3): return s->validation;
    case KEY(0x1301, 5): return s->first;
    case KEY(0x1301, 6): return s->second;
    case KEY(0x13FE, 0): return s->valid_c;
    case KEY(0x13FF, 1): return s->signature_c;
    case KEY(0x1800, 1): return 0x180u + s->active_id;
    case KEY(0x1800, 2): return s->kind;
    case KEY(0x1800, 5): return s->period;
    case KEY(0x2330, 0): return s->autostart;
    case KEY(0x5030, 1): return pv_bits(s);
    case KEY(0x5030, 2): return ~pv_bits(s);
    case KEY(0x51FE, 0): return s->valid_a;
    case KEY(0x51FF, 1): return s->signature_a;
    case KEY(0x6121, 1): return bits_of(s->low);
    case KEY(0x6123, 1): return bits_of(s->high);
    case KEY(0x6124, 1): return bits_of(s->offset);
    case KEY(0x6130, 1): return pv_bits(s);
    case KEY(0x6132, 1): return s->digits;
    case KEY(0x7100, 1): return s->fv;
    case KEY(0x9130, 1): return integer_pv(s);
    default: return 0;
    }
}

/* ------------------------------------------------------------------------
 * SDO.
 */

#define ABORT_TOGGLE     0x05030000u
#define ABORT_COMMAND    0x05040001u
#define ABORT_READ_ONLY  0x06010002u
#define ABORT_NO_OBJECT  0x06020000u
#define ABORT_NOT_VALID  0x06040043u
#define ABORT_TOO_LONG   0x06070012u
#define ABORT_TOO_SHORT  0x06070013u
#define ABORT_NO_SUB     0x06090011u
#define ABORT_VALUE      0x06090030u
#define ABORT_ABOVE      0x06090031u
#define ABORT_BELOW      0x06090032u
#define ABORT_WORD       0x08000020u
#define ABORT_STATE      0x08000022u

#define WORD_SAVE 0x65766173u
#define WORD_LOAD 0x64616F6Cu

static uint32_t within(uint32_t value, uint32_t least, uint32_t most)
{
    return value > most ? ABORT_ABOVE : value < least ? ABORT_BELOW : 0;
}

/* The last of the write checks: 0, or the abort code for this value. */
static uint32_t check_value(const peer_state *s, const entry *e, uint32_t value)
{
    switch (KEY(e->index, e->sub)) {
    case KEY(0x1010, 1): case KEY(0x1010, 2): case KEY(0x1010, 3):
        return value == WORD_SAVE ? 0 : ABORT_WORD;
    case KEY(0x1011, 1): case KEY(0x1011, 2): case KEY(0x1011, 3):
        return value == WORD_LOAD ? 0 : ABORT_WORD;
    case KEY(0x1301, 1):
    case KEY(0x2330, 0):
        return within(value, 0, 1);
    case KEY(0x1301, 2):
        return within(value, 1, 65535);
    case KEY(0x1301, 3):
        return within(value, 1, 255);
    case KEY(0x1301, 5):
        return first_ok(value) ? 0 : ABORT_VALUE;
    case KEY(0x1301, 6):
        return second_ok(value) ? 0 : ABORT_VALUE;
    case KEY(0x1800, 2):
        return kind_ok(value) ? 0 : ABORT_VALUE;
    case KEY(0x6132, 1):
        return within(value, 0, 4);
    case KEY(0x6121, 1): case KEY(0x6123, 1): case KEY(0x6124, 1): {
        const uint32_t size = value & 0x7FFFFFFFu;
        if (size > FINITE_BITS)
            return ABORT_VALUE;
        if (size > MILLION_BITS)
            return (value >> 31) != 0 ? ABORT_BELOW : ABORT_ABOVE;
        return 0;
    }
    case KEY(0x13FE, 0):
        return value == VALID && !signed_c(s) ? ABORT_NOT_VALID : 0;
    case KEY(0x51FE, 0):
        return value == VALID && !signed_a(s) ? ABORT_NOT_VALID : 0;
    default:
        return 0; /* all values are in range */
    }
}

/* An accepted write with all that follows from it. */
static void write_entry(peer_state *s, uint8_t *store, const entry *e, uint32_t value)
{
    const bool changed = read_entry(s, e) != value;
    bool covered_c = false, covered_a = false;

    switch (KEY(e->index, e->sub)) {
    case KEY(0x1010, 1): save(s, store, true, true); break;
    case KEY(0x1010, 2): save(s, store, true, false); break;
    case KEY(0x1010, 3): save(s, store, false, true); break;
    case KEY(0x1011, 1): load_defaults(s, store, true, true); break;
    case KEY(0x1011, 2): load_defaults(s, store, true, false); break;
    case KEY(0x1011, 3): load_defaults(s, store, false, true); break;

    case KEY(0x1017, 0):
        s->heartbeat = (uint16_t)value;
        s->heartbeat_start = s->clock;
        break;
    case KEY(0x1800, 2):
        s->kind = (uint8_t)value;
        restart_tpdo(s);
        break;
    case KEY(0x1800, 5):
        s->period = (uint16_t)value;
        restart_tpdo(s);
        break;
    case KEY(0x2330, 0): s->autostart = (uint8_t)value; break;
    case KEY(0x13FE, 0): s->valid_c = (uint8_t)value; break;
    case KEY(0x51FE, 0): s->valid_a = (uint8_t)value; break;

    case KEY(0x1301, 1): s->direction = (uint8_t)value; covered_c = true; break;
    case KEY(0x1301, 2):
        s->refresh = (uint16_t)value;
        s->srdo_start = s->clock;
        covered_c = true;
        break;
    case KEY(0x1301, 3): s->validation = (uint8_t)value; covered_c = true; break;
    case KEY(0x1301, 5): s->first = value; covered_c = true; break;
    case KEY(0x1301, 6): s->second = value; covered_c = true; break;
    case KEY(0x13FF, 1): s->signature_c = (uint16_t)value; covered_c = true; break;

    case KEY(0x6121, 1): s->low = float_of(value); covered_a = true; break;
    case KEY(0x6123, 1): s->high = float_of(value); covered_a = true; break;
    case KEY(0x6124, 1): s->offset = float_of(value); covered_a = true; break;
    case KEY(0x6132, 1): s->digits = (uint8_t)value; covered_a = true; break;
    case KEY(0x51FF, 1): s->signature_a = (uint16_t)value; covered_a = true; break;
    default: break;
    }

    if (changed && covered_c)
        s->valid_c = 0;
    if (changed && covered_a)
        s->valid_a = 0;
}

/* 0 and the entry, or the abort code for a missing object or sub. */
static uint32_t find(uint16_t index, uint8_t sub, const entry **found)
{
    uint32_t code = ABORT_NO_OBJECT;
    for (size_t i = 0; i < sizeof dictionary / sizeof dictionary[0]; i++) {
        if (dictionary[i].index != index)
            continue;
        code = ABORT_NO_SUB;
        if (dictionary[i].sub == sub) {
            *found = &dictionary[i];
            return 0;
        }
    }
    return code;
}

/* Command byte, index, sub and four bytes of content. */
static void reply(const peer_state *s, sink *to, uint8_t command, uint16_t index,
                  uint8_t sub, uint32_t content)
{
    uint8_t data[8];
    data[0] = command;
    put16(data + 1, index);
    data[3] = sub;
    put32(data + 4, content);
    send(to, 0x580u + s->active_id, data, 8);
}

static void abort_transfer(peer_state *s, sink *to, uint16_t index, uint8_t sub, uint32_t code)
{
    close_upload(s);
    reply(s, to, 0x80, index, sub, code);
}

static uint32_t check_download(const peer_state *s, const uint8_t *data, const entry **found,
                               uint32_t *value)
{
    const uint32_t missing = find(get16(data + 1), data[3], found);
    if (missing != 0)
        return missing;
    const entry *e = *found;
    if (e->how == FIXED || e->how == LIVE)
        return ABORT_READ_ONLY;
    if (e->how == STARRED && s->nmt == OPERATIONAL)
        return ABORT_STATE;

    const uint8_t own = width(e->kind);
    const bool indicated = (data[0] & 0x01) != 0;
    const uint8_t given = indicated ? (uint8_t)(4 - ((data[0] >> 2) & 3)) : own;
    if (given > own)
        return ABORT_TOO_LONG;
    if (given < own)
        return ABORT_TOO_SHORT;

    uint8_t content[4] = { 0 };
    memcpy(content, data + 4, own);
    *value = get32(content);
    return check_value(s, e, *value);
}

static void download(peer_state *s, uint8_t *store, const uint8_t *data, sink *to)
{
    const uint16_t index = get16(data + 1);
    const entry *e = NULL;
    uint32_t value = 0;
    uint32_t code = ABORT_COMMAND;

    close_upload(s);
    if ((data[0] & 0x02) != 0) /* expedited */
        code = check_download(s, data, &e, &value);
    if (code != 0) {
        abort_transfer(s, to, index, data[3], code);
        return;
    }
    write_entry(s, store, e, value);
    reply(s, to, 0x60, index, data[3], 0);
}

static void upload(peer_state *s, const uint8_t *data, sink *to)
{
    const uint16_t index = get16(data + 1);
    const entry *e = NULL;

    close_upload(s);
    const uint32_t code = find(index, data[3], &e);
    if (code != 0) {
        abort_transfer(s, to, index, data[3], code);
        return;
    }
    if (e->kind == STRING) {
        s->busy = true;
        reply(s, to, 0x41, index, data[3], NAME_BYTES);
        return;
    }
    const uint8_t own = width(e->kind);
    const uint8_t command = own == 1 ? 0x4F : own == 2 ? 0x4B : 0x43;
    reply(s, to, command, index, data[3], read_entry(s, e));
}

/* Up to seven bytes of the name; the last segment closes the upload. */
static void upload_segment(peer_state *s, const uint8_t *data, sink *to)
{
    if (!s->busy) {
        abort_transfer(s, to, 0x0000, 0, ABORT_COMMAND);
        return;
    }
    if (((data[0] >> 4) & 1) != s->toggle) {
        abort_transfer(s, to, 0x1008, 0, ABORT_TOGGLE);
        return;
    }
    const uint8_t left = (uint8_t)(NAME_BYTES - s->at);
    const bool last = left <= 7;
    const uint8_t count = last ? left : 7;
    uint8_t segment[8] = { 0 };
    segment[0] = (uint8_t)((s->toggle << 4) | ((7 - count) << 1) | (last ? 1 : 0));
    memcpy(segment + 1, NAME + s->at, count);
    send(to, 0x580u + s->active_id, segment, 8);
    if (last) {
        close_upload(s);
    } else {
        s->at = (uint8_t)(s->at + count);
        s->toggle ^= 1;
    }
}

static void sdo(peer_state *s, uint8_t *store, const uint8_t *data, sink *to)
{
    switch (data[0] >> 5) {
    case 1:
        download(s, store, data, to);
        break;
    case 2:
        upload(s, data, to);
        break;
    case 3:
        upload_segment(s, data, to);
        break;
    case 4: /* the client's abort */
        close_upload(s);
        break;
    case 0: /* names the open upload, if there is one */
        abort_transfer(s, to, s->busy ? 0x1008 : 0x0000, 0, ABORT_COMMAND);
        break;
    default:
        abort_transfer(s, to, get16(data + 1), data[3], ABORT_COMMAND);
        break;
    }
}

/* ------------------------------------------------------------------------
 * LSS.
 */

static void lss_answer(sink *to, uint8_t command, uint32_t content)
{
    uint8_t data[8] = { 0 };
    data[0] = command;
    put32(data + 1, content);
    send(to, 0x7E4, data, 8);
}

/* 40h..43h in order; every other frame starts the order again. */
static void lss_selection(peer_state *s, const uint8_t *data, sink *to)
{
    const uint32_t own[4] = { s->identity.vendor, s->identity.product,
                              s->identity.revision, s->identity.serial };
    const uint8_t before = s->progress;
    s->progress = 0;
    if (data[0] < 0x40 || data[0] > 0x43)
        return;
    const uint8_t place = (uint8_t)(data[0] - 0x40);
    if ((place != 0 && place != before) || get32(data + 1) != own[place])
        return;
    if (place < 3) {
        s->progress = (uint8_t)(place + 1);
        return;
    }
    s->configuration = true;
    lss_answer(to, 0x44, 0);
}

static void lss(peer_state *s, uint8_t *store, const uint8_t *data, sink *to)
{
    if (s->nmt != PRE_OPERATIONAL)
        return;
    lss_selection(s, data, to);
    if (data[0] == 0x04 && data[1] <= 1)
        s->configuration = data[1] == 1;
    if (!s->configuration)
        return;
    switch (data[0]) {
    case 0x11:
        if (node_id_ok(data[1])) {
            s->pending_id = data[1];
            lss_answer(to, 0x11, 0);
        } else {
            lss_answer(to, 0x11, 1);
        }
        break;
    case 0x13:
        if (data[1] == 0 && bit_index_ok(data[2])) {
            s->pending_bit = data[2];
            lss_answer(to, 0x13, 0);
        } else {
            lss_answer(to, 0x13, 1);
        }
        break;
    case 0x17:
        save_pending(s, store);
        lss_answer(to, 0x17, 0);
        break;
    case 0x5A: lss_answer(to, 0x5A, s->identity.vendor); break;
    case 0x5B: lss_answer(to, 0x5B, s->identity.product); break;
    case 0x5C: lss_answer(to, 0x5C, s->identity.revision); break;
    case 0x5D: lss_answer(to, 0x5D, s->identity.serial); break;
    case 0x5E: lss_answer(to, 0x5E, s->active_id); break;
    default: break;
    }
}

/* ------------------------------------------------------------------------
 * Events, frames and the answer: the state rules, refusals and both calls.
 */

static bool state_ok(const peer_state *s)
{
    if (!node_id_ok(s->active_id) || !node_id_ok(s->pending_id))
        return false;
    if (!bit_index_ok(s->active_bit) || !bit_index_ok(s->pending_bit))
        return false;
    if (s->nmt != STOPPED && s->nmt != OPERATIONAL && s->nmt != PRE_OPERATIONAL)
        return false;
    if (!group_c_ok(s) || !group_a_ok(s))
        return false;
    if (s->nmt == OPERATIONAL && !start_allowed(s))
        return false;
    if (s->nmt != STOPPED && s->reported != is_capped(s))
        return false;
    if (s->configuration && s->nmt != PRE_OPERATIONAL)
        return false;
    if (s->progress > 3)
        return false;
    if (s->kind >= 1 && s->kind <= 240 ? s->syncs >= s->kind : s->syncs != 0)
        return false;
    if (s->busy
        && !(s->at == 0 && s->toggle == 0)
        && !(s->at == 7 && s->toggle == 1)
        && !(s->at == 14 && s->toggle == 0))
        return false;
    return true;
}

static uint8_t refusal(const peer_state *s, const uint8_t *event, size_t event_len,
                       size_t out_len, size_t store_len)
{
    if (event_len != PEER_EVENT_BYTES)
        return 1;
    if (event[0] < 1 || event[0] > 3)
        return 2;
    if (event[0] == 1 && (get16(event + 1) > 2047 || event[3] > 1 || event[4] > 8))
        return 3;
    if (out_len < PEER_OUT_BYTES)
        return 4;
    if (store_len != PEER_STORE_BYTES)
        return 5;
    if (!state_ok(s))
        return 6;
    return 0;
}

/* Each frame goes to the service that owns it; the rest changes nothing. */
static void frame(peer_state *s, uint8_t *store, const uint8_t *event, sink *to)
{
    const uint16_t can_id = get16(event + 1);
    const bool remote = event[3] == 1;
    const uint8_t length = event[4];
    const uint8_t *data = event + 5;

    if (remote) {
        if (can_id == 0x180 + s->active_id)
            tpdo_asked(s, to);
        return;
    }
    if (can_id == 0x000 && length == 2)
        nmt_command(s, data, store, to);
    else if (can_id == 0x080 && length == 0)
        sync(s, to);
    else if (can_id == 0x600 + s->active_id && length == 8 && s->nmt != STOPPED)
        sdo(s, store, data, to);
    else if (can_id == 0x7E5 && length == 8)
        lss(s, store, data, to);
}

peer_answer peer_event(peer_state *state, const uint8_t *event, size_t event_len,
                       uint8_t *out, size_t out_len,
                       uint8_t *store, size_t store_len)
{
    peer_answer answer = { refusal(state, event, event_len, out_len, store_len), 0 };
    if (answer.number != 0)
        return answer;

    sink to = { out, 0 };
    switch (event[0]) {
    case 1:
        frame(state, store, event, &to);
        break;
    case 2:
        tick(state, &to);
        break;
    default:
        state->fv = get16(event + 1);
        state->sample = true;
        break;
    }
    emergency(state, &to);
    answer.count = to.count;
    return answer;
}

/* Power-on is reset node at clock 0; refused, it is one on an empty store
 * whose frames nobody sees. */
peer_answer peer_power_on(peer_state *out_state, const peer_identity *id,
                          uint8_t *out, size_t out_len,
                          const uint8_t *store, size_t store_len)
{
    static const uint8_t empty[PEER_STORE_BYTES];
    const peer_identity identity = *id;
    uint8_t unseen[PEER_OUT_BYTES];
    peer_answer answer = { 0, 0 };

    if (out_len < PEER_OUT_BYTES)
        answer.number = 4;
    else if (store_len != PEER_STORE_BYTES)
        answer.number = 5;

    const bool done = answer.number == 0;
    const records saved = read_store(done ? store : empty);
    sink to = { done ? out : unseen, 0 };
    memset(out_state, 0, sizeof *out_state);
    out_state->identity = identity;
    reset_node(out_state, &saved, &to);
    emergency(out_state, &to);
    if (done)
        answer.count = to.count;
    return answer;
}
