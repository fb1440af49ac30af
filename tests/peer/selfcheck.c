/* Self-check of the peer, meant for a build with address and undefined
 * behaviour sanitizers: random states, events and lengths, each buffer of its
 * exact size on the heap.
 *
 *   selfcheck SEED COUNT
 *
 * It checks what holds whatever a service does: the refusal's number, that a
 * refused call changes nothing, that frames are well formed and the output
 * past them is left alone, that a state which keeps the rules goes on keeping
 * them, and that the same call gives the same answer again. */
#include "peer.h"

#include <stdio.h>
#include <stdlib.h>
#include <string.h>

static uint64_t seed;

static uint32_t any(void)
{
    seed ^= seed << 13;
    seed ^= seed >> 7;
    seed ^= seed << 17;
    return (uint32_t)((seed * UINT64_C(0x2545F4914F6CDD1D)) >> 32);
}

static uint32_t below(uint32_t end)
{
    return any() % end;
}

static uint8_t any8(void)
{
    return (uint8_t)any();
}

static uint16_t any16(void)
{
    return (uint16_t)any();
}

static bool one_in(uint32_t n)
{
    return below(n) == 0;
}

static float any_float(void)
{
    uint32_t bits = any();
    float value;
    memcpy(&value, &bits, sizeof value);
    return value;
}

static float any_scale(void)
{
    static const float known[] = { 0.0f, -0.0f, 160.0f, 1000000.0f, -1000000.0f, 0.38f,
                                   0.125f, 214748.0f, -214748.0f, 1e-40f, 65536.0f };
    const uint32_t chosen = below(3);
    if (chosen == 0)
        return known[below(sizeof known / sizeof known[0])];
    if (chosen == 1)
        return (float)below(2000001) - 1000000.0f;
    uint32_t bits = below(0x49742401) | (any() & 0x80000000u);
    float value;
    memcpy(&value, &bits, sizeof value);
    return value;
}

static void fail(const char *what, unsigned long round)
{
    printf("round %lu: %s\n", round, what);
    exit(1);
}

static size_t put(uint8_t *to, size_t at, uint32_t value, int bytes)
{
    for (int i = 0; i < bytes; i++)
        to[at++] = (uint8_t)(value >> (8 * i));
    return at;
}

static uint32_t bits(float value)
{
    uint32_t result;
    memcpy(&result, &value, sizeof result);
    return result;
}

static void sign(peer_state *s)
{
    uint8_t list[32];
    size_t n = 0;
    n = put(list, n, bits(s->low), 4);
    n = put(list, n, bits(s->high), 4);
    n = put(list, n, bits(s->offset), 4);
    n = put(list, n, s->digits, 1);
    s->signature_a = peer_crc(list, n);
    n = 0;
    n = put(list, n, s->direction, 1);
    n = put(list, n, s->refresh, 2);
    n = put(list, n, s->validation, 1);
    n = put(list, n, s->first, 4);
    n = put(list, n, s->second, 4);
    n = put(list, n, 0x0102, 2);
    n = put(list, n, 0x50300120, 4);
    n = put(list, n, 2, 1);
    n = put(list, n, 0x50300220, 4);
    s->signature_c = peer_crc(list, n);
}

/* Every field of any value. */
static peer_state any_state(void)
{
    peer_state s;
    memset(&s, 0, sizeof s);
    s.identity.vendor = any();
    s.identity.product = any();
    s.identity.revision = any();
    s.identity.serial = any();
    s.heartbeat = any16();
    s.direction = any8();
    s.refresh = any16();
    s.validation = any8();
    s.first = any();
    s.second = any();
    s.kind = any8();
    s.period = any16();
    s.valid_c = any8();
    s.signature_c = any16();
    s.autostart = any8();
    s.low = any_float();
    s.high = any_float();
    s.offset = any_float();
    s.digits = any8();
    s.valid_a = any8();
    s.signature_a = any16();
    s.active_id = any8();
    s.active_bit = any8();
    s.pending_id = any8();
    s.pending_bit = any8();
    s.nmt = any8();
    s.reported = one_in(2);
    s.fv = any16();
    s.clock = any16();
    s.heartbeat_start = any16();
    s.tpdo_start = any16();
    s.srdo_start = any16();
    s.syncs = any8();
    s.sample = one_in(2);
    s.configuration = one_in(2);
    s.progress = any8();
    s.busy = one_in(2);
    s.at = any8();
    s.toggle = any8();
    return s;
}

/* A state that keeps the rules. */
static peer_state legal_state(void)
{
    static const uint8_t indexes[] = { 0, 2, 3, 4, 6, 7, 8 };
    static const uint8_t states[] = { 4, 5, 127 };
    static const uint8_t places[] = { 0, 7, 14 };
    peer_state s = any_state();
    s.direction = (uint8_t)below(2);
    s.refresh = (uint16_t)(1 + below(one_in(2) ? 4 : 65535));
    s.validation = (uint8_t)(1 + below(255));
    s.first = 0x101 + 2 * below(64);
    s.second = one_in(4) ? 0x102 + 2 * below(64) : s.first + 1;
    if (s.kind > 240 && s.kind < 252)
        s.kind = 0;
    s.heartbeat = (uint16_t)below(one_in(2) ? 4 : 65536);
    s.period = (uint16_t)below(one_in(2) ? 4 : 65536);
    s.autostart = (uint8_t)below(2);
    s.low = any_scale();
    s.high = any_scale();
    s.offset = any_scale();
    s.digits = (uint8_t)below(5);
    if (!one_in(4))
        sign(&s);
    s.valid_a = s.valid_c = 0;
    peer_state signed_state = s;
    sign(&signed_state);
    if (s.signature_a == signed_state.signature_a && !one_in(4))
        s.valid_a = 0xA5;
    if (s.signature_c == signed_state.signature_c && s.second == s.first + 1 && !one_in(4))
        s.valid_c = 0xA5;
    s.active_id = (uint8_t)(1 + below(127));
    s.pending_id = (uint8_t)(1 + below(127));
    s.active_bit = indexes[below(7)];
    s.pending_bit = indexes[below(7)];
    s.nmt = states[below(3)];
    if (s.nmt == 5 && !(s.valid_a == 0xA5 && (s.direction == 0 || s.valid_c == 0xA5)))
        s.nmt = 127;
    bool capped;
    (void)peer_integer_pv(peer_pv(s.low, s.high, s.offset, s.fv), s.digits, &capped);
    if (s.nmt != 4)
        s.reported = capped;
    if (s.nmt != 127)
        s.configuration = false;
    if (one_in(2))
        memset(&s.identity, 0, sizeof s.identity);
    s.progress = (uint8_t)below(4);
    s.syncs = s.kind >= 1 && s.kind <= 240 ? (uint8_t)below(s.kind) : 0;
    if (s.busy) {
        const uint32_t place = below(3);
        s.at = places[place];
        s.toggle = (uint8_t)(place % 2);
    }
    return s;
}

/* One rule of a legal state, broken or brushed. */
static void spoil(peer_state *s)
{
    switch (below(20)) {
    case 0: s->active_id = any8(); break;
    case 1: s->pending_id = any8(); break;
    case 2: s->active_bit = (uint8_t)below(12); break;
    case 3: s->pending_bit = (uint8_t)below(12); break;
    case 4: s->nmt = one_in(2) ? 5 : any8(); break;
    case 5: s->direction = (uint8_t)below(4); break;
    case 6: s->refresh = (uint16_t)below(3); break;
    case 7: s->validation = (uint8_t)below(3); break;
    case 8: s->first = one_in(2) ? any() : 0xF0 + below(0xA0); break;
    case 9: s->second = one_in(2) ? any() : 0xF0 + below(0xA0); break;
    case 10: s->kind = any8(); break;
    case 11: s->valid_c = 0xA5; break;
    case 12: s->valid_a = 0xA5; break;
    case 13: s->low = any_float(); break;
    case 14: s->digits = (uint8_t)below(8); break;
    case 15: s->reported = !s->reported; break;
    case 16: s->configuration = true; break;
    case 17: s->progress = (uint8_t)below(6); break;
    case 18: s->syncs = any8(); break;
    default: s->busy = true; s->at = (uint8_t)below(16); s->toggle = (uint8_t)below(3); break;
    }
}

static void any_event(uint8_t *event, const peer_state *s)
{
    static const uint16_t indexes[] = {
        0x1000, 0x1001, 0x1005, 0x1008, 0x1010, 0x1011, 0x1014, 0x1017, 0x1018, 0x1200, 0x1301,
        0x1381, 0x13FE, 0x13FF, 0x1800, 0x1A00, 0x2330, 0x5030, 0x51FE, 0x51FF, 0x6121, 0x6123,
        0x6124, 0x6130, 0x6131, 0x6132, 0x7100, 0x7120, 0x7122, 0x9130, 0x1234 };
    static const uint8_t commands[] = { 0x22, 0x23, 0x27, 0x2B, 0x2F, 0x20, 0x40, 0x60, 0x70, 0x80,
                                        0x00, 0xA0, 0xC1, 0xE0 };
    static const uint8_t orders[] = { 1, 2, 128, 129, 130 };
    static const uint8_t services[] = { 0x04, 0x11, 0x13, 0x17, 0x40, 0x41, 0x42, 0x43,
                                        0x5A, 0x5B, 0x5C, 0x5D, 0x5E };
    uint32_t can_id;

    for (size_t i = 0; i < PEER_EVENT_BYTES; i++)
        event[i] = any8();
    const uint32_t chosen = below(10);
    if (chosen == 0)
        return;
    event[0] = chosen == 1 ? 2 : chosen == 2 ? 3 : 1;
    if (event[0] != 1)
        return;
    event[3] = one_in(16) ? any8() : 0;
    event[4] = one_in(16) ? (uint8_t)below(12) : 8;
    switch (chosen) {
    case 3: can_id = 0; event[4] = 2; event[5] = orders[below(5)];
        event[6] = one_in(2) ? 0 : s->active_id; break;
    case 4: can_id = 0x80; event[4] = 0; break;
    case 5: can_id = 0x180u + s->active_id; event[3] = 1; break;
    case 6: can_id = 0x7E5; event[5] = services[below(sizeof services)];
        if (event[5] < 0x40) {
            event[6] = one_in(4) ? event[6] : (uint8_t)below(3);
            event[7] = (uint8_t)below(10);
        } else {
            memset(event + 6, one_in(8) ? 1 : 0, 7);
        }
        break;
    default: can_id = 0x600u + s->active_id;
        event[5] = commands[below(sizeof commands)];
        put(event, 6, indexes[below(sizeof indexes / sizeof indexes[0])], 2);
        event[8] = (uint8_t)below(7);
        if (one_in(3)) put(event, 9, 0x65766173, 4);
        else if (one_in(3)) put(event, 9, 0x64616F6C, 4);
        else if (one_in(2)) put(event, 9, below(256), 4);
        else if (one_in(2)) put(event, 9, 0xA5, 4);
        break;
    }
    put(event, 1, one_in(30) ? any() : can_id, 2);
}

/* A store made by the node itself, or one of any bytes. */
static void any_store(uint8_t *store)
{
    static const uint8_t orders[3][4] = { { 0x10, 0x10, 1, 0 }, { 0x10, 0x10, 2, 0 }, { 0x10, 0x10, 3, 0 } };
    for (size_t i = 0; i < PEER_STORE_BYTES; i++)
        store[i] = one_in(2) ? 0 : any8();
    if (one_in(3))
        return;
    for (int i = 0; i < 3; i++) {
        uint8_t out[PEER_OUT_BYTES], event[PEER_EVENT_BYTES] = { 1 };
        peer_state s = legal_state();
        if (s.nmt != 127)
            continue;
        event[4] = 8;
        if (one_in(3)) {
            s.configuration = true;
            put(event, 1, 0x7E5, 2);
            event[5] = 0x17;
        } else {
            put(event, 1, 0x600u + s.active_id, 2);
            event[5] = 0x23;
            memcpy(event + 6, orders[below(3)], 3);
            put(event, 9, 0x65766173, 4);
        }
        if (peer_event(&s, event, sizeof event, out, sizeof out, store, PEER_STORE_BYTES).number != 0)
            fail("a save was refused", 0);
    }
    if (one_in(4))
        store[below(64)] ^= (uint8_t)(1u << below(8));
}

static bool same_state(const peer_state *a, const peer_state *b)
{
    return memcmp(a, b, sizeof *a) == 0;
}

static bool keeps_rules(const peer_state *state)
{
    static const uint8_t nothing[PEER_EVENT_BYTES] = { 1, 0xFF, 0x07 };
    uint8_t out[PEER_OUT_BYTES], store[PEER_STORE_BYTES] = { 0 };
    peer_state s = *state;
    return peer_event(&s, nothing, sizeof nothing, out, sizeof out, store, sizeof store).number == 0;
}

static bool well_formed(const uint8_t *frame)
{
    if (frame[1] > 7 || frame[2] != 0 || frame[3] < 1 || frame[3] > 8)
        return false;
    for (int i = 4 + frame[3]; i < PEER_FRAME_BYTES; i++)
        if (frame[i] != 0)
            return false;
    return true;
}

static uint8_t *copy(const uint8_t *bytes, size_t length)
{
    uint8_t *made = malloc(length + 1); /* never empty: the spare byte is not lent */
    if (made == NULL)
        exit(2);
    memcpy(made, bytes, length);
    return realloc(made, length ? length : 1);
}

int main(int count, char **words)
{
    seed = (count > 1 ? strtoull(words[1], NULL, 10) : 1) * UINT64_C(0x9E3779B97F4A7C15) + 1;
    const unsigned long rounds = count > 2 ? strtoul(words[2], NULL, 10) : 100000;
    unsigned long numbers[7] = { 0 }, frames = 0, starts = 0;
    peer_state state = legal_state();

    for (unsigned long round = 1; round <= rounds; round++) {
        uint8_t fill[80], stored[80] = { 0 }, happened[20];
        const size_t out_len = one_in(4) ? below(61) : 48 + below(13);
        const size_t store_len = one_in(16) ? below(sizeof stored + 1) : PEER_STORE_BYTES;
        const size_t event_len = one_in(32) ? below(sizeof happened + 1) : PEER_EVENT_BYTES;
        for (size_t i = 0; i < sizeof fill; i++)
            fill[i] = any8();
        any_store(stored);

        switch (below(4)) { /* else the state goes on from the last round */
        case 0: state = any_state(); break;
        case 1: state = legal_state(); break;
        case 2: state = legal_state(); spoil(&state); break;
        default: if (!keeps_rules(&state)) state = legal_state(); break;
        }
        for (size_t i = 0; i < sizeof happened; i++)
            happened[i] = any8();
        any_event(happened, &state);

        uint8_t *out = copy(fill, out_len);
        uint8_t *store = copy(stored, store_len);
        uint8_t *event = copy(happened, event_len);
        const bool legal = keeps_rules(&state);
        peer_state before, again;
        memcpy(&before, &state, sizeof state);
        memcpy(&again, &state, sizeof state);
        const peer_answer answer = peer_event(&state, event, event_len, out, out_len, store, store_len);

        uint8_t number = legal ? 0 : 6;
        if (store_len != 64) number = 5;
        if (out_len < 48) number = 4;
        if (happened[0] == 1 && (happened[1] + 256 * happened[2] > 2047 || happened[3] > 1 || happened[4] > 8))
            number = 3;
        if (happened[0] < 1 || happened[0] > 3) number = 2;
        if (event_len != 13) number = 1;
        if (answer.number != number)
            fail("another refusal was due", round);
        numbers[number]++;
        if (memcmp(event, happened, event_len) != 0)
            fail("the event was written", round);
        if (number != 0) {
            if (answer.count != 0 || !same_state(&state, &before)
                || memcmp(out, fill, out_len) != 0 || memcmp(store, stored, store_len) != 0)
                fail("a refused call changed something", round);
        } else {
            if (answer.count > 4)
                fail("too many frames", round);
            for (int i = 0; i < answer.count; i++)
                if (!well_formed(out + 12 * i))
                    fail("a frame is badly formed", round);
            const size_t used = 12u * answer.count;
            if (memcmp(out + used, fill + used, out_len - used) != 0)
                fail("the output past the frames was written", round);
            if (!keeps_rules(&state))
                fail("the rules were broken", round);
            if (memcmp(store, stored, 64) != 0
                && peer_crc(store, 62) != store[62] + 256 * store[63])
                fail("a store was written badly", round);
            frames += answer.count;

            uint8_t out_2[PEER_OUT_BYTES], store_2[PEER_STORE_BYTES];
            memset(out_2, 0x55, sizeof out_2);
            memcpy(store_2, stored, sizeof store_2);
            const peer_answer second = peer_event(&again, event, event_len, out_2, sizeof out_2,
                                                  store_2, sizeof store_2);
            if (second.number != 0 || second.count != answer.count || memcmp(out, out_2, used) != 0
                || memcmp(store, store_2, 64) != 0 || !same_state(&state, &again))
                fail("a second answer", round);
        }

        memcpy(out, fill, out_len);
        memcpy(store, stored, store_len);
        const peer_identity id = before.identity;
        peer_state woken;
        const peer_answer started = peer_power_on(&woken, &id, out, out_len, store, store_len);
        if (started.number != (out_len < 48 ? 4 : store_len != 64 ? 5 : 0))
            fail("another refusal of power-on was due", round);
        if (!keeps_rules(&woken) || memcmp(store, stored, store_len) != 0
            || memcmp(&woken.identity, &id, sizeof id) != 0 || woken.clock != 0)
            fail("power-on made a bad state", round);
        const size_t used = 12u * started.count;
        if (started.number == 0 ? started.count < 1 || started.count > 2 : started.count != 0)
            fail("power-on gave another count", round);
        if (memcmp(out + used, fill + used, out_len - used) != 0)
            fail("power-on wrote past its frames", round);
        starts += woken.nmt == 5;

        free(out);
        free(store);
        free(event);
    }
    printf("%lu rounds:", rounds);
    for (int i = 0; i < 7; i++)
        printf(" %s%d %lu", i == 0 ? "number " : "", i, numbers[i]);
    printf("; %lu frames, %lu starts at power-on\n", frames, starts);
    return 0;
}
