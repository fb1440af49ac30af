#include "pair.h"

#include <stdio.h>
#include <string.h>

/* ---- The state, field by field: where the header has it, and the peer */

#define FIELDS(F) \
    F(identity.vendor, identity.vendor) F(identity.product, identity.product) \
    F(identity.revision, identity.revision) F(identity.serial, identity.serial) \
    F(settings.communication.heartbeat, heartbeat) F(settings.communication.srdo.direction, direction) \
    F(settings.communication.srdo.refresh, refresh) F(settings.communication.srdo.validation, validation) \
    F(settings.communication.srdo.first, first) F(settings.communication.srdo.second, second) \
    F(settings.communication.tpdo.kind, kind) F(settings.communication.tpdo.period, period) \
    F(settings.communication.valid, valid_c) F(settings.communication.signature, signature_c) \
    F(settings.application.autostart, autostart) F(settings.application.scaling.low, low) \
    F(settings.application.scaling.high, high) F(settings.application.scaling.offset, offset) \
    F(settings.application.digits, digits) F(settings.application.valid, valid_a) \
    F(settings.application.signature, signature_a) \
    F(core.active.id, active_id) F(core.active.bit, active_bit) \
    F(core.pending.id, pending_id) F(core.pending.bit, pending_bit) \
    F(core.nmt, nmt) F(core.reported, reported) F(core.fv.count, fv) \
    F(core.timers.clock, clock) F(core.timers.heartbeat, heartbeat_start) \
    F(core.timers.tpdo, tpdo_start) F(core.timers.srdo, srdo_start) \
    F(core.tpdo.syncs, syncs) F(core.tpdo.sample, sample) \
    F(core.lss.configuration, configuration) F(core.lss.progress, progress) \
    F(core.upload.busy, busy) F(core.upload.at, at) F(core.upload.toggle, toggle)

/* Byte for byte, so that a Real32 is compared by its bits. */
static const char *state_difference(const seumhwari_state *s, const peer_state *p)
{
#define COMPARE(place, name) \
    _Static_assert(sizeof s->place == sizeof p->name, #name); \
    if (memcmp(&s->place, &p->name, sizeof p->name) != 0) \
        return "state: " #place;
    FIELDS(COMPARE)
#undef COMPARE
    return NULL;
}

void pair_set_state(pair *p, const seumhwari_state *state)
{
    p->state = *state;
#define COPY(place, name) memcpy(&p->peer.name, &state->place, sizeof p->peer.name);
    FIELDS(COPY)
#undef COPY
}

/* ---- Lent bytes */

uint8_t *lent_bytes(lent *l)
{
    return l->bytes + GUARD;
}

static void lend(lent *l, const uint8_t *bytes, size_t length)
{
    memset(l->bytes, FILL, sizeof l->bytes);
    if (length > LONGEST)
        fail("pair", "%zu bytes are too many to lend", length);
    if (length != 0)
        memcpy(lent_bytes(l), bytes, length);
}

void pair_lend_store(pair *p, const uint8_t *bytes, size_t length)
{
    lend(&p->store, bytes, length);
    lend(&p->peer_store, bytes, length);
}

static void lend_out(pair *p)
{
    lend(&p->out, NULL, 0);
    lend(&p->peer_out, NULL, 0);
}

/* Only the first `count` frames may have been written. */
static bool rest_kept(const lent *l, uint8_t count)
{
    const size_t end = GUARD + (size_t)SEUMHWARI_FRAME * count;
    for (size_t i = 0; i < sizeof l->bytes; i++)
        if ((i < GUARD || i >= end) && l->bytes[i] != FILL)
            return false;
    return true;
}

/* ---- The calls */

static const char *compare(pair *p, peer_answer expected)
{
    if (p->number != expected.number)
        return "number";
    if (p->count != expected.count)
        return "count";
    const char *field = state_difference(&p->state, &p->peer);
    if (field != NULL)
        return field;
    if (memcmp(&p->out, &p->peer_out, sizeof p->out) != 0)
        return "output";
    if (memcmp(&p->store, &p->peer_store, sizeof p->store) != 0)
        return "store";
    return rest_kept(&p->out, p->count) ? NULL : "output past its frames";
}

const char *pair_power_on(pair *p, seumhwari_identity identity, size_t out_length, size_t store_length)
{
    const peer_identity same = { identity.vendor, identity.product, identity.revision, identity.serial };
    const lent before = p->store;
    lend_out(p);
    const seumhwari_answer a = seumhwari_power_on(identity, lent_bytes(&p->out), out_length, lent_bytes(&p->store), store_length);
    const peer_answer b = peer_power_on(&p->peer, &same, lent_bytes(&p->peer_out), out_length, lent_bytes(&p->peer_store), store_length);
    p->number = a.number;
    p->count = a.count;
    p->state = a.state;
    if (memcmp(&p->store, &before, sizeof before) != 0)
        return "a store that power-on wrote";
    return compare(p, b);
}

const char *pair_event(pair *p, const uint8_t *event, size_t event_length, size_t out_length, size_t store_length)
{
    const lent before = p->store;
    const peer_state state = p->peer;
    lend_out(p);
    const seumhwari_answer a =
        seumhwari_event(event, event_length, p->state, lent_bytes(&p->out), out_length, lent_bytes(&p->store), store_length);
    const peer_answer b =
        peer_event(&p->peer, event, event_length, lent_bytes(&p->peer_out), out_length, lent_bytes(&p->peer_store), store_length);
    p->number = a.number;
    p->count = a.count;
    p->state = a.state;
    if (a.number != 0) {
        if (a.count != 0)
            return "frames of a refused call";
        if (state_difference(&a.state, &state) != NULL)
            return "the state of a refused call";
        if (memcmp(&p->store, &before, sizeof before) != 0)
            return "the store of a refused call";
    }
    return compare(p, b);
}

const char *pair_serve(pair *p, const uint8_t event[SEUMHWARI_EVENT])
{
    return pair_event(p, event, SEUMHWARI_EVENT, SEUMHWARI_OUT, SEUMHWARI_STORE);
}

/* ---- Events and frames as text */

void event_tick(uint8_t event[SEUMHWARI_EVENT])
{
    memset(event, 0, SEUMHWARI_EVENT);
    event[0] = SEUMHWARI_KIND_TICK;
}

void event_sample(uint8_t event[SEUMHWARI_EVENT], uint16_t fv)
{
    memset(event, 0, SEUMHWARI_EVENT);
    event[0] = SEUMHWARI_KIND_SAMPLE;
    event[1] = (uint8_t)fv;
    event[2] = (uint8_t)(fv >> 8);
}

void event_frame(uint8_t event[SEUMHWARI_EVENT], uint16_t can_id, const uint8_t *data, uint8_t length)
{
    memset(event, 0, SEUMHWARI_EVENT);
    event[0] = SEUMHWARI_KIND_FRAME;
    event[1] = (uint8_t)can_id;
    event[2] = (uint8_t)(can_id >> 8);
    event[4] = length;
    memcpy(event + 5, data, length);
}

static int hex_digit(char c)
{
    if (c >= '0' && c <= '9')
        return c - '0';
    return c >= 'A' && c <= 'F' ? c - 'A' + 10 : -1;
}

bool event_of_text(uint8_t event[SEUMHWARI_EVENT], const char *text)
{
    uint8_t data[8];
    uint8_t length = 0;
    uint16_t can_id = 0;
    size_t at = 0;
    for (; hex_digit(text[at]) >= 0; at++)
        can_id = (uint16_t)(can_id * 16 + hex_digit(text[at]));
    if (at != 3 || text[at++] != '#')
        return false;
    const bool remote = text[at] == 'R';
    at += remote;
    for (; !remote && length < 8 && hex_digit(text[at]) >= 0 && hex_digit(text[at + 1]) >= 0; at += 2)
        data[length++] = (uint8_t)(hex_digit(text[at]) * 16 + hex_digit(text[at + 1]));
    event_frame(event, can_id, data, length);
    event[3] = remote;
    return text[at] == 0;
}

void text_of_frames(char *text, size_t size, const uint8_t *out, uint8_t count)
{
    size_t at = 0;
    text[0] = 0;
    if (count == 0)
        snprintf(text, size, "-");
    for (uint8_t n = 0; n < count && at + 32 < size; n++, out += SEUMHWARI_FRAME) {
        at += (size_t)snprintf(text + at, size - at, "%s%03X#%s", n == 0 ? "" : " ", out[0] | out[1] << 8, out[2] == 1 ? "R" : "");
        for (uint8_t i = 0; i < out[3] && i < 8; i++)
            at += (size_t)snprintf(text + at, size - at, "%02X", out[4 + i]);
    }
}

void pair_script(pair *p, const char *test, const char *frames)
{
    char text[24];
    while (*frames != 0) {
        const char *end = strchr(frames, ' ');
        const size_t length = end == NULL ? strlen(frames) : (size_t)(end - frames);
        uint8_t event[SEUMHWARI_EVENT];
        snprintf(text, sizeof text, "%.*s", (int)length, frames);
        if (!event_of_text(event, text))
            fail(test, "%s is no frame", text);
        const char *what = pair_serve(p, event);
        if (what != NULL || p->number != 0)
            fail(test, "after %s: %s", text, what == NULL ? "refused" : what);
        frames += length + (end != NULL);
    }
}
