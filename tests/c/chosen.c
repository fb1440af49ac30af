#include "chosen.h"

#include "scenes.h"

typedef struct {
    uint16_t index;
    uint8_t sub, size;
} entry;

static const entry saved[] = {
    { 0x1017, 0, 2 }, { 0x1301, 1, 1 }, { 0x1301, 2, 2 }, { 0x1301, 3, 1 }, { 0x1301, 5, 4 }, { 0x1301, 6, 4 },
    { 0x1800, 2, 1 }, { 0x1800, 5, 2 }, { 0x13FE, 0, 1 }, { 0x13FF, 1, 2 }, { 0x2330, 0, 1 }, { 0x6121, 1, 4 },
    { 0x6123, 1, 4 }, { 0x6124, 1, 4 }, { 0x6132, 1, 1 }, { 0x51FE, 0, 1 }, { 0x51FF, 1, 2 },
};

static const entry others[] = {
    { 0x1000, 0, 4 }, { 0x1001, 0, 1 }, { 0x1005, 0, 4 }, { 0x1008, 0, 0 }, { 0x1010, 0, 1 }, { 0x1010, 1, 4 }, { 0x1011, 3, 4 },
    { 0x1014, 0, 4 }, { 0x1018, 0, 1 }, { 0x1018, 1, 4 }, { 0x1018, 4, 4 }, { 0x1018, 5, 4 }, { 0x1200, 1, 4 }, { 0x1200, 2, 4 },
    { 0x1301, 0, 1 }, { 0x1301, 4, 1 }, { 0x1381, 1, 4 }, { 0x1381, 2, 4 }, { 0x1800, 1, 4 }, { 0x1800, 3, 1 }, { 0x1A00, 1, 4 },
    { 0x5030, 1, 4 }, { 0x5030, 2, 4 }, { 0x6130, 1, 4 }, { 0x6131, 1, 4 }, { 0x7100, 1, 2 }, { 0x7120, 1, 2 }, { 0x7122, 1, 2 },
    { 0x9130, 1, 4 }, { 0x9130, 2, 4 }, { 0x0000, 0, 1 }, { 0x6133, 1, 1 },
};

static entry any_entry(chance *c)
{
    if (once_in(c, 2))
        return saved[below(c, sizeof saved / sizeof *saved)];
    return others[below(c, sizeof others / sizeof *others)];
}

/* A value that may be taken: right for the entry more often than not. */
static uint32_t value_for(const peer_state *s, entry e, chance *c)
{
    if (once_in(c, 6))
        return any(c);
    switch (e.index) {
    case 0x13FE:
    case 0x51FE: return once_in(c, 4) ? below(c, 256) : 0xA5;
    case 0x13FF: return once_in(c, 4) ? s->signature_c : signature_of_c(s);
    case 0x51FF: return once_in(c, 4) ? s->signature_a : signature_of_a(s);
    case 0x6121:
    case 0x6123:
    case 0x6124: return once_in(c, 6) ? 0x49742401 : any_scale(c);
    case 0x6132: return below(c, 6);
    case 0x1301: return e.sub == 5 ? 0xFF + 2 * below(c, 66) : e.sub == 6 ? s->first + 1 : e.sub == 2 ? below(c, 20) : below(c, 3);
    case 0x1800: return e.sub == 2 && once_in(c, 2) ? 239 + below(c, 17) : below(c, 6);
    default: return below(c, 8);
    }
}

static void any_write(uint8_t *event, const peer_state *s, chance *c)
{
    const entry e = any_entry(c);
    const uint8_t size = once_in(c, 8) ? (uint8_t)below(c, 5) : e.size;
    event_write(event, s->active_id, e.index, e.sub, size, value_for(s, e, c));
}

static void any_read(uint8_t *event, const peer_state *s, chance *c)
{
    const entry e = once_in(c, 30) ? (entry){ (uint16_t)any(c), (uint8_t)below(c, 8), 0 } : any_entry(c);
    event_read(event, s->active_id, e.index, e.sub);
}

void next_signing(uint8_t *event, const peer_state *s)
{
    const uint16_t a = signature_of_a(s), c = signature_of_c(s);
    if (s->signature_a != a)
        event_write(event, s->active_id, 0x51FF, 1, 2, a);
    else if (s->valid_a != 0xA5)
        event_write(event, s->active_id, 0x51FE, 0, 1, 0xA5);
    else if (s->second != s->first + 1)
        event_write(event, s->active_id, 0x1301, 6, 4, s->first + 1);
    else if (s->signature_c != c)
        event_write(event, s->active_id, 0x13FF, 1, 2, c);
    else
        event_write(event, s->active_id, 0x13FE, 0, 1, 0xA5);
}

void any_upload(uint8_t *event, const peer_state *s, chance *c)
{
    uint8_t data[8] = { 0x60 };
    if (!s->busy) {
        event_read(event, s->active_id, 0x1008, 0);
        return;
    }
    data[0] = (uint8_t)(once_in(c, 12) ? any(c) : 0x60 | (s->toggle ^ once_in(c, 10)) << 4);
    event_frame(event, (uint16_t)(0x600 + s->active_id), data, sizeof data);
}

static void any_word(uint8_t *event, const peer_state *s, chance *c)
{
    const bool save = !once_in(c, 3);
    const uint32_t word = once_in(c, 10) ? any(c) : save ? 0x65766173 : 0x64616F6C;
    event_write(event, s->active_id, save ? 0x1010 : 0x1011, (uint8_t)(1 + below(c, 3)), once_in(c, 10) ? 0 : 4, word);
}

static void any_lss(uint8_t *event, const peer_state *s, chance *c)
{
    static const uint8_t commands[] = { 0x04, 0x04, 0x11, 0x11, 0x13, 0x17, 0x5A, 0x5B, 0x5C, 0x5D, 0x5E, 0x46 };
    const uint32_t numbers[4] = { s->identity.vendor, s->identity.product, s->identity.revision, s->identity.serial };
    uint8_t data[8] = { 0 };
    if (once_in(c, 2)) {
        const uint8_t part = once_in(c, 8) ? (uint8_t)below(c, 4) : s->progress;
        data[0] = (uint8_t)(0x40 + part);
        put32(data + 1, once_in(c, 12) ? any(c) : numbers[part & 3]);
    } else {
        data[0] = commands[below(c, sizeof commands)];
        data[1] = (uint8_t)(data[0] == 0x04 ? !once_in(c, 4) : data[0] == 0x13 ? once_in(c, 8) : below(c, 130));
        data[2] = (uint8_t)below(c, 10);
    }
    event_frame(event, 0x7E5, data, once_in(c, 20) ? 7 : 8);
}

static void any_nmt(uint8_t *event, const peer_state *s, chance *c)
{
    static const uint8_t commands[] = { 1, 1, 1, 2, 128, 128, 129, 130, 0, 131 };
    const uint8_t data[2] = { commands[below(c, sizeof commands)],
                              once_in(c, 3) ? 0 : once_in(c, 8) ? (uint8_t)any(c) : s->active_id };
    event_frame(event, 0x000, data, once_in(c, 20) ? 1 : 2);
}

void any_sync_or_remote(uint8_t *event, const peer_state *s, chance *c)
{
    const uint8_t data[8] = { 0 };
    const bool remote = once_in(c, 3);
    event_frame(event, remote ? (uint16_t)(0x180 + s->active_id) : 0x080, data, once_in(c, 20) ? 1 : 0);
    event[3] = remote;
}

void any_sample(uint8_t *event, chance *c)
{
    static const uint16_t chosen[] = { 0, 4000, 12000, 20000, 65535 };
    event_sample(event, once_in(c, 2) ? (uint16_t)any(c) : chosen[below(c, 5)]);
}

static void any_bytes(uint8_t *event, chance *c)
{
    for (size_t i = 0; i < SEUMHWARI_EVENT; i++)
        event[i] = (uint8_t)any(c);
    event[0] = (uint8_t)below(c, 5);
    event[2] %= 10;
    event[3] %= 3;
    event[4] %= 10;
}

/* A selection under way goes on as often as not, and so does time in Operational. */
void any_event(uint8_t *event, const peer_state *s, chance *c)
{
    const bool selecting = s->progress > 0 || s->configuration;
    if (selecting && once_in(c, 2)) {
        any_lss(event, s, c);
        return;
    }
    if (s->nmt == 5 && once_in(c, 2)) {
        event_tick(event);
        return;
    }
    switch (below(c, 20)) {
    case 0: case 1: case 2: case 3: case 4: event_tick(event); break;
    case 5: case 6: any_sample(event, c); break;
    case 7: case 8: any_nmt(event, s, c); break;
    case 9: case 10: any_sync_or_remote(event, s, c); break;
    case 11: any_read(event, s, c); break;
    case 12: case 13: any_write(event, s, c); break;
    case 14: case 15: next_signing(event, s); break;
    case 16: any_upload(event, s, c); break;
    case 17: any_word(event, s, c); break;
    case 18: any_lss(event, s, c); break;
    default: any_bytes(event, c); break;
    }
}
