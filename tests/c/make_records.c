/* Makes the records of the long test of the event program: events that a node can do something with, chosen by looking at the peer after a
 * power-on with an identity and a store of zeros, as the event program's. Twice, slow timers go over the wrap of the clock; the last record
 * is short. usage: make_records COUNT SEED > FILE */
#include "chosen.h"
#include "scenes.h"
#include "sights.h"

#include <stdio.h>
#include <stdlib.h>
#include <string.h>

enum { PARTS = 2, SLOW_TICKS = 70000, SHORT = 7 };

typedef struct {
    uint32_t left;               /* records still to be made */
    chance chance;
    peer_state state;
    uint8_t store[PEER_STORE_BYTES];
} maker;

/* One record, served by the peer and written; none once all are there. */
static void put(maker *m, const uint8_t event[SEUMHWARI_EVENT])
{
    if (m->left == 0)
        return;
    const size_t length = m->left == 1 ? SHORT : SEUMHWARI_EVENT;
    const uint8_t nmt = m->state.nmt;
    uint8_t out[PEER_OUT_BYTES], before[PEER_STORE_BYTES];
    memcpy(before, m->store, sizeof before);
    const peer_answer a = peer_event(&m->state, event, length, out, sizeof out, m->store, sizeof m->store);
    see_frames(out, a.count);
    see(REFUSED, a.number != 0);
    see(SAVED, memcmp(before, m->store, sizeof before) != 0);
    see(STARTED, nmt != 5 && m->state.nmt == 5);
    if (fwrite(event, 1, length, stdout) != length)
        fail("make_records", "the records could not be written");
    m->left--;
}

static void put_text(maker *m, const char *text)
{
    uint8_t event[SEUMHWARI_EVENT];
    if (!event_of_text(event, text))
        fail("make_records", "%s is no frame", text);
    put(m, event);
}

static void put_write(maker *m, uint16_t index, uint8_t sub, uint8_t size, uint32_t value)
{
    uint8_t event[SEUMHWARI_EVENT];
    event_write(event, m->state.active_id, index, sub, size, value);
    put(m, event);
}

static void put_tick(maker *m)
{
    uint8_t event[SEUMHWARI_EVENT];
    event_tick(event);
    put(m, event);
}

static void put_sample(maker *m)
{
    uint8_t event[SEUMHWARI_EVENT];
    any_sample(event, &m->chance);
    put(m, event);
}

static void put_chosen(maker *m, void (*choose)(uint8_t *, const peer_state *, chance *))
{
    uint8_t event[SEUMHWARI_EVENT];
    choose(event, &m->state, &m->chance);
    put(m, event);
}

/* ---- Scenes: what single events seldom reach */

static void sign_and_start(maker *m)
{
    uint8_t event[SEUMHWARI_EVENT];
    for (int i = 0; i < 5; i++) {
        next_signing(event, &m->state);
        put(m, event);
    }
    put_text(m, "000#0100");
}

/* Heartbeat, TPDO and SRDO with long periods, in Operational, over more ticks than the clock counts. */
static void slow_timers(maker *m)
{
    put_text(m, "000#8000");
    put_write(m, 0x1017, 0, 2, 60000);
    put_write(m, 0x1800, 2, 1, 254);
    put_write(m, 0x1800, 5, 2, 65535);
    put_write(m, 0x1301, 1, 1, 1);
    put_write(m, 0x1301, 2, 2, 23000);
    put_write(m, 0x6121, 1, 4, 0);
    put_write(m, 0x6123, 1, 4, 0x43200000);
    put_write(m, 0x6124, 1, 4, 0);
    sign_and_start(m);
    put_sample(m);
    for (uint32_t n = 0; n < SLOW_TICKS; n++)
        put_tick(m);
}

/* From the first segment to the last, for the most part. */
static void whole_name(maker *m)
{
    for (int n = 0; n < 4; n++)
        put_chosen(m, any_upload);
}

/* A started node with a TPDO of each type, quick timers, and readings that are capped where the digits are many. */
static void work(maker *m)
{
    static const uint8_t kinds[] = { 0, 1, 2, 3, 252, 253, 254, 255 };
    chance *c = &m->chance;
    put_text(m, "000#8000");
    put_write(m, 0x1800, 2, 1, kinds[below(c, sizeof kinds)]);
    put_write(m, 0x1800, 5, 2, 1 + below(c, 5));
    put_write(m, 0x1301, 2, 2, 1 + below(c, 5));
    put_write(m, 0x6123, 1, 4, once_in(c, 3) ? 0x49742400 : 0x43200000);
    put_write(m, 0x6132, 1, 1, below(c, 5));
    sign_and_start(m);
    for (uint32_t n = below(c, 40); n > 0; n--) {
        if (once_in(c, 2))
            put_tick(m);
        else if (once_in(c, 3))
            put_sample(m);
        else
            put_chosen(m, any_sync_or_remote);
    }
}

static void make(maker *m)
{
    static const peer_identity nobody;
    uint8_t out[PEER_OUT_BYTES];
    const uint64_t count = m->left;
    const peer_answer a = peer_power_on(&m->state, &nobody, out, sizeof out, m->store, sizeof m->store);
    see_frames(out, a.count);
    for (uint32_t part = 1; part <= PARTS; part++) {
        slow_timers(m);
        while (m->left > count - count * part / PARTS) {
            if (once_in(&m->chance, 80))
                work(m);
            else if (once_in(&m->chance, 80))
                whole_name(m);
            else
                put_chosen(m, any_event);
        }
    }
}

/* ---- The call */

/* Digits and nothing else. */
static uint32_t number(const char *word)
{
    char *end;
    const unsigned long value = strtoul(word, &end, 10);
    if (word[0] < '0' || word[0] > '9' || *end != 0 || value > UINT32_MAX)
        fail("make_records", "%s is no number of 32 bits", word);
    return (uint32_t)value;
}

int main(int count, char **words)
{
    static maker m;
    if (count != 3)
        fail("make_records", "usage: make_records COUNT SEED > FILE");
    const uint32_t all = m.left = number(words[1]);
    m.chance.at = number(words[2]);
    make(&m);
    if (fflush(stdout) != 0)
        fail("make_records", "the records could not be written");
    fprintf(stderr, "make_records: %s records, seed %s:", words[1], words[2]);
    tell_sights(stderr, "make_records", all / 400);
    return 0;
}
