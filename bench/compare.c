/* Runs the proved node, the node by hand and the peer side by side and stops at the first difference in
 * number, count, output, store or any field of the state.
 *
 * usage: compare FILE...          files of 13-byte events
 *
 * Each file is run from several first stores. Beside each event, some calls are made that lead nowhere: with
 * other lengths, and from states that were changed in a byte or two, of which most break a rule. */
#include "nodes.h"

#include <stdio.h>
#include <stdlib.h>
#include <string.h>

static uint64_t calls, refused[7];
static uint32_t chance = 1;

static uint32_t any(uint32_t below)
{
    chance = chance * 1664525u + 1013904223u;
    return (chance >> 8) % below;
}

typedef struct {
    proved_node proved;
    fast_node fast;
    peer_node peer;
} three;

typedef struct {
    const uint8_t *event;
    size_t event_length, out_length, store_length;
} call;

/* ---- The same state for all */

static void same_state(three *t)
{
#define TAKE(p, f, s) t->fast.state.f = t->peer.state.p; t->proved.state.s = t->peer.state.p;
    FIELDS(TAKE)
}

/* By bytes: 0.0 is not -0.0. */
static const char *difference(const three *t)
{
#define DIFFERS(p, f, s) { \
        const __typeof__(t->peer.state.p) one = t->peer.state.p; \
        const __typeof__(t->peer.state.p) two = t->fast.state.f, three = t->proved.state.s; \
        if (memcmp(&one, &two, sizeof one) != 0) return "by hand: " #p; \
        if (memcmp(&one, &three, sizeof one) != 0) return "proved: " #p; \
    }
    FIELDS(DIFFERS)
    if (memcmp(&t->peer.a, &t->fast.a, sizeof t->peer.a) != 0)
        return "by hand: answer, output or store";
    if (memcmp(&t->peer.a, &t->proved.a, sizeof t->peer.a) != 0)
        return "proved: answer, output or store";
    return NULL;
}

static void stop(const char *what, const call *c)
{
    printf("DIFFERENT after %lu calls: %s, event", (unsigned long)calls, what);
    for (size_t i = 0; c != NULL && i < EVENT; i++)
        printf(" %02X", c->event[i]);
    printf("\n");
    exit(1);
}

static void check(const three *t, const call *c)
{
    const char *what = difference(t);
    if (what != NULL)
        stop(what, c);
    calls++;
    refused[t->peer.a.number]++;
}

/* ---- Both calls */

static void event(three *t, const call *c)
{
    const seumhwari_answer s = seumhwari_event(c->event, c->event_length, t->proved.state, t->proved.a.out,
                                               c->out_length, t->proved.a.store, c->store_length);
    const fast_answer f = fast_event(&t->fast.state, c->event, c->event_length, t->fast.a.out, c->out_length,
                                     t->fast.a.store, c->store_length);
    const peer_answer p = peer_event(&t->peer.state, c->event, c->event_length, t->peer.a.out, c->out_length,
                                     t->peer.a.store, c->store_length);
    t->proved.state = s.state;
    t->proved.a.number = s.number, t->proved.a.count = s.count;
    t->fast.a.number = f.number, t->fast.a.count = f.count;
    t->peer.a.number = p.number, t->peer.a.count = p.count;
    check(t, c);
}

static void power_on(three *t, const peer_identity *id, size_t out_length, size_t store_length)
{
    const seumhwari_identity si = { id->vendor, id->product, id->revision, id->serial };
    const fast_identity fi = { id->vendor, id->product, id->revision, id->serial };
    const seumhwari_answer s =
        seumhwari_power_on(si, t->proved.a.out, out_length, t->proved.a.store, store_length);
    const fast_answer f =
        fast_power_on(&t->fast.state, &fi, t->fast.a.out, out_length, t->fast.a.store, store_length);
    const peer_answer p =
        peer_power_on(&t->peer.state, id, t->peer.a.out, out_length, t->peer.a.store, store_length);
    t->proved.state = s.state;
    t->proved.a.number = s.number, t->proved.a.count = s.count;
    t->fast.a.number = f.number, t->fast.a.count = f.count;
    t->peer.a.number = p.number, t->peer.a.count = p.count;
    check(t, NULL);
}

static void first_store(three *t, const uint8_t *store)
{
    memset(&t->peer.a, 0x5A, sizeof t->peer.a);
    memcpy(t->peer.a.store, store, STORE);
    t->fast.a = t->peer.a;
    t->proved.a = t->peer.a;
}

/* ---- Calls that lead nowhere */

static void other_lengths(const three *now, const uint8_t *bytes)
{
    three t = *now;
    const call c = { bytes, any(2) ? EVENT : any(16), any(2) ? OUT : any(OUT + 2),
                     any(2) ? STORE : any(STORE + 2) };
    event(&t, &c);
}

/* One or two bytes of the state; a bool stays one. */
static void changed_state(const three *now, const uint8_t *bytes)
{
    static const uint8_t often[] = { 0, 1, 2, 3, 4, 5, 7, 8, 14, 64, 127, 128, 0xA5,
                                     239, 240, 241, 251, 252, 255 };
    three t = *now;
    uint8_t *raw = (uint8_t *)&t.peer.state;
    for (uint32_t i = 0; i <= any(2); i++)
        raw[16 + any(sizeof t.peer.state - 16)] = any(3) ? often[any(sizeof often)] : (uint8_t)any(256);
    raw[offsetof(peer_state, reported)] &= 1;
    raw[offsetof(peer_state, sample)] &= 1;
    raw[offsetof(peer_state, configuration)] &= 1;
    raw[offsetof(peer_state, busy)] &= 1;
    same_state(&t);
    const call c = { bytes, EVENT, OUT, STORE };
    event(&t, &c);
}

/* A good store with a byte changed, or a short piece of it; then powered on. */
static void changed_store(const three *now)
{
    static const peer_identity nobody;
    three t = *now;
    uint8_t store[STORE];
    memcpy(store, now->peer.a.store, STORE);
    store[any(STORE)] = (uint8_t)any(256);
    if (any(2)) { /* with a CRC that holds */
        const uint16_t crc = peer_crc(store, STORE - 2);
        store[STORE - 2] = (uint8_t)crc;
        store[STORE - 1] = (uint8_t)(crc >> 8);
    }
    first_store(&t, store);
    power_on(&t, &nobody, any(8) ? OUT : any(OUT + 2), any(8) ? STORE : any(STORE + 2));
}

/* ---- Files */

static size_t read_file(const char *path, uint8_t *to, size_t size)
{
    FILE *file = fopen(path, "rb");
    const size_t got = file == NULL ? 0 : fread(to, 1, size, file);
    if (got == 0) {
        fprintf(stderr, "compare: no events in %s\n", path);
        exit(1);
    }
    fclose(file);
    return got;
}

static void run(three *t, const uint8_t *bytes, size_t size, const peer_identity *id)
{
    power_on(t, id, OUT, STORE);
    for (size_t i = 0; i < size; i += EVENT) {
        const call c = { bytes + i, size - i < EVENT ? size - i : EVENT, OUT, STORE };
        event(t, &c);
        if (i + EVENT > size)
            break;
        other_lengths(t, bytes + i);
        changed_state(t, bytes + any((uint32_t)(size / EVENT)) * EVENT);
        if (any(8) == 0)
            changed_store(t);
    }
}

int main(int argc, char **argv)
{
    static const peer_identity nobody, somebody = { 0x12345678, 2, 0x80000003, 0xFFFFFFFF };
    static uint8_t bytes[1 << 24], store[STORE];
    static three t;

    if (argc < 2) {
        fprintf(stderr, "usage: compare FILE...\n");
        return 2;
    }
    for (int i = 1; i < argc; i++) {
        const size_t size = read_file(argv[i], bytes, sizeof bytes);
        memset(store, 0, STORE);
        first_store(&t, store);
        run(&t, bytes, size, &nobody);
        memcpy(store, t.peer.a.store, STORE); /* what the run left, as it is and spoiled */
        first_store(&t, store);
        run(&t, bytes, size, &nobody);
        store[any(STORE)] ^= (uint8_t)(1 + any(255));
        first_store(&t, store);
        run(&t, bytes, size, &somebody);
        memset(store, 0xFF, STORE);
        first_store(&t, store);
        run(&t, bytes, size, &nobody);
    }
    printf("the same: %lu calls, refused", (unsigned long)calls);
    for (int i = 1; i <= 6; i++)
        printf(" %d: %lu", i, (unsigned long)refused[i]);
    printf("\n");
    return 0;
}
