/* The proved node against the peer: runs of events from first stores of every kind. Number, count, output, store and each field of the
 * state are compared after every call; on a difference seed and step are printed. usage: against_peer [SEED] */
#include "chosen.h"
#include "images.h"
#include "sights.h"

#include <stdio.h>
#include <stdlib.h>
#include <string.h>

enum { RUNS = 1000, STEPS = 300 };

static unsigned broken_states;

/* A byte of the state changed, as no call would leave it; the node goes on from the state before. */
static const char *break_state(pair *p, const uint8_t *event, chance *c)
{
    pair broken = *p;
    seumhwari_state s = p->state;
    ((uint8_t *)&s.settings)[below(c, sizeof s.settings)] ^= (uint8_t)(1u << below(c, 8));
    pair_set_state(&broken, &s);
    const char *what = pair_serve(&broken, event);
    broken_states += broken.number == SEUMHWARI_BAD_STATE;
    return what;
}

static void look(pair *p, const lent *store, uint8_t nmt)
{
    see_frames(lent_bytes(&p->out), p->count);
    see(REFUSED, p->number != 0);
    see(SAVED, memcmp(store, &p->store, sizeof *store) != 0);
    see(STARTED, nmt != 5 && p->state.core.nmt == 5);
}

static const char *step(pair *p, chance *c)
{
    uint8_t event[SEUMHWARI_EVENT];
    any_event(event, &p->peer, c);
    const char *what = once_in(c, 10) ? break_state(p, event, c) : NULL;
    if (what != NULL)
        return what;
    const lent store = p->store;
    const uint8_t nmt = p->state.core.nmt;
    const size_t length = once_in(c, 60) ? below(c, SEUMHWARI_EVENT) : SEUMHWARI_EVENT;
    const size_t out = once_in(c, 60) ? below(c, 64) : SEUMHWARI_OUT;
    const size_t told = once_in(c, 60) ? below(c, 128) : SEUMHWARI_STORE;
    what = pair_event(p, event, length, out, told);
    look(p, &store, nmt);
    return what;
}

static void run(uint32_t seed, uint32_t number)
{
    static pair p;
    chance c = { (uint64_t)seed << 32 | number };
    const image_kind kind = once_in(&c, 2) ? GOOD : (image_kind)below(&c, IMAGE_KINDS);
    const seumhwari_identity identity = { any(&c), any(&c), any(&c), any(&c) };
    uint8_t image[SEUMHWARI_STORE];
    make_image(image, kind, &c, NULL);
    pair_lend_store(&p, image, sizeof image);
    const char *what = pair_power_on(&p, identity, SEUMHWARI_OUT, SEUMHWARI_STORE);
    if (what != NULL || p.number != 0)
        fail("against_peer", "seed %u, run %u (%s), power-on: %s", seed, number, image_name(kind), what == NULL ? "refused" : what);
    for (uint32_t n = 1; n <= STEPS; n++) {
        what = step(&p, &c);
        if (what != NULL)
            fail("against_peer", "seed %u, run %u (%s), step %u: %s", seed, number, image_name(kind), n, what);
    }
}

int main(int count, char **words)
{
    const uint32_t seed = count > 1 ? (uint32_t)strtoul(words[1], NULL, 10) : 1;
    for (uint32_t number = 1; number <= RUNS; number++)
        run(seed, number);
    printf("against_peer: %d events from %d first stores, seed %u, no difference: %u broken states,", RUNS * STEPS, RUNS, seed, broken_states);
    tell_sights(stdout, "against_peer", 1);
    if (broken_states == 0)
        fail("against_peer", "no broken states in the whole run");
    return 0;
}
