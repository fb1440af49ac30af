/* Power-on over stores of every kind and size. What is not an image exactly must be worth the same as 64 zero bytes; a good one must be taken. */
#include "images.h"

#include <stdio.h>
#include <string.h>

enum { EACH = 2000 };

static const seumhwari_identity identity = { 7, 8, 9, 10 };

/* Powers on over these bytes, of this many of which the call is told. */
static void power_on(pair *p, const char *what, const uint8_t *bytes, size_t told)
{
    pair_lend_store(p, bytes, SEUMHWARI_STORE);
    const char *difference = pair_power_on(p, identity, SEUMHWARI_OUT, told);
    if (difference != NULL)
        fail("stores", "%s: %s", what, difference);
}

static bool same_state(const pair *p, const pair *q)
{
    return memcmp(&p->peer, &q->peer, sizeof p->peer) == 0;
}

/* What the records of a good image must have become; the peer has checked the rest. */
static bool taken(const pair *p, const records *r)
{
    const seumhwari_state *s = &p->state;
    if (s->core.active.id != (r->has_n ? r->n[0] : 1) || s->core.active.bit != (r->has_n ? r->n[1] : 3))
        return false;
    if (r->has_c && memcmp(&s->settings.communication.heartbeat, r->c + 1, 2) != 0)
        return false;
    if (r->has_c && r->c[0] == s->core.active.id && s->settings.communication.valid != r->c[18])
        return false;
    return !r->has_a || (memcmp(&s->settings.application.scaling.low, r->a + 1, 12) == 0 && s->settings.application.valid == r->a[14]);
}

static void run_kind(image_kind kind, const pair *empty)
{
    static pair p;
    for (uint32_t seed = 1; seed <= EACH; seed++) {
        chance c = { seed };
        records made;
        uint8_t image[SEUMHWARI_STORE];
        make_image(image, kind, &c, &made);
        power_on(&p, image_name(kind), image, sizeof image);
        if (p.number != 0)
            fail("stores", "%s, seed %u: refused %u", image_name(kind), seed, p.number);
        if (kind == GOOD ? !taken(&p, &made) : !same_state(&p, empty))
            fail("stores", "%s, seed %u: %s", image_name(kind), seed, kind == GOOD ? "not taken" : "not worth a store of zeros");
    }
}

/* A good image of all three records, with any one bit changed. */
static void run_bits(const pair *empty)
{
    static pair p;
    uint8_t image[SEUMHWARI_STORE];
    records made;
    chance c = { 0 };
    do
        make_image(image, GOOD, &c, &made);
    while (!made.has_n || !made.has_c || !made.has_a);
    for (size_t bit = 0; bit < 8 * sizeof image; bit++) {
        image[bit / 8] ^= (uint8_t)(1u << bit % 8);
        power_on(&p, "a bit changed", image, sizeof image);
        if (p.number != 0 || !same_state(&p, empty))
            fail("stores", "bit %zu changed: not worth a store of zeros", bit);
        image[bit / 8] ^= (uint8_t)(1u << bit % 8);
    }
}

/* Any other length is refused by 5, and the state is a zero store's. */
static void run_sizes(const pair *empty)
{
    static pair p;
    static uint8_t image[LONGEST];
    chance c = { 6 };
    make_image(image, GOOD, &c, NULL);
    for (size_t length = 0; length <= LONGEST; length++) {
        if (length == SEUMHWARI_STORE)
            continue;
        power_on(&p, "a store of another length", image, length);
        if (p.number != SEUMHWARI_BAD_STORE || p.count != 0 || !same_state(&p, empty))
            fail("stores", "%zu bytes: number %u", length, p.number);
    }
}

int main(void)
{
    static pair empty;
    static const uint8_t zeros[SEUMHWARI_STORE];
    power_on(&empty, "zeros", zeros, sizeof zeros);
    for (int kind = 0; kind < IMAGE_KINDS; kind++)
        run_kind((image_kind)kind, &empty);
    run_bits(&empty);
    run_sizes(&empty);
    printf("stores: %d kinds of %d images, each bit of one changed, lengths 0 to %d\n", IMAGE_KINDS, EACH, LONGEST);
    return 0;
}
