/* Outputs of 0 to 60 bytes with guard bytes around them: below 48 a call is refused by 4 and nothing is written, from 48 on only its frames are. */
#include "scenes.h"

#include <stdio.h>

enum { MOST = 60 };

static void expect(const pair *p, const char *call, const char *what, size_t length, uint8_t count)
{
    if (what != NULL)
        fail("outputs", "%s into %zu bytes: %s", call, length, what);
    if (p->number != (length < SEUMHWARI_OUT ? SEUMHWARI_SHORT_OUT : SEUMHWARI_DONE))
        fail("outputs", "%s into %zu bytes: number %u", call, length, p->number);
    if (p->count != (length < SEUMHWARI_OUT ? 0 : count))
        fail("outputs", "%s into %zu bytes: %u frames", call, length, p->count);
}

static void run_power_on(pair *p, size_t length)
{
    const seumhwari_identity identity = { 1, 2, 3, 4 };
    scene_fresh(p);
    expect(p, "power-on", pair_power_on(p, identity, length, SEUMHWARI_STORE), length, 1);
}

/* One event that sends `count` frames, from a scene. */
static void run_event(pair *p, const char *call, void (*scene)(pair *), const uint8_t *event, size_t length, uint8_t count)
{
    scene(p);
    expect(p, call, pair_event(p, event, SEUMHWARI_EVENT, length, SEUMHWARI_STORE), length, count);
}

int main(void)
{
    static pair p;
    uint8_t tick[SEUMHWARI_EVENT], read[SEUMHWARI_EVENT], digits[SEUMHWARI_EVENT], reset[SEUMHWARI_EVENT];
    event_tick(tick);
    event_read(read, 1, 0x6132, 1);
    event_write(digits, 1, 0x6132, 1, 1, 0);
    event_of_text(reset, "000#8100");
    for (size_t length = 0; length <= MOST; length++) {
        run_power_on(&p, length);
        run_event(&p, "a tick with nothing due", scene_fresh, tick, length, 0);
        run_event(&p, "a read", scene_fresh, read, length, 1);
        run_event(&p, "a write that ends the capping", scene_capped, digits, length, 2);
        run_event(&p, "a tick with all due", scene_operational, tick, length, 4);
        run_event(&p, "a reset", scene_operational, reset, length, 1);
    }
    printf("outputs: 0 to %d bytes, six calls each\n", MOST);
    return 0;
}
