/* Floats that are no number: NaNs of both signs, quiet and signalling, with the least, the greatest and mixed payloads, and infinities.
 * A state that has one in 6121h, 6123h or 6124h is refused by 6 and handed back bit for bit; a write of one is aborted by 06090030h and
 * changes nothing; a store that holds one is worth a store of zeros. The proofs know a single NaN, so its bits are tested here. */
#include "images.h"
#include "scenes.h"

#include <stdio.h>
#include <string.h>

enum { FLOATS = 3, ODD = 18, CHOICES = ODD + 1, ALL = CHOICES * CHOICES * CHOICES };

static const uint32_t odd[ODD] = {
    0x7F800000, 0xFF800000,                                  /* infinities */
    0x7F800001, 0x7F8ABCDE, 0x7FAAAAAA, 0x7FBFFFFF,          /* signalling: the first bit of the payload is 0 */
    0xFF800001, 0xFF812345, 0xFF955555, 0xFFBFFFFF,
    0x7FC00000, 0x7FC00001, 0x7FD55555, 0x7FFFFFFF,          /* quiet */
    0xFFC00000, 0xFFC00001, 0xFFEDCBA9, 0xFFFFFFFF,
};

static const struct {
    const char *name;
    void (*set)(pair *);
} scenes[] = {
    { "fresh", scene_fresh }, { "signed", scene_signed }, { "Operational", scene_operational }, { "Stopped", scene_stopped },
    { "LSS configuration", scene_configuration }, { "upload", scene_upload }, { "capped", scene_capped }, { "counting", scene_counting },
};
enum { SCENES = sizeof scenes / sizeof *scenes };

/* Reads, writes that would put the floats right, save, load, each NMT command, SYNC, a remote frame, LSS, a frame of nobody's. */
static const char *const frames[] = {
    "601#4021610100000000", "601#4030610100000000", "601#4030910100000000", "601#2321610100000000", "601#2323610100002043",
    "601#2324610100000000", "601#2F32610103000000", "601#2310100173617665", "601#231110016C6F6164", "000#0101", "000#0201",
    "000#8001", "000#8101", "000#8201", "080#", "181#R", "7E5#0401000000000000", "7FF#00",
};
static const uint16_t samples[] = { 0, 12000, 65535 };
enum { TICKS = 2, FRAMES = sizeof frames / sizeof *frames, SAMPLES = sizeof samples / sizeof *samples, EVENTS = FRAMES + SAMPLES + TICKS };

static void make_event(uint8_t event[SEUMHWARI_EVENT], int number)
{
    event_tick(event);
    if (number < FRAMES)
        event_of_text(event, frames[number]);
    else if (number < FRAMES + SAMPLES)
        event_sample(event, samples[number - FRAMES]);
    else if (number == EVENTS - 1)
        memset(event + 1, 0xFF, SEUMHWARI_EVENT - 1);
}

/* ---- Choices: each float keeps its own bits or takes one of the odd ones; choice 0 keeps all */

typedef struct {
    uint32_t bits[FLOATS];
} floats;

static floats choose(floats own, int choice)
{
    for (int i = 0; i < FLOATS; i++, choice /= CHOICES)
        if (choice % CHOICES != 0)
            own.bits[i] = odd[choice % CHOICES - 1];
    return own;
}

/* One odd value alone, in one float, two or three. */
static bool alike(int choice)
{
    int value = 0;
    for (; choice != 0; choice /= CHOICES) {
        if (value != 0 && choice % CHOICES != 0 && choice % CHOICES != value)
            return false;
        value = choice % CHOICES != 0 ? choice % CHOICES : value;
    }
    return value != 0;
}

/* 51FFh:1 of these bits and the digits. */
static uint16_t signature_of(const floats *f, uint8_t digits)
{
    uint8_t covered[COVERED_A];
    for (int i = 0; i < FLOATS; i++)
        put32(covered + 4 * i, f->bits[i]);
    covered[12] = digits;
    return signature_a(covered);
}

/* ---- States */

/* Copied as bytes: a float in a register might be made quiet. */
static floats floats_of(const pair *p)
{
    floats f;
    _Static_assert(sizeof f == sizeof p->state.settings.application.scaling, "three floats and nothing else");
    memcpy(&f, &p->state.settings.application.scaling, sizeof f);
    return f;
}

/* With a signature that is right for these bits, or as the scene has it. */
static void set_floats(pair *p, const floats *f, bool sign)
{
    seumhwari_state s = p->state;
    memcpy(&s.settings.application.scaling, f, sizeof *f);
    if (sign) {
        s.settings.application.signature = signature_of(f, s.settings.application.digits);
        s.settings.application.valid = 0xA5;
    }
    pair_set_state(p, &s);
}

/* What a refused call must have left: the pair has compared state, output and store with those before. */
static void expect(const pair *p, const char *scene, const floats *f, const char *what, uint8_t number)
{
    const floats back = floats_of(p);
    const uint32_t *in = f->bits, *out = back.bits;
    if (memcmp(&back, f, sizeof back) != 0)
        fail("nans", "%s: %08X %08X %08X came back as %08X %08X %08X", scene, in[0], in[1], in[2], out[0], out[1], out[2]);
    if (what != NULL)
        fail("nans", "%s with %08X %08X %08X: %s", scene, in[0], in[1], in[2], what);
    if (p->number != number || p->count != 0)
        fail("nans", "%s with %08X %08X %08X: number %u, %u frames", scene, in[0], in[1], in[2], p->number, p->count);
}

/* Every event in a scene, with each choice or, where not all are asked for, each odd value by itself. Stopped takes all: there no other rule
 * is broken, while elsewhere the reading of such floats counts as capped and may be unreported too. */
static unsigned run_states(pair *p, int scene, bool all, bool sign)
{
    unsigned calls = 0;
    uint8_t event[SEUMHWARI_EVENT];
    scenes[scene].set(p);
    const floats own = floats_of(p);
    for (int choice = 1; choice < ALL; choice++) {
        if (!all && !alike(choice))
            continue;
        const floats f = choose(own, choice);
        set_floats(p, &f, sign);
        for (int n = 0; n < EVENTS; n++, calls++) {
            make_event(event, n);
            expect(p, scenes[scene].name, &f, pair_serve(p, event), SEUMHWARI_BAD_STATE);
        }
    }
    return calls;
}

/* A lower number goes first, and the state comes back the same. */
static unsigned run_lower(pair *p)
{
    uint8_t tick[SEUMHWARI_EVENT], kind[SEUMHWARI_EVENT] = { 4 }, frame[SEUMHWARI_EVENT] = { SEUMHWARI_KIND_FRAME, 0, 8 };
    unsigned calls = 0;
    event_tick(tick);
    scene_fresh(p);
    const floats own = floats_of(p);
    for (int choice = 1; choice < ALL; choice++) {
        if (!alike(choice))
            continue;
        const floats f = choose(own, choice);
        set_floats(p, &f, false);
        expect(p, "12 bytes", &f, pair_event(p, tick, SEUMHWARI_EVENT - 1, SEUMHWARI_OUT, SEUMHWARI_STORE), SEUMHWARI_BAD_EVENT);
        expect(p, "kind 4", &f, pair_serve(p, kind), SEUMHWARI_BAD_KIND);
        expect(p, "CAN-ID 2048", &f, pair_serve(p, frame), SEUMHWARI_BAD_FRAME);
        expect(p, "a short output", &f, pair_event(p, tick, SEUMHWARI_EVENT, SEUMHWARI_OUT - 1, SEUMHWARI_STORE), SEUMHWARI_SHORT_OUT);
        expect(p, "a short store", &f, pair_event(p, tick, SEUMHWARI_EVENT, SEUMHWARI_OUT, SEUMHWARI_STORE - 1), SEUMHWARI_BAD_STORE);
        calls += 5;
    }
    return calls;
}

/* ---- Writes */

/* In Operational the entry is locked, and that is checked first. Stopped answers nothing, and an open upload would end: neither is for here. */
static unsigned run_writes(pair *p, int scene)
{
    static const uint16_t entries[FLOATS] = { 0x6121, 0x6123, 0x6124 };
    unsigned calls = 0;
    uint8_t event[SEUMHWARI_EVENT];
    char reply[64], due[64];
    scenes[scene].set(p);
    const pair before = *p;
    const char *const code = before.state.core.nmt == 5 ? "22000008" : "30000906";
    for (int n = 0; n < ODD * FLOATS * 2; n++, calls++) {
        const uint16_t entry = entries[n / 2 % FLOATS];
        const uint32_t bits = odd[n / 2 / FLOATS];
        event_write(event, before.peer.active_id, entry, 1, n % 2 == 0 ? 4 : 0, bits);
        const char *what = pair_serve(p, event);
        text_of_frames(reply, sizeof reply, lent_bytes(&p->out), p->count);
        snprintf(due, sizeof due, "581#80%02X%02X01%s", entry & 0xFF, entry >> 8, code);
        if (what != NULL)
            fail("nans", "%s, %08X into %04Xh: the proved node and the peer differ: %s", scenes[scene].name, bits, entry, what);
        if (p->number != 0 || strcmp(reply, due) != 0)
            fail("nans", "%s, %08X into %04Xh: number %u, %s and not %s", scenes[scene].name, bits, entry, p->number, reply, due);
        if (memcmp(&p->peer, &before.peer, sizeof p->peer) != 0 || memcmp(&p->store, &before.store, sizeof p->store) != 0)
            fail("nans", "%s, %08X into %04Xh: not refused without a trace", scenes[scene].name, bits, entry);
    }
    return calls;
}

/* ---- Stores */

/* An image of all three records, right in all but the floats. */
static void make_store(uint8_t image[SEUMHWARI_STORE], int choice, bool sign)
{
    records r;
    chance c = { 1 };
    make_image(image, GOOD, &c, &r);
    r.has_n = r.has_c = r.has_a = true;
    const floats f = choose((floats){ { 0, 0x43200000, 0 } }, choice);
    for (int i = 0; i < FLOATS; i++)
        put32(r.a + 1 + 4 * i, f.bits[i]);
    r.a[14] = sign ? 0xA5 : 0;
    put16(r.a + 15, signature_of(&f, r.a[13]));
    pack_image(image, &r);
}

/* Power-on over an image; then a save of C and a reset of a node whose store it becomes. */
typedef struct {
    pair on, saved, reset;
} uses;

static void use(uses *u, const uint8_t image[SEUMHWARI_STORE])
{
    const seumhwari_identity identity = { 7, 8, 9, 10 };
    pair_lend_store(&u->on, image, SEUMHWARI_STORE);
    const char *what = pair_power_on(&u->on, identity, SEUMHWARI_OUT, SEUMHWARI_STORE);
    if (what != NULL || u->on.number != 0)
        fail("nans", "power-on: %s", what == NULL ? "refused" : what);
    scene_fresh(&u->saved);
    u->reset = u->saved;
    pair_lend_store(&u->saved, image, SEUMHWARI_STORE);
    pair_lend_store(&u->reset, image, SEUMHWARI_STORE);
    pair_script(&u->saved, "nans", "601#2310100273617665");
    pair_script(&u->reset, "nans", "000#8101");
}

static bool same(const pair *p, const pair *q)
{
    return memcmp(&p->peer, &q->peer, sizeof p->peer) == 0;
}

/* Choice 0 is a good image: it must be taken, or the others would be refused for another reason. */
static unsigned run_stores(bool sign)
{
    static const uint8_t zeros[SEUMHWARI_STORE];
    static uses empty, used;
    uint8_t image[SEUMHWARI_STORE];
    use(&empty, zeros);
    for (int choice = 0; choice < ALL; choice++) {
        make_store(image, choice, sign);
        use(&used, image);
        const bool worthless = same(&used.on, &empty.on) && same(&used.reset, &empty.reset)
            && memcmp(&used.saved.store, &empty.saved.store, sizeof empty.saved.store) == 0;
        if (worthless != (choice != 0))
            fail("nans", "a store of choice %d: %s", choice, choice == 0 ? "a good one is not taken" : "not worth a store of zeros");
    }
    return ALL - 1;
}

int main(void)
{
    static pair p;
    unsigned states = run_lower(&p), writes = 0;
    for (int scene = 0; scene < SCENES; scene++) {
        const bool stopped = scenes[scene].set == scene_stopped;
        states += run_states(&p, scene, stopped, false) + run_states(&p, scene, false, true);
        if (!stopped && scenes[scene].set != scene_upload)
            writes += run_writes(&p, scene);
    }
    const unsigned stores = run_stores(false) + run_stores(true);
    printf("nans: %d NaNs and infinities in three floats: %u calls refused, %u writes aborted, %u stores worth nothing\n",
           ODD, states, writes, stores);
    return 0;
}
