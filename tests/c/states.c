/* States that a caller builds: each state rule broken by itself is refused by 6 and changes nothing; its limits are served. Then every
 * byte of several states takes every value, and the proved node and the peer must agree. */
#include "scenes.h"

#include <stdio.h>
#include <string.h>

#define AT(field) offsetof(seumhwari_state, field), sizeof(((seumhwari_state *)0)->field)
#define C_GROUP(field) AT(settings.communication.field)
#define A_GROUP(field) AT(settings.application.field)
#define CORE(field) AT(core.field)

/* A field set to a value, in a scene; the number that a call then gives. */
typedef struct {
    const char *what;
    void (*scene)(pair *);
    size_t place, size;
    uint32_t value;
    uint8_t number;
} edit;

static const edit edits[] = {
    { "Node-ID 0", scene_fresh, CORE(active.id), 0, 6 },
    { "Node-ID 127", scene_fresh, CORE(active.id), 127, 0 },
    { "Node-ID 128", scene_fresh, CORE(active.id), 128, 6 },
    { "pending Node-ID 0", scene_fresh, CORE(pending.id), 0, 6 },
    { "pending Node-ID 127", scene_fresh, CORE(pending.id), 127, 0 },
    { "pending Node-ID 128", scene_fresh, CORE(pending.id), 128, 6 },
    { "bit index 1", scene_fresh, CORE(active.bit), 1, 6 },
    { "bit index 5", scene_fresh, CORE(active.bit), 5, 6 },
    { "bit index 8", scene_fresh, CORE(active.bit), 8, 0 },
    { "bit index 9", scene_fresh, CORE(active.bit), 9, 6 },
    { "pending bit index 5", scene_fresh, CORE(pending.bit), 5, 6 },
    { "pending bit index 9", scene_fresh, CORE(pending.bit), 9, 6 },
    { "NMT 0", scene_fresh, CORE(nmt), 0, 6 },
    { "NMT 6", scene_fresh, CORE(nmt), 6, 6 },
    { "NMT 4", scene_fresh, CORE(nmt), 4, 0 },
    { "NMT 128", scene_fresh, CORE(nmt), 128, 6 },
    { "1301h:1 of 2", scene_fresh, C_GROUP(srdo.direction), 2, 6 },
    { "1301h:2 of 0", scene_fresh, C_GROUP(srdo.refresh), 0, 6 },
    { "1301h:3 of 0", scene_fresh, C_GROUP(srdo.validation), 0, 6 },
    { "1301h:5 of FFh", scene_fresh, C_GROUP(srdo.first), 0xFF, 6 },
    { "1301h:5 even", scene_fresh, C_GROUP(srdo.first), 0x102, 6 },
    { "1301h:5 of 17Fh", scene_fresh, C_GROUP(srdo.first), 0x17F, 0 },
    { "1301h:5 of 181h", scene_fresh, C_GROUP(srdo.first), 0x181, 6 },
    { "1301h:6 of 100h", scene_fresh, C_GROUP(srdo.second), 0x100, 6 },
    { "1301h:6 odd", scene_fresh, C_GROUP(srdo.second), 0x103, 6 },
    { "1301h:6 of 180h", scene_fresh, C_GROUP(srdo.second), 0x180, 0 },
    { "1301h:6 of 182h", scene_fresh, C_GROUP(srdo.second), 0x182, 6 },
    { "1800h:2 of 240", scene_fresh, C_GROUP(tpdo.kind), 240, 0 },
    { "1800h:2 of 241", scene_fresh, C_GROUP(tpdo.kind), 241, 6 },
    { "1800h:2 of 251", scene_fresh, C_GROUP(tpdo.kind), 251, 6 },
    { "2330h of 2", scene_fresh, A_GROUP(autostart), 2, 6 },
    { "6121h above a million", scene_fresh, A_GROUP(scaling.low), 0x49742401, 6 },
    { "6121h below a million", scene_fresh, A_GROUP(scaling.low), 0xC9742401, 6 },
    { "6123h of minus a million", scene_fresh, A_GROUP(scaling.high), 0xC9742400, 0 },
    { "6123h infinite", scene_fresh, A_GROUP(scaling.high), 0x7F800000, 6 },
    { "6124h no number", scene_fresh, A_GROUP(scaling.offset), 0x7FC00000, 6 },
    { "6124h minus no number", scene_fresh, A_GROUP(scaling.offset), 0xFF800001, 6 },
    { "6132h of 5", scene_fresh, A_GROUP(digits), 5, 6 },
    { "13FEh of A5h unsigned", scene_fresh, C_GROUP(valid), 0xA5, 6 },
    { "13FEh of A4h", scene_fresh, C_GROUP(valid), 0xA4, 0 },
    { "51FEh of A5h unsigned", scene_fresh, A_GROUP(valid), 0xA5, 6 },
    { "51FEh of A4h", scene_fresh, A_GROUP(valid), 0xA4, 0 },
    { "digits again after the signature", scene_signed, A_GROUP(digits), 4, 6 },
    { "51FFh after the validity", scene_signed, A_GROUP(signature), 0x1234, 6 },
    { "1301h:2 after the signature", scene_signed, C_GROUP(srdo.refresh), 26, 6 },
    { "1301h:6 after the signature", scene_signed, C_GROUP(srdo.second), 0x104, 6 },
    { "Operational unsigned", scene_fresh, CORE(nmt), 5, 6 },
    { "Operational signed", scene_signed, CORE(nmt), 5, 0 },
    { "Operational without 51FEh", scene_operational, A_GROUP(valid), 0, 6 },
    { "Operational without 13FEh", scene_operational, C_GROUP(valid), 0, 6 },
    { "reported and not capped", scene_fresh, CORE(reported), 1, 6 },
    { "capped and not reported", scene_capped, CORE(reported), 0, 6 },
    { "reported while Stopped", scene_stopped, CORE(reported), 1, 0 },
    { "LSS configuration while Stopped", scene_stopped, CORE(lss.configuration), 1, 6 },
    { "LSS configuration while Operational", scene_operational, CORE(lss.configuration), 1, 6 },
    { "LSS progress 3", scene_fresh, CORE(lss.progress), 3, 0 },
    { "LSS progress 4", scene_fresh, CORE(lss.progress), 4, 6 },
    { "two SYNCs of three", scene_counting, CORE(tpdo.syncs), 2, 0 },
    { "three SYNCs of three", scene_counting, CORE(tpdo.syncs), 3, 6 },
    { "a SYNC counted for a timed TPDO", scene_fresh, CORE(tpdo.syncs), 1, 6 },
    { "an upload at byte 14, toggle 1", scene_upload, CORE(upload.at), 14, 6 },
    { "an upload at byte 8", scene_upload, CORE(upload.at), 8, 6 },
    { "an upload at byte 7, toggle 0", scene_upload, CORE(upload.toggle), 0, 6 },
    { "an upload at byte 7, toggle 2", scene_upload, CORE(upload.toggle), 2, 6 },
    { "a closed upload anywhere", scene_fresh, CORE(upload.at), 99, 0 },
};

static void set_field(pair *p, size_t place, size_t size, uint32_t value)
{
    seumhwari_state s = p->state;
    memcpy((uint8_t *)&s + place, &value, size);
    pair_set_state(p, &s);
}

static void expect(pair *p, const char *what, uint8_t number)
{
    uint8_t event[SEUMHWARI_EVENT];
    event_tick(event);
    const char *difference = pair_serve(p, event);
    if (difference != NULL)
        fail("states", "%s: %s", what, difference);
    if (p->number != number)
        fail("states", "%s: number %u where %u is due", what, p->number, number);
}

/* The one rule that no single field shows: signed COB-IDs that are not neighbours. */
static void far_apart(pair *p)
{
    scene_fresh(p);
    seumhwari_state s = p->state;
    s.settings.communication.srdo.second = 0x104;
    pair_set_state(p, &s);
    s.settings.communication.signature = signature_of_c(&p->peer);
    s.settings.communication.valid = 0xA5;
    pair_set_state(p, &s);
    expect(p, "13FEh of A5h over COB-IDs that are no neighbours", 6);
}

/* A bool must be 0 or 1: that is what C owes. */
static bool holds_bool(size_t place)
{
    return place == offsetof(seumhwari_state, core.reported) || place == offsetof(seumhwari_state, core.tpdo.sample)
        || place == offsetof(seumhwari_state, core.lss.configuration) || place == offsetof(seumhwari_state, core.upload.busy);
}

static unsigned sweep(pair *p, void (*scene)(pair *), const uint8_t *event)
{
    unsigned calls = 0;
    for (size_t place = 0; place < sizeof(seumhwari_state); place++) {
        for (uint32_t value = 0; value < (holds_bool(place) ? 2 : 256); value++, calls++) {
            scene(p);
            set_field(p, place, 1, value);
            const char *what = pair_serve(p, event);
            if (what != NULL)
                fail("states", "byte %zu of the state at %02X: %s", place, value, what);
        }
    }
    return calls;
}

int main(void)
{
    static void (*const scenes[])(pair *) = { scene_fresh, scene_operational, scene_stopped, scene_configuration,
                                              scene_upload, scene_capped, scene_counting };
    static pair p;
    uint8_t tick[SEUMHWARI_EVENT], save[SEUMHWARI_EVENT];
    unsigned calls = 0;
    event_tick(tick);
    event_write(save, 1, 0x1010, 1, 4, 0x65766173);
    for (size_t i = 0; i < sizeof edits / sizeof *edits; i++) {
        edits[i].scene(&p);
        set_field(&p, edits[i].place, edits[i].size, edits[i].value);
        expect(&p, edits[i].what, edits[i].number);
    }
    far_apart(&p);
    for (size_t i = 0; i < sizeof scenes / sizeof *scenes; i++)
        calls += sweep(&p, scenes[i], tick) + sweep(&p, scenes[i], save);
    printf("states: %zu built by hand, %u by changing a byte\n", sizeof edits / sizeof *edits + 1, calls);
    return 0;
}
