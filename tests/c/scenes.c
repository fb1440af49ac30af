#include "scenes.h"

#include <stdio.h>
#include <string.h>

/* ---- Requests */

static void request(uint8_t event[SEUMHWARI_EVENT], uint8_t id, uint8_t command, uint16_t index, uint8_t sub, uint32_t value)
{
    uint8_t data[8] = { command, (uint8_t)index, (uint8_t)(index >> 8), sub };
    put32(data + 4, value);
    event_frame(event, (uint16_t)(0x600 + id), data, sizeof data);
}

void event_read(uint8_t event[SEUMHWARI_EVENT], uint8_t id, uint16_t index, uint8_t sub)
{
    request(event, id, 0x40, index, sub, 0);
}

/* 23h is four bytes; each byte less adds 4; 22h leaves the size out. */
void event_write(uint8_t event[SEUMHWARI_EVENT], uint8_t id, uint16_t index, uint8_t sub, uint8_t size, uint32_t value)
{
    request(event, id, size == 0 ? 0x22 : (uint8_t)(0x23 + 4 * (4 - size)), index, sub, value);
}

/* ---- Signatures */

static uint32_t bits_of(float value)
{
    uint32_t bits;
    memcpy(&bits, &value, sizeof bits);
    return bits;
}

uint16_t signature_of_c(const peer_state *s)
{
    uint8_t covered[COVERED_C];
    covered[0] = s->direction;
    put16(covered + 1, s->refresh);
    covered[3] = s->validation;
    put32(covered + 4, s->first);
    put32(covered + 8, s->second);
    return signature_c(covered);
}

uint16_t signature_of_a(const peer_state *s)
{
    uint8_t covered[COVERED_A];
    put32(covered, bits_of(s->low));
    put32(covered + 4, bits_of(s->high));
    put32(covered + 8, bits_of(s->offset));
    covered[12] = s->digits;
    return signature_a(covered);
}

/* ---- Scenes */

static void write_entry(pair *p, uint16_t index, uint8_t sub, uint8_t size, uint32_t value)
{
    uint8_t event[SEUMHWARI_EVENT];
    event_write(event, p->peer.active_id, index, sub, size, value);
    const char *what = pair_serve(p, event);
    if (what != NULL || p->number != 0 || p->count == 0 || lent_bytes(&p->out)[4] != 0x60)
        fail("scene", "the write of %04X:%u was not taken (%s)", index, sub, what == NULL ? "both refuse it" : what);
}

void scene_fresh(pair *p)
{
    static const uint8_t empty[SEUMHWARI_STORE];
    const seumhwari_identity identity = { 0x93, 0x53434D4B, 0x10001, 0x15011234 };
    pair_lend_store(p, empty, sizeof empty);
    const char *what = pair_power_on(p, identity, SEUMHWARI_OUT, SEUMHWARI_STORE);
    if (what != NULL || p->number != 0)
        fail("scene", "power-on: %s", what == NULL ? "refused" : what);
}

static void sign(pair *p)
{
    write_entry(p, 0x51FF, 1, 2, signature_of_a(&p->peer));
    write_entry(p, 0x51FE, 0, 1, 0xA5);
    write_entry(p, 0x13FF, 1, 2, signature_of_c(&p->peer));
    write_entry(p, 0x13FE, 0, 1, 0xA5);
}

void scene_signed(pair *p)
{
    scene_fresh(p);
    sign(p);
}

void scene_operational(pair *p)
{
    scene_fresh(p);
    write_entry(p, 0x1017, 0, 2, 1);
    write_entry(p, 0x1800, 5, 2, 1);
    write_entry(p, 0x1301, 2, 2, 1);
    sign(p);
    pair_script(p, "scene", "000#0101");
}

void scene_stopped(pair *p)
{
    scene_fresh(p);
    pair_script(p, "scene", "000#0200");
}

void scene_configuration(pair *p)
{
    scene_fresh(p);
    pair_script(p, "scene", "7E5#0401000000000000");
}

void scene_upload(pair *p)
{
    scene_fresh(p);
    pair_script(p, "scene", "601#4008100000000000 601#6000000000000000");
}

/* A million bar at both points and four digits. */
void scene_capped(pair *p)
{
    scene_fresh(p);
    write_entry(p, 0x6121, 1, 4, 0x49742400);
    write_entry(p, 0x6123, 1, 4, 0x49742400);
    write_entry(p, 0x6132, 1, 1, 4);
}

void scene_counting(pair *p)
{
    scene_fresh(p);
    write_entry(p, 0x1800, 2, 1, 3);
    sign(p);
    pair_script(p, "scene", "000#0101 080#");
}
