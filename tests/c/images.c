#include "images.h"

#include <string.h>

/* ---- Records */

static void make_n(uint8_t record[RECORD_N], chance *c)
{
    static const uint8_t bits[] = { 0, 2, 3, 4, 6, 7, 8 };
    record[0] = (uint8_t)(1 + below(c, 127));
    record[1] = bits[below(c, sizeof bits)];
}

/* `valid` asks for A5h with its signature; else anything goes but a false A5h. */
static void make_c(uint8_t record[RECORD_C], uint8_t id, bool valid, chance *c)
{
    const uint32_t first = 0x101 + 2 * below(c, 64);
    record[0] = id;
    put16(record + 1, once_in(c, 2) ? below(c, 40) : any(c));
    record[3] = (uint8_t)below(c, 2);
    put16(record + 4, once_in(c, 2) ? 1 + below(c, 30) : 1 + below(c, 65535));
    record[6] = (uint8_t)(1 + below(c, 255));
    put32(record + 7, first);
    put32(record + 11, valid || once_in(c, 2) ? first + 1 : 0x102 + 2 * below(c, 64));
    record[15] = (uint8_t)(once_in(c, 2) ? 252 + below(c, 4) : once_in(c, 2) ? below(c, 5) : below(c, 241));
    put16(record + 16, once_in(c, 2) ? below(c, 40) : any(c));
    record[18] = valid ? 0xA5 : (uint8_t)below(c, 0xA5);
    put16(record + 19, valid ? signature_c(record + 3) : any(c));
}

static void make_a(uint8_t record[RECORD_A], bool valid, chance *c)
{
    record[0] = (uint8_t)below(c, 2);
    put32(record + 1, any_scale(c));
    put32(record + 5, any_scale(c));
    put32(record + 9, any_scale(c));
    record[13] = (uint8_t)below(c, 5);
    record[14] = valid ? 0xA5 : (uint8_t)below(c, 0xA5);
    put16(record + 15, valid ? signature_a(record + 1) : any(c));
}

/* C is saved under the ID of N three times in four, since it is otherwise loaded with its COB-IDs replaced. */
static void make_records(records *r, chance *c)
{
    r->has_n = !once_in(c, 4);
    r->has_c = !once_in(c, 4);
    r->has_a = !once_in(c, 4);
    make_n(r->n, c);
    const uint8_t active = r->has_n ? r->n[0] : 1;
    make_c(r->c, once_in(c, 4) ? (uint8_t)(1 + below(c, 127)) : active, !once_in(c, 3), c);
    make_a(r->a, !once_in(c, 3), c);
}

/* ---- Images */

static void seal(uint8_t image[SEUMHWARI_STORE])
{
    put16(image + 62, peer_crc(image, 62));
}

static uint32_t place(uint8_t image[SEUMHWARI_STORE], uint8_t *at, bool there, const uint8_t *record, uint8_t length)
{
    const uint32_t start = *at;
    if (!there)
        return 0xFFFF;
    memcpy(image + start, record, length);
    *at = (uint8_t)(start + length);
    return start;
}

/* Packed from byte 0 in the order N, C, A; the trailer has the places of C, A, N. */
void pack_image(uint8_t image[SEUMHWARI_STORE], const records *r)
{
    uint8_t at = 0;
    memset(image, 0, SEUMHWARI_STORE);
    const uint32_t n = place(image, &at, r->has_n, r->n, RECORD_N);
    const uint32_t c = place(image, &at, r->has_c, r->c, RECORD_C);
    const uint32_t a = place(image, &at, r->has_a, r->a, RECORD_A);
    put16(image + 56, c);
    put16(image + 58, a);
    put16(image + 60, n);
    seal(image);
}

/* One byte too far along, or a place that names another byte; the CRC is right. */
static void misplace(uint8_t image[SEUMHWARI_STORE], chance *c)
{
    if (once_in(c, 2)) {
        memmove(image + 1, image, 55);
        image[0] = 0;
        for (uint8_t i = 56; i < 62; i += 2)
            if (image[i] != 0xFF)
                image[i]++;
    } else {
        image[56 + 2 * below(c, 3)] ^= (uint8_t)(1 + below(c, 63));
    }
    seal(image);
}

/* One value of a record beyond its range, with validity off so that nothing else is wrong. */
static void leave_range(records *r, chance *c)
{
    r->c[18] = r->a[14] = 0;
    switch (below(c, 10)) {
    case 0: r->n[0] = once_in(c, 2) ? 0 : 128; break;
    case 1: r->n[1] = once_in(c, 2) ? 5 : 9; break;
    case 2: r->c[0] = once_in(c, 2) ? 0 : 200; break;
    case 3: r->c[3] = 2; break;
    case 4: put16(r->c + 4, 0); break;
    case 5: put32(r->c + 7, once_in(c, 2) ? 0x102 : 0x181); break;
    case 6: put32(r->c + 11, once_in(c, 2) ? 0x103 : 0x182); break;
    case 7: r->c[15] = (uint8_t)(241 + below(c, 11)); break;
    case 8: put32(r->a + 1 + 4 * below(c, 3), once_in(c, 2) ? 0x7FC00000 : 0x49742401); break;
    default: r->a[13] = 5; break;
    }
}

/* A5h over a signature that is one bit off. */
static void belie(records *r, chance *c)
{
    if (once_in(c, 2)) {
        make_c(r->c, r->n[0], true, c);
        r->c[19] ^= (uint8_t)(1u << below(c, 8));
    } else {
        make_a(r->a, true, c);
        r->a[15] ^= (uint8_t)(1u << below(c, 8));
    }
}

static void make_packed(uint8_t image[SEUMHWARI_STORE], image_kind kind, chance *c, records *r)
{
    make_records(r, c);
    if (kind != GOOD)
        r->has_n = r->has_c = r->has_a = true;
    if (kind == OUT_OF_RANGE)
        leave_range(r, c);
    if (kind == FALSE_VALIDITY)
        belie(r, c);
    pack_image(image, r);
    if (kind == BAD_CRC)
        image[below(c, SEUMHWARI_STORE)] ^= (uint8_t)(1u << below(c, 8));
    if (kind == MISPLACED)
        misplace(image, c);
    if (kind == BAD_FILLER) {
        image[40 + below(c, 16)] = (uint8_t)(1 + below(c, 255));
        seal(image);
    }
}

void make_image(uint8_t image[SEUMHWARI_STORE], image_kind kind, chance *c, records *made)
{
    records r;
    switch (kind) {
    case ZEROS:
    case ONES:
        memset(image, kind == ONES ? 0xFF : 0, SEUMHWARI_STORE);
        break;
    case RANDOM_BYTES:
        for (size_t i = 0; i < SEUMHWARI_STORE; i++)
            image[i] = (uint8_t)any(c);
        break;
    default:
        make_packed(image, kind, c, made == NULL ? &r : made);
    }
}

const char *image_name(image_kind kind)
{
    static const char *const names[IMAGE_KINDS] = { "zeros", "ones", "random bytes", "good", "bad CRC", "misplaced",
                                                    "out of range", "false validity", "bad filler" };
    return names[kind];
}
