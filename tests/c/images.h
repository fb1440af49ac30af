/* Store images of many kinds, made from chance alone. */
#ifndef IMAGES_H
#define IMAGES_H

#include "pair.h"

enum { RECORD_N = 2, RECORD_C = 21, RECORD_A = 17 };

/* The records of an image, and which are there. */
typedef struct {
    bool has_n, has_c, has_a;
    uint8_t n[RECORD_N], c[RECORD_C], a[RECORD_A];
} records;

typedef enum {
    ZEROS, ONES, RANDOM_BYTES, GOOD, BAD_CRC, MISPLACED, OUT_OF_RANGE, FALSE_VALIDITY, BAD_FILLER, IMAGE_KINDS
} image_kind;

const char *image_name(image_kind kind);

/* Makes an image of that kind; a GOOD one also tells its records. */
void make_image(uint8_t image[SEUMHWARI_STORE], image_kind kind, chance *c, records *made);

/* The image of these records, whatever they hold, with the right places and CRC. */
void pack_image(uint8_t image[SEUMHWARI_STORE], const records *r);

#endif
