/* What a run of events has reached, so that a run in which nothing happens is no pass. */
#ifndef SIGHTS_H
#define SIGHTS_H

#include <stdbool.h>
#include <stdint.h>
#include <stdio.h>

typedef enum {
    REFUSED, HEARTBEAT, TPDO, SRDO, EMCY, READ, WRITTEN, ABORTED, SEGMENT, LSS, SAVED, BOOTED, STARTED, SIGHTS
} sight;

void see(sight what, bool happened);
void see_frames(const uint8_t *out, uint8_t count);

/* Ends a line with the counts, and the program where one of them is below the least that makes a run worth its time. */
void tell_sights(FILE *to, const char *test, unsigned least);

#endif
