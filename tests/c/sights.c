#include "sights.h"

#include "basics.h"
#include "seumhwari.h"

static const char *const names[SIGHTS] = { "refused calls", "heartbeats", "TPDOs", "SRDO frames", "EMCYs", "reads", "writes", "aborts",
                                           "segments", "LSS answers", "stores written", "boot-ups", "starts" };
static unsigned seen[SIGHTS];

void see(sight what, bool happened)
{
    seen[what] += happened;
}

static void see_frame(const uint8_t *frame)
{
    const uint16_t group = (uint16_t)((frame[0] | frame[1] << 8) & 0x780);
    switch (group) {
    case 0x080: seen[EMCY]++; break;
    case 0x100: seen[SRDO]++; break;
    case 0x180: seen[TPDO]++; break;
    case 0x580: seen[frame[4] == 0x80 ? ABORTED : frame[4] == 0x60 ? WRITTEN : frame[4] < 0x20 ? SEGMENT : READ]++; break;
    case 0x700: seen[frame[4] == 0 ? BOOTED : HEARTBEAT]++; break;
    case 0x780: seen[LSS]++; break;
    }
}

void see_frames(const uint8_t *out, uint8_t count)
{
    for (uint8_t n = 0; n < count; n++)
        see_frame(out + SEUMHWARI_FRAME * n);
}

void tell_sights(FILE *to, const char *test, unsigned least)
{
    for (int i = 0; i < SIGHTS; i++)
        fprintf(to, "%s %u %s", i == 0 ? "" : ",", seen[i], names[i]);
    fprintf(to, "\n");
    for (int i = 0; i < SIGHTS; i++)
        if (seen[i] < least)
            fail(test, "%u %s in the whole run, where %u are the least", seen[i], names[i], least);
}
