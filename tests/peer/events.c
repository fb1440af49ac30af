/* The event program: 13-byte records from standard input, on an empty store
 * and with identity zero; one line for each frame or refusal, then the sums. */
#include "peer.h"

#include <stdio.h>

static void print_frames(unsigned long event, const uint8_t *out, uint8_t count)
{
    for (uint8_t i = 0; i < count; i++) {
        const uint8_t *frame = out + (size_t)PEER_FRAME_BYTES * i;
        printf("%lu %03X ", event, (unsigned)(frame[0] | (frame[1] << 8)));
        for (uint8_t k = 0; k < frame[3]; k++)
            printf("%02X", frame[4 + k]);
        putchar('\n');
    }
}

int main(void)
{
    static char in_buffer[1 << 16], out_buffer[1 << 16];
    static const peer_identity nobody;
    uint8_t store[PEER_STORE_BYTES] = { 0 };
    uint8_t out[PEER_OUT_BYTES];
    uint8_t record[PEER_EVENT_BYTES];
    peer_state state;
    unsigned long events = 0, frames = 0;
    size_t got;

    setvbuf(stdin, in_buffer, _IOFBF, sizeof in_buffer);
    setvbuf(stdout, out_buffer, _IOFBF, sizeof out_buffer);

    peer_answer answer = peer_power_on(&state, &nobody, out, sizeof out, store, sizeof store);
    print_frames(0, out, answer.count);
    frames += answer.count;

    while ((got = fread(record, 1, sizeof record, stdin)) > 0) {
        events++;
        answer = peer_event(&state, record, got, out, sizeof out, store, sizeof store);
        if (answer.number != 0)
            printf("%lu refused %u\n", events, (unsigned)answer.number);
        print_frames(events, out, answer.count);
        frames += answer.count;
    }
    printf("end %lu events %lu frames\n", events, frames);
    return ferror(stdin) || fflush(stdout) != 0 ? 1 : 0;
}
