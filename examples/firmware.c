/* A firmware's main loop around the node, with no CAN driver in it: lines of standard input stand in for the interrupts that would fill the
 * queue, and frames are written as lines. The store is a file of 64 bytes, so what was saved is there again at the next start.
 *
 * usage: firmware FILE
 *   601#4032610100000000   a frame comes in: CAN-ID, '#', data in hex; 181#R is a remote frame
 *   tick 25                25 milliseconds pass
 *   sample 12000           the converter has a new count
 *   # ...                  a remark; an empty line is one too */
#include "seumhwari.h"

#include <stdio.h>
#include <stdlib.h>
#include <string.h>

/* ---- The queue: filled by interrupts, emptied by the main loop */

enum { QUEUE = 64 };

static uint8_t queue[QUEUE][SEUMHWARI_EVENT];
static unsigned queued, taken;

/* A full queue turns the event away; the caller says so. */
static bool queue_put(const uint8_t event[SEUMHWARI_EVENT])
{
    if (queued - taken == QUEUE)
        return false;
    memcpy(queue[queued++ % QUEUE], event, SEUMHWARI_EVENT);
    return true;
}

static const uint8_t *queue_take(void)
{
    return taken == queued ? NULL : queue[taken++ % QUEUE];
}

/* ---- The store: 64 bytes that outlive the power */

/* A file that is not there is a blank chip; any content is taken as it is, the node judges it. */
static bool store_load(const char *path, uint8_t store[SEUMHWARI_STORE])
{
    FILE *file = fopen(path, "rb");
    memset(store, 0, SEUMHWARI_STORE);
    if (file == NULL)
        return true;
    const size_t count = fread(store, 1, SEUMHWARI_STORE, file);
    const bool good = count == SEUMHWARI_STORE && fgetc(file) == EOF;
    fclose(file);
    return good;
}

/* Written aside and then renamed, so that a power cut leaves the old image or the new one. */
static bool store_keep(const char *path, const uint8_t store[SEUMHWARI_STORE])
{
    char aside[512];
    if (snprintf(aside, sizeof aside, "%s.new", path) >= (int)sizeof aside)
        return false;
    FILE *file = fopen(aside, "wb");
    if (file == NULL)
        return false;
    const bool written = fwrite(store, 1, SEUMHWARI_STORE, file) == SEUMHWARI_STORE;
    return (fclose(file) == 0) & written && rename(aside, path) == 0;
}

/* ---- The bus and the converter, as lines of text */

static void send(const uint8_t *out, uint8_t count)
{
    for (uint8_t n = 0; n < count; n++, out += SEUMHWARI_FRAME) {
        printf("%03X#", out[0] | out[1] << 8);
        for (uint8_t i = 0; i < out[3]; i++)
            printf("%02X", out[4 + i]);
        printf("\n");
    }
}

static int hex(char c)
{
    const char *digits = "0123456789ABCDEF", *at = c == 0 ? NULL : strchr(digits, c);
    return at == NULL ? -1 : (int)(at - digits);
}

static bool frame_of_text(const char *text, uint8_t event[SEUMHWARI_EVENT])
{
    unsigned can_id = 0;
    uint8_t length = 0;
    for (; hex(*text) >= 0 && can_id < 0x100; text++)
        can_id = can_id * 16 + (unsigned)hex(*text);
    if (*text++ != '#')
        return false;
    const bool remote = *text == 'R';
    for (text += remote; !remote && length < 8 && hex(text[0]) >= 0 && hex(text[1]) >= 0; text += 2)
        event[5 + length++] = (uint8_t)(hex(text[0]) * 16 + hex(text[1]));
    event[0] = SEUMHWARI_KIND_FRAME;
    event[1] = (uint8_t)can_id;
    event[2] = (uint8_t)(can_id >> 8);
    event[3] = remote;
    event[4] = length;
    return *text == 0;
}

/* What a line asks: events for the queue, the same one `times` over. False where it is not understood. */
static bool line_event(const char *line, uint8_t event[SEUMHWARI_EVENT], unsigned *times)
{
    unsigned number;
    int read = 0;
    memset(event, 0, SEUMHWARI_EVENT);
    *times = 1;
    if (sscanf(line, "tick %u%n", &number, &read) == 1 && line[read] == 0) {
        event[0] = SEUMHWARI_KIND_TICK;
        *times = number;
        return true;
    }
    if (sscanf(line, "sample %u%n", &number, &read) == 1 && line[read] == 0 && number <= 65535) {
        event[0] = SEUMHWARI_KIND_SAMPLE;
        event[1] = (uint8_t)number;
        event[2] = (uint8_t)(number >> 8);
        return true;
    }
    return frame_of_text(line, event);
}

/* ---- The main loop */

static seumhwari_state state;
static uint8_t out[SEUMHWARI_OUT], store[SEUMHWARI_STORE];

/* Serves all that is queued. The store goes to the disk when a call has changed it. */
static bool serve(const char *path)
{
    for (const uint8_t *event = queue_take(); event != NULL; event = queue_take()) {
        uint8_t before[SEUMHWARI_STORE];
        memcpy(before, store, sizeof store);
        const seumhwari_answer a = seumhwari_event(event, SEUMHWARI_EVENT, state, out, sizeof out, store, sizeof store);
        state = a.state;
        if (a.number != SEUMHWARI_DONE)
            printf("refused %u\n", a.number);
        send(out, a.count);
        if (memcmp(before, store, sizeof store) != 0 && !store_keep(path, store))
            return false;
    }
    return true;
}

/* One line's events; the queue is emptied whenever it is full. */
static bool take_line(const char *path, char *line)
{
    uint8_t event[SEUMHWARI_EVENT];
    unsigned times;
    size_t length = strlen(line);
    while (length != 0 && strchr(" \t\r\n", line[length - 1]) != NULL)
        line[--length] = 0;
    if (length == 0 || line[0] == '#')
        return true;
    if (!line_event(line, event, &times)) {
        fprintf(stderr, "firmware: not understood: %s\n", line);
        return true;
    }
    while (times != 0) {
        if (queue_put(event))
            times--;
        else if (!serve(path))
            return false;
    }
    return serve(path);
}

int main(int count, char **words)
{
    static const seumhwari_identity identity = { 0, 0, 0, 0 };
    char line[256];
    if (count != 2 || words[1][0] == '-') {
        fprintf(stderr, "usage: firmware FILE    (the store; made at the first save)\n");
        return 2;
    }
    if (!store_load(words[1], store)) {
        fprintf(stderr, "firmware: %s is no store of %d bytes; left as it is\n", words[1], SEUMHWARI_STORE);
        return 1;
    }
    const seumhwari_answer a = seumhwari_power_on(identity, out, sizeof out, store, sizeof store);
    state = a.state;
    send(out, a.count);
    while (fgets(line, sizeof line, stdin) != NULL) {
        if (!take_line(words[1], line)) {
            fprintf(stderr, "firmware: %s could not be written\n", words[1]);
            return 1;
        }
    }
    return 0;
}
