/* Counts what an event file reaches: the peer runs the records of standard
 * input, and each service, abort code and kind of frame is counted. */
#include "peer.h"

#include <stdio.h>
#include <string.h>

enum { KINDS = 160 };
static struct { char name[48]; unsigned long times; } kinds[KINDS];

static void seen(const char *name)
{
    for (size_t i = 0; i < KINDS; i++) {
        if (kinds[i].times == 0)
            snprintf(kinds[i].name, sizeof kinds[i].name, "%s", name);
        if (strcmp(kinds[i].name, name) == 0) {
            kinds[i].times++;
            return;
        }
    }
}

static void seen_number(const char *form, unsigned long number)
{
    char name[48];
    snprintf(name, sizeof name, form, number);
    seen(name);
}

static const char *state_name(uint8_t nmt)
{
    return nmt == 4 ? "Stopped" : nmt == 5 ? "Operational" : "Pre-operational";
}

static unsigned long get32(const uint8_t *b)
{
    return b[0] | (unsigned long)b[1] << 8 | (unsigned long)b[2] << 16 | (unsigned long)b[3] << 24;
}

static bool capped(const peer_state *s)
{
    bool result;
    (void)peer_integer_pv(peer_pv(s->low, s->high, s->offset, s->fv), s->digits, &result);
    return result;
}

static void count_sdo(const uint8_t *request, const uint8_t *reply, const peer_state *before)
{
    const unsigned index = request[1] + 256u * request[2];
    char name[48];
    if (reply == NULL) {
        seen(before->busy ? "SDO client abort, upload open" : "SDO client abort, none open");
        return;
    }
    if (reply[0] == 0x80) {
        seen_number("SDO abort %08lXh", get32(reply + 4));
        if (before->busy)
            seen("SDO abort with an open upload");
        return;
    }
    switch (request[0] >> 5) {
    case 1:
        snprintf(name, sizeof name, "SDO write %04Xh:%u", index, request[3]);
        seen(name);
        if (before->busy)
            seen("SDO upload dropped by a write");
        if ((request[0] & 1) == 0)
            seen("SDO write, size not indicated");
        break;
    case 2:
        seen(reply[0] == 0x41 ? "SDO upload of the name opened"
             : before->busy ? "SDO read, open upload dropped" : "SDO read");
        break;
    default:
        seen(reply[0] & 1 ? "SDO last segment" : "SDO segment");
        break;
    }
}

static void count_change(const peer_state *before, const peer_state *after)
{
    char name[48];
    if (before->nmt != after->nmt) {
        snprintf(name, sizeof name, "NMT %s to %s", state_name(before->nmt), state_name(after->nmt));
        seen(name);
    }
    if (before->valid_a == 0xA5 && after->valid_a == 0)
        seen("51FEh falls");
    if (before->valid_c == 0xA5 && after->valid_c == 0)
        seen("13FEh falls");
    if (before->active_id != after->active_id)
        seen("Node-ID changes");
    if (after->clock < before->clock)
        seen("the clock wraps");
}

int main(void)
{
    static const peer_identity nobody;
    uint8_t store[PEER_STORE_BYTES] = { 0 }, kept[PEER_STORE_BYTES];
    uint8_t out[PEER_OUT_BYTES], record[PEER_EVENT_BYTES];
    peer_state state;
    unsigned long records = 0;
    size_t got;

    (void)peer_power_on(&state, &nobody, out, sizeof out, store, sizeof store);
    while ((got = fread(record, 1, sizeof record, stdin)) > 0) {
        peer_state before;
        records++;
        memcpy(&before, &state, sizeof state);
        memcpy(kept, store, sizeof store);
        const peer_answer answer = peer_event(&state, record, got, out, sizeof out, store, sizeof store);
        if (answer.number != 0) {
            seen_number("refused %lu", answer.number);
            continue;
        }
        count_change(&before, &state);
        if (memcmp(kept, store, sizeof store) != 0)
            seen("the store changes");

        const uint8_t *data = record + 5;
        const unsigned can_id = record[1] + 256u * record[2];
        const bool plain = record[0] == 1 && record[3] == 0;
        seen(record[0] == 2 ? "event: tick" : record[0] == 3 ? "event: sample" : "event: frame");
        if (record[0] == 2 && before.nmt == 5 && before.direction == 1 && capped(&state)
            && state.srdo_start == state.clock)
            seen("SRDO period passes capped");
        if (plain && can_id == 0x600u + before.active_id && record[4] == 8 && before.nmt != 4)
            count_sdo(data, answer.count > 0 ? out + 4 : NULL, &before);
        else if (plain && can_id == 0 && record[4] == 2 && (data[1] == 0 || data[1] == before.active_id)) {
            seen_number("NMT command %lu", data[0]);
            if (data[0] == 1 && before.nmt != 5 && state.nmt != 5)
                seen("NMT Start not obeyed");
            if ((data[0] == 129 || data[0] == 130) && state.nmt == 5)
                seen("NMT Start by 2330h");
            if ((data[0] == 129 || data[0] == 130) && before.busy)
                seen("NMT reset with an open upload");
            if (data[0] == 2 && before.busy)
                seen("NMT Stop with an open upload");
        } else if (plain && can_id == 0x80 && record[4] == 0)
            seen(before.nmt == 5 ? "SYNC, Operational" : "SYNC, other states");
        else if (plain && can_id == 0x7E5 && record[4] == 8 && before.nmt == 127) {
            if (answer.count == 0)
                seen("LSS without an answer");
        } else if (record[0] == 1 && answer.count == 0)
            seen("frame without effect");

        for (unsigned i = 0; i < answer.count; i++) {
            const uint8_t *frame = out + 12 * i;
            const unsigned id = frame[0] + 256u * frame[1];
            if (id == 0x7E4) {
                char name[48];
                if (frame[4] == 0x11 || frame[4] == 0x13)
                    snprintf(name, sizeof name, "LSS answer %02Xh, error %u", frame[4], frame[5]);
                else
                    snprintf(name, sizeof name, "LSS answer %02Xh", frame[4]);
                seen(name);
            } else if (id == 0x80u + state.active_id && frame[3] == 8)
                seen(frame[5] ? "EMCY FF01h" : "EMCY 0000h");
            else if (id == 0x700u + state.active_id) {
                if (frame[4] == 0)
                    seen("boot-up");
                else {
                    char name[48];
                    snprintf(name, sizeof name, "heartbeat, %s", state_name(frame[4]));
                    seen(name);
                }
            } else if (id == 0x180u + state.active_id && frame[3] == 4 && record[0] == 2)
                seen(capped(&state) ? "TPDO by timer, capped" : "TPDO by timer");
            else if (id == 0x180u + state.active_id && frame[3] == 4)
                seen(record[3] == 1 ? "TPDO by remote frame" : state.kind == 0 ? "TPDO by SYNC, type 0"
                                                             : "TPDO by SYNC, type 1..240");
            else if (id == state.first)
                seen("SRDO pair");
        }
        if (answer.count == 4)
            seen("four frames in a tick");
        if (answer.count > 0 && out[1] == 7 && out[0] != 0xE4 && out[4] == 0) {
            const unsigned place = store[56] + 256u * store[57];
            seen(place > 55 ? "reset, no C saved" : store[place] == state.active_id
                 ? "reset, C of this Node-ID" : "reset, C of another Node-ID");
            seen(store[58] == 0xFF ? "reset, no A saved" : "reset, A saved");
            if (answer.count == 2)
                seen("reset, boot-up and EMCY");
        } else if (answer.count == 2 && record[0] == 1)
            seen("SDO write with EMCY");
    }
    printf("%lu records\n", records);
    for (;;) { /* by name */
        size_t least = KINDS;
        for (size_t i = 0; i < KINDS; i++)
            if (kinds[i].times != 0 && (least == KINDS || strcmp(kinds[i].name, kinds[least].name) < 0))
                least = i;
        if (least == KINDS)
            return 0;
        printf("%8lu  %s\n", kinds[least].times, kinds[least].name);
        kinds[least].times = 0;
    }
}
