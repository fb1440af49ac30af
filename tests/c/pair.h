/* The proved node and the peer (tests/peer) side by side: each call goes to both, and whatever a caller can see of it is compared. */
#ifndef PAIR_H
#define PAIR_H

#include "../peer/peer.h"
#include "basics.h"
#include "seumhwari.h"

enum { GUARD = 16, LONGEST = 160, FILL = 0xC3 };

/* What a call is lent begins GUARD bytes in; the bytes around it must stay. */
typedef struct {
    uint8_t bytes[GUARD + LONGEST + GUARD];
} lent;

typedef struct {
    seumhwari_state state;
    peer_state peer;
    lent out, peer_out;
    lent store, peer_store;
    uint8_t number, count;       /* of the last call */
} pair;

/* Fills the guards and lays these bytes between them, for both. */
void pair_lend_store(pair *p, const uint8_t *bytes, size_t length);

/* Both take NULL back where nothing differs, or the name of the first thing that does. */
const char *pair_power_on(pair *p, seumhwari_identity identity, size_t out_length, size_t store_length);
const char *pair_event(pair *p, const uint8_t *event, size_t event_length, size_t out_length, size_t store_length);

/* A call with the lengths that it should have. */
const char *pair_serve(pair *p, const uint8_t event[SEUMHWARI_EVENT]);

/* Frames as the vectors write them, `181#01020304`, with `#R` for a remote one. False where the text is no frame. */
bool event_of_text(uint8_t event[SEUMHWARI_EVENT], const char *text);
void event_tick(uint8_t event[SEUMHWARI_EVENT]);
void event_sample(uint8_t event[SEUMHWARI_EVENT], uint16_t fv);
void event_frame(uint8_t event[SEUMHWARI_EVENT], uint16_t can_id, const uint8_t *data, uint8_t length);
void text_of_frames(char *text, size_t size, const uint8_t *out, uint8_t count);

/* Serves the frames of a text, parted by spaces; ends the program with a message where a call differs or is refused. */
void pair_script(pair *p, const char *test, const char *frames);

/* Where the output and the store lie. */
uint8_t *lent_bytes(lent *l);

/* Puts both into a state that a caller builds. */
void pair_set_state(pair *p, const seumhwari_state *state);

#endif
