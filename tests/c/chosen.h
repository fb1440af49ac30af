/* Events that a node can do something with: chosen by chance, filled in by looking at the state. */
#ifndef CHOSEN_H
#define CHOSEN_H

#include "pair.h"

void any_event(uint8_t *event, const peer_state *s, chance *c);

/* The next request for the name, by segments; the toggle is wrong at times. */
void any_upload(uint8_t *event, const peer_state *s, chance *c);

void any_sync_or_remote(uint8_t *event, const peer_state *s, chance *c);

/* 4000 and 20000, the scaling's ends, are frequent. */
void any_sample(uint8_t *event, chance *c);

/* Writes whichever of the signatures and validity bytes is still missing; 13FEh again where none is. */
void next_signing(uint8_t *event, const peer_state *s);

#endif
