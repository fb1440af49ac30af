/* Nodes brought into a state by the events that a master would send, and the SDO requests for that. */
#ifndef SCENES_H
#define SCENES_H

#include "pair.h"

/* An SDO request to this Node-ID. A write names its size, 1 to 4 bytes, or 0 for none. */
void event_read(uint8_t event[SEUMHWARI_EVENT], uint8_t id, uint16_t index, uint8_t sub);
void event_write(uint8_t event[SEUMHWARI_EVENT], uint8_t id, uint16_t index, uint8_t sub, uint8_t size, uint32_t value);

/* The signatures that the state's values have. */
uint16_t signature_of_c(const peer_state *s);
uint16_t signature_of_a(const peer_state *s);

/* Each starts from a power-on over 64 zero bytes. */
void scene_fresh(pair *p);           /* Pre-operational, defaults */
void scene_signed(pair *p);          /* both groups signed and valid */
void scene_operational(pair *p);     /* signed and started; heartbeat, TPDO and SRDO all due at each tick */
void scene_stopped(pair *p);
void scene_configuration(pair *p);   /* LSS configuration */
void scene_upload(pair *p);          /* the name is being read, at its second segment */
void scene_capped(pair *p);          /* a reading beyond Integer32, reported */
void scene_counting(pair *p);        /* Operational, one SYNC of three counted */

#endif
