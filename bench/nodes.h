/* The three nodes side by side: the proved one, the one by hand for speed, and the tests' peer. */
#ifndef NODES_H
#define NODES_H

#include "../tests/peer/peer.h"
#include "fast.h"
#include "seumhwari.h"

enum { EVENT = 13, OUT = 48, STORE = 64 };

/* What a call leaves beside the state. */
typedef struct {
    uint8_t number, count, out[OUT + 1], store[STORE + 1];
} answered;

typedef struct { seumhwari_state state; answered a; } proved_node;
typedef struct { fast_state state; answered a; } fast_node;
typedef struct { peer_state state; answered a; } peer_node;

/* Every field of the state, as the peer, the node by hand and the proved one name it. */
#define FIELDS(X) \
    X(identity.vendor, identity.vendor, identity.vendor) \
    X(identity.product, identity.product, identity.product) \
    X(identity.revision, identity.revision, identity.revision) \
    X(identity.serial, identity.serial, identity.serial) \
    X(heartbeat, c.heartbeat, settings.communication.heartbeat) \
    X(direction, c.direction, settings.communication.srdo.direction) \
    X(refresh, c.refresh, settings.communication.srdo.refresh) \
    X(validation, c.validation, settings.communication.srdo.validation) \
    X(first, c.first, settings.communication.srdo.first) \
    X(second, c.second, settings.communication.srdo.second) \
    X(kind, c.kind, settings.communication.tpdo.kind) \
    X(period, c.period, settings.communication.tpdo.period) \
    X(valid_c, c.valid, settings.communication.valid) \
    X(signature_c, c.signature, settings.communication.signature) \
    X(autostart, a.autostart, settings.application.autostart) \
    X(low, a.low, settings.application.scaling.low) \
    X(high, a.high, settings.application.scaling.high) \
    X(offset, a.offset, settings.application.scaling.offset) \
    X(digits, a.digits, settings.application.digits) \
    X(valid_a, a.valid, settings.application.valid) \
    X(signature_a, a.signature, settings.application.signature) \
    X(active_id, c.id, core.active.id) \
    X(active_bit, active_bit, core.active.bit) \
    X(pending_id, pending.id, core.pending.id) \
    X(pending_bit, pending.bit, core.pending.bit) \
    X(nmt, nmt, core.nmt) \
    X(reported, reported, core.reported) \
    X(fv, fv, core.fv.count) \
    X(clock, clock, core.timers.clock) \
    X(heartbeat_start, heartbeat_start, core.timers.heartbeat) \
    X(tpdo_start, tpdo_start, core.timers.tpdo) \
    X(srdo_start, srdo_start, core.timers.srdo) \
    X(syncs, syncs, core.tpdo.syncs) \
    X(sample, sample, core.tpdo.sample) \
    X(configuration, configuration, core.lss.configuration) \
    X(progress, progress, core.lss.progress) \
    X(busy, busy, core.upload.busy) \
    X(at, at, core.upload.at) \
    X(toggle, toggle, core.upload.toggle)

#endif
