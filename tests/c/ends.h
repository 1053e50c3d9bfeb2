/* Both ends, each with all that it is lent. */
#ifndef ENDS_H
#define ENDS_H

#include "controller.h"

struct dock {
    uint16_t state[CONTROLLER_DOCK_STATE];
    uint32_t identity[CONTROLLER_IDENTITY_OBJECTS];
    uint16_t svids[CONTROLLER_SVIDS];
    uint8_t out[CONTROLLER_MESSAGE_BYTES];
    uint8_t length;
};

/* What the calls for a side are lent of it. */
struct side {
    uint16_t svids[CONTROLLER_SVIDS];
    uint8_t modes[CONTROLLER_SVIDS];
    uint32_t identity[CONTROLLER_IDENTITY_OBJECTS];
    uint32_t run[CONTROLLER_RUN_WORDS];
    uint16_t held_svids[CONTROLLER_SVIDS];
    uint8_t held_modes[CONTROLLER_SVIDS];
    uint32_t held_identity[CONTROLLER_IDENTITY_OBJECTS];
    uint32_t held_run[CONTROLLER_RUN_WORDS];
    uint8_t entered[CONTROLLER_SVIDS];
};

struct laptop {
    uint16_t state[CONTROLLER_LAPTOP_STATE];
    struct side partner, cable;
    uint32_t handed[CONTROLLER_HANDED];
    uint8_t out[CONTROLLER_MESSAGE_BYTES];
    uint8_t catalogue[CONTROLLER_CATALOGUE_BYTES];
    uint16_t catalogue_length;
};

/* Any number but the cable's is the partner's. */
static inline struct side *side_of(struct laptop *laptop, uint8_t side) { return side == CONTROLLER_CABLE ? &laptop->cable : &laptop->partner; }

/* An object's bytes, low byte first, and back. */
static inline void put_object(uint32_t object, uint8_t *bytes) {
    for (int i = 0; i < 4; i++) bytes[i] = (uint8_t)(object >> 8 * i);
}

static inline uint32_t object_at(const uint8_t *bytes) {
    return bytes[0] | (uint32_t)bytes[1] << 8 | (uint32_t)bytes[2] << 16 | (uint32_t)bytes[3] << 24;
}

#endif
