/* All that is lent to the calls of the steps. */
#ifndef LENT_H
#define LENT_H

#include "ends.h"
#include "words.h"

/* What stands in each byte that a call hands over in, before the call. */
#define UNWRITTEN 0xA5

/* More than any mended file has. */
#define MENDED_BYTES (CONTROLLER_CATALOGUE_BYTES + 8)

/* A catalogue's bytes, and what they are read and mended into. */
struct reader {
    uint8_t bytes[MOST_BYTES];
    uint16_t svids[CONTROLLER_SVIDS];
    uint8_t modes[CONTROLLER_SVIDS];
    uint32_t identity[CONTROLLER_IDENTITY_OBJECTS];
    uint32_t run[CONTROLLER_RUN_WORDS];
    uint16_t sizes[CONTROLLER_SIZES];
    uint16_t length;
    uint8_t mended[MENDED_BYTES];
    uint16_t kept[CONTROLLER_KEPT];
};

struct lent {
    struct dock dock;
    struct laptop laptop;
    struct reader reader;
};

/* Now, and before the last call. */
extern struct lent lent, before;

#endif
