/* What is printed of a call. */
#include "shown.h"

#include "lent.h"

#include <stddef.h>
#include <stdio.h>
#include <string.h>

/* A state's number as it counts: a tag up to the greatest there is, a byte's eight bits, an edition. */
static unsigned tag(uint16_t value, unsigned greatest) { return value > greatest ? 0 : value; }
static unsigned byte(uint16_t value) { return value & 0xFF; }
static unsigned edition(uint16_t value) {
    return value == CONTROLLER_EDITION_1_0 || value == CONTROLLER_EDITION_2_0 ? value : CONTROLLER_EDITION_2_1;
}

static void print_request(const uint16_t *state) { printf(" %04X %u %u", state[0], byte(state[1]), byte(state[2])); }

/* Whether a page or another answer is being sent is seen by what "sent" leads to. */
static void print_dock(void) {
    static const char *const standings[4] = {"ready", "asking", "sending", "sending"};
    const uint16_t *state = lent.dock.state;
    unsigned standing = tag(state[CONTROLLER_DOCK_STANDING], CONTROLLER_SENDING_A_PAGE);
    printf(", state %u %u %u %s", byte(state[CONTROLLER_DOCK_OBJECTS]), byte(state[CONTROLLER_DOCK_COUNT]), byte(state[CONTROLLER_DOCK_PAGE]),
           standings[standing]);
    if (standing == CONTROLLER_ASKING) print_request(state + CONTROLLER_DOCK_SVID);
    printf(" %u", edition(state[CONTROLLER_DOCK_EDITION]));
}

/* A number that stands for nothing is a dash. */
static void print_side(const char *name, const uint16_t *numbers) {
    unsigned candidate = tag(numbers[CONTROLLER_SIDE_CANDIDATE], 2);
    printf(", %s %u", name, candidate);
    if (candidate)
        printf(" %u %u %u", byte(numbers[CONTROLLER_SIDE_OBJECTS]), byte(numbers[CONTROLLER_SIDE_COUNT]), byte(numbers[CONTROLLER_SIDE_FILLED]));
    else printf(" - - -");
    printf(" %u", byte(numbers[CONTROLLER_SIDE_PAGES]));
    if (tag(numbers[CONTROLLER_SIDE_HELD], 1)) printf(" 1 %u %u", byte(numbers[CONTROLLER_SIDE_HELD_OBJECTS]), byte(numbers[CONTROLLER_SIDE_HELD_COUNT]));
    else printf(" 0 - -");
    printf(" %u", edition(numbers[CONTROLLER_SIDE_EDITION]));
}

static void print_laptop(void) {
    const uint16_t *state = lent.laptop.state;
    unsigned awaited = tag(state[CONTROLLER_LAPTOP_AWAITED], 2);
    printf(", awaited %u", awaited);
    if (awaited) print_request(state + CONTROLLER_LAPTOP_SVID);
    else printf(" - - -");
    print_side("partner", state + CONTROLLER_LAPTOP_PARTNER);
    print_side("cable", state + CONTROLLER_LAPTOP_CABLE);
}

static const struct part {
    const char *name;
    size_t at, size;
} PARTS[] = {
#define PART(name, end, field) {name, offsetof(struct lent, end.field), sizeof lent.end.field}
    PART("dock_state", dock, state),
    PART("dock_identity", dock, identity),
    PART("dock_svids", dock, svids),
    PART("dock_out", dock, out),
    PART("dock_length", dock, length),
    PART("state", laptop, state),
    PART("partner_svids", laptop, partner.svids),
    PART("partner_modes", laptop, partner.modes),
    PART("partner_identity", laptop, partner.identity),
    PART("partner_run", laptop, partner.run),
    PART("partner_held_svids", laptop, partner.held_svids),
    PART("partner_held_modes", laptop, partner.held_modes),
    PART("partner_held_identity", laptop, partner.held_identity),
    PART("partner_held_run", laptop, partner.held_run),
    PART("partner_entered", laptop, partner.entered),
    PART("cable_svids", laptop, cable.svids),
    PART("cable_modes", laptop, cable.modes),
    PART("cable_identity", laptop, cable.identity),
    PART("cable_run", laptop, cable.run),
    PART("cable_held_svids", laptop, cable.held_svids),
    PART("cable_held_modes", laptop, cable.held_modes),
    PART("cable_held_identity", laptop, cable.held_identity),
    PART("cable_held_run", laptop, cable.held_run),
    PART("cable_entered", laptop, cable.entered),
    PART("handed", laptop, handed),
    PART("out", laptop, out),
    PART("catalogue", laptop, catalogue),
    PART("catalogue_length", laptop, catalogue_length),
    PART("read_svids", reader, svids),
    PART("read_modes", reader, modes),
    PART("read_identity", reader, identity),
    PART("read_run", reader, run),
    PART("sizes", reader, sizes),
    PART("stretch_length", reader, length),
    PART("mended", reader, mended),
    PART("kept", reader, kept),
#undef PART
};

/* The names of what a refusal changed. */
static void print_changes(void) {
    int changes = 0;
    printf(", changed");
    for (size_t i = 0; i < sizeof PARTS / sizeof *PARTS; i++) {
        if (memcmp((const char *)&lent + PARTS[i].at, (const char *)&before + PARTS[i].at, PARTS[i].size) == 0) continue;
        printf(" %s", PARTS[i].name);
        changes++;
    }
    if (changes == 0) printf(" nothing");
}

static void print_refusal(unsigned refusal) {
    printf("refused %u", refusal);
    print_changes();
}

/* The objects to be sent; the bytes past them have to be as they were. */
static void print_sent(const uint8_t *out, uint32_t length) {
    printf(", sends");
    if (length == 0) printf(" nothing");
    for (uint32_t i = 0; i + 4 <= length; i += 4) printf(" %08X", (unsigned)object_at(out + i));
    for (uint32_t i = length; i < CONTROLLER_MESSAGE_BYTES; i++)
        if (out[i] != UNWRITTEN) printf(", writes byte %u of the buffer", (unsigned)i);
}

/* The words of a run that the call wrote. */
static void print_written(const char *name, const uint32_t *run, const uint32_t *old) {
    for (int i = 0; i < CONTROLLER_RUN_WORDS; i++)
        if (run[i] != old[i]) printf(", %s %d is %08X", name, i, (unsigned)run[i]);
}

void show_dock(unsigned refusal) {
    if (refusal == CONTROLLER_ACCEPTED) {
        printf("accepted, length %u", lent.dock.length);
        print_sent(lent.dock.out, lent.dock.length);
    } else print_refusal(refusal);
    print_dock();
}

void show_laptop(unsigned refusal) {
    const struct laptop *now = &lent.laptop, *old = &before.laptop;
    const uint32_t *handed = now->handed;
    if (refusal == CONTROLLER_ACCEPTED) {
        printf("accepted, handed %u %u %04X %u %u %u %08X %u", (unsigned)handed[0], (unsigned)handed[1], (unsigned)handed[2], (unsigned)handed[3],
               (unsigned)handed[4], (unsigned)handed[5], (unsigned)handed[6], (unsigned)handed[7]);
        print_sent(now->out, handed[CONTROLLER_HANDED_LENGTH]);
        print_written("partner_run", now->partner.run, old->partner.run);
        print_written("partner_held_run", now->partner.held_run, old->partner.held_run);
        print_written("cable_run", now->cable.run, old->cable.run);
        print_written("cable_held_run", now->cable.held_run, old->cable.held_run);
    } else print_refusal(refusal);
    print_laptop();
}

void show_catalogue(unsigned refusal) {
    if (refusal != CONTROLLER_ACCEPTED) {
        print_refusal(refusal);
        return;
    }
    printf("accepted, length %u, bytes ", lent.laptop.catalogue_length);
    for (int i = 0; i < lent.laptop.catalogue_length; i++) printf("%02X", lent.laptop.catalogue[i]);
    for (int i = lent.laptop.catalogue_length; i < CONTROLLER_CATALOGUE_BYTES; i++)
        if (lent.laptop.catalogue[i] != UNWRITTEN) printf(", writes byte %d of the buffer", i);
}

/* The first numbers of an array; those behind them have to be 0. */
static void print_numbers(const char *name, int digits, const uint32_t *numbers, int count, int all) {
    printf(", %s", name);
    if (count == 0) printf(" nothing");
    for (int i = 0; i < all; i++)
        if (i < count) printf(" %0*X", digits, (unsigned)numbers[i]);
        else if (numbers[i] != 0) printf(", %s %d is %0*X", name, i, digits, (unsigned)numbers[i]);
}

static void print_refusal_at(unsigned result) {
    printf("refused %u, offset %u", CONTROLLER_REFUSAL(result), CONTROLLER_OFFSET(result));
    print_changes();
}

/* Whether a call that reads was accepted, and its offset. */
static int print_read(unsigned result) {
    if (CONTROLLER_REFUSAL(result) != CONTROLLER_ACCEPTED) {
        print_refusal_at(result);
        return 0;
    }
    printf("accepted, offset %u", CONTROLLER_OFFSET(result));
    return 1;
}

void show_reading(unsigned result) {
    const struct reader *r = &lent.reader;
    uint32_t svids[CONTROLLER_SVIDS], modes[CONTROLLER_SVIDS];
    if (!print_read(result)) return;
    for (int i = 0; i < CONTROLLER_SVIDS; i++) {
        svids[i] = r->svids[i];
        modes[i] = r->modes[i];
    }
    printf(", sizes %u %u %u", r->sizes[CONTROLLER_SIZES_OBJECTS], r->sizes[CONTROLLER_SIZES_COUNT], r->sizes[CONTROLLER_SIZES_MODES]);
    print_numbers("identity", 8, r->identity, r->sizes[CONTROLLER_SIZES_OBJECTS], CONTROLLER_IDENTITY_OBJECTS);
    print_numbers("svids", 4, svids, r->sizes[CONTROLLER_SIZES_COUNT], CONTROLLER_SVIDS);
    print_numbers("modes", 1, modes, r->sizes[CONTROLLER_SIZES_COUNT], CONTROLLER_SVIDS);
    print_written("run", r->run, before.reader.run);
}

void show_stretch(unsigned result) {
    const struct reader *r = &lent.reader;
    if (!print_read(result)) return;
    printf(", length %u, bytes ", r->length);
    for (uint32_t i = 0; i < r->length; i++) printf("%02X", r->bytes[CONTROLLER_OFFSET(result) + i]);
}

/* Whether there is a mended file. A sound one has no offset. */
static int print_outcome(unsigned result) {
    unsigned number = CONTROLLER_REFUSAL(result);
    if (result == CONTROLLER_ACCEPTED) printf("sound");
    else if (CONTROLLER_UNKNOWN_KIND <= number && number <= CONTROLLER_BYTES_AFTER_END) printf("partial %u, offset %u", number, CONTROLLER_OFFSET(result));
    else {
        print_refusal_at(result);
        return 0;
    }
    return 1;
}

/* The bytes past the file have to be as they were. */
void show_mending(unsigned result) {
    const struct reader *r = &lent.reader;
    if (!print_outcome(result)) return;
    printf(", kept %u %u %u, bytes ", r->kept[CONTROLLER_KEPT_COUNT], r->kept[CONTROLLER_KEPT_MODES], r->kept[CONTROLLER_KEPT_LENGTH]);
    for (unsigned i = 0; i < MENDED_BYTES; i++)
        if (i < r->kept[CONTROLLER_KEPT_LENGTH]) printf("%02X", r->mended[i]);
        else if (r->mended[i] != UNWRITTEN) printf(", writes byte %u of the buffer", i);
}

void show_fresh_dock(unsigned refusal) {
    (void)refusal;
    printf("made");
    print_dock();
}

void show_fresh_laptop(unsigned refusal) {
    (void)refusal;
    printf("made");
    print_laptop();
}

void show_report(unsigned entered) { printf("%u entered", entered); }

void show_set(unsigned refusal) {
    (void)refusal;
    printf("set");
}
