/* The calls that a step can name, over what is lent. */
#include "calls.h"

#include "lent.h"
#include "shown.h"
#include "words.h"

#include <string.h>

/* How much of the output buffer a call is lent, and how much of a side's runs. */
static controller_count room = CONTROLLER_MESSAGE_BYTES;

static struct words_lent {
    controller_count run, held_run;
} partner_words = {CONTROLLER_RUN_WORDS, CONTROLLER_RUN_WORDS}, cable_words = {CONTROLLER_RUN_WORDS, CONTROLLER_RUN_WORDS};

/* The dock's calls. */

static unsigned fresh_dock(void) {
    memset(&lent.dock, UNWRITTEN, sizeof lent.dock);
    dock_fresh(lent.dock.state, lent.dock.identity, lent.dock.svids);
    return CONTROLLER_ACCEPTED;
}

static unsigned load(void) {
    struct dock *d = &lent.dock;
    uint32_t identity[MOST_WORDS];
    uint16_t svids[MOST_WORDS];
    controller_count objects = take_objects(1, identity), count = take_svids(objects + 2, svids);
    return dock_load(d->state, d->identity, d->svids, identity, objects, svids, count, &d->length);
}

static unsigned ask(void) {
    struct dock *d = &lent.dock;
    uint8_t bytes[MOST_BYTES];
    controller_count count = take_bytes(1, bytes);
    return dock_message(d->state, d->identity, d->svids, bytes, count, d->out, room, &d->length);
}

static unsigned answer(void) {
    struct dock *d = &lent.dock;
    uint32_t objects[MOST_WORDS];
    controller_count count = take_objects(5, objects);
    return dock_policy_answer(d->state, d->identity, d->svids, decimal(1), hex(2), decimal(3), decimal(4), objects, count, d->out, room, &d->length);
}

static unsigned sent(void) { return dock_sent(lent.dock.state, lent.dock.identity, lent.dock.svids, &lent.dock.length); }
static unsigned failed(void) { return dock_failed(lent.dock.state, lent.dock.identity, lent.dock.svids, &lent.dock.length); }

/* The laptop's calls. The first word of a step for a side says which. */

static uint8_t side(void) { return decimal(1); }
static struct side *lent_side(void) { return side_of(&lent.laptop, side()); }
static struct words_lent *lent_words(void) { return side() == CONTROLLER_CABLE ? &cable_words : &partner_words; }

static unsigned fresh_laptop(void) {
    memset(&lent.laptop, UNWRITTEN, sizeof lent.laptop);
    laptop_fresh(lent.laptop.state, lent.laptop.partner.entered, lent.laptop.cable.entered);
    return CONTROLLER_ACCEPTED;
}

static unsigned hear(void) {
    struct side *s = lent_side();
    struct words_lent *w = lent_words();
    uint8_t bytes[MOST_BYTES];
    controller_count count = take_bytes(2, bytes);
    return laptop_message(lent.laptop.state, side(), bytes, count, s->svids, s->modes, s->identity, s->run, w->run, s->held_svids, s->held_modes,
                          s->held_identity, s->held_run, w->held_run, s->entered, lent.laptop.handed);
}

static unsigned report(void) {
    struct side *s = lent_side();
    return laptop_report(lent.laptop.state, side(), hex(2), s->held_svids, s->entered);
}

static unsigned next(void) {
    struct laptop *l = &lent.laptop;
    struct side *s = lent_side();
    struct words_lent *w = lent_words();
    return laptop_next(l->state, side(), s->svids, s->entered, s->run, w->run, s->held_run, w->held_run, l->out, room, l->handed);
}

static unsigned start_over(void) {
    struct laptop *l = &lent.laptop;
    struct side *s = lent_side();
    struct words_lent *w = lent_words();
    return laptop_start_over(l->state, side(), s->entered, s->run, w->run, s->held_run, w->held_run, l->out, room, l->handed);
}

static unsigned drop(void) {
    struct laptop *l = &lent.laptop;
    struct side *s = lent_side();
    struct words_lent *w = lent_words();
    return laptop_drop(l->state, side(), s->run, w->run, s->held_run, w->held_run, l->out, room, l->handed);
}

static unsigned enter(void) {
    struct laptop *l = &lent.laptop;
    struct side *s = lent_side();
    struct words_lent *w = lent_words();
    return laptop_enter(l->state, side(), hex(2), decimal(3), s->held_svids, s->held_modes, s->entered, s->run, w->run, s->held_run, w->held_run, l->out,
                        room, l->handed);
}

static unsigned leave(void) {
    struct laptop *l = &lent.laptop;
    struct side *s = lent_side();
    struct words_lent *w = lent_words();
    return laptop_exit(l->state, side(), hex(2), decimal(3), s->held_svids, s->held_modes, s->entered, s->run, w->run, s->held_run, w->held_run, l->out,
                       room, l->handed);
}

static unsigned response_timer(void) { return laptop_response_timer(lent.laptop.state, lent.laptop.handed); }
static unsigned entry_timer(void) { return laptop_entry_timer(lent.laptop.state, lent.laptop.handed); }
static unsigned exit_timer(void) { return laptop_exit_timer(lent.laptop.state, lent.laptop.handed); }
static unsigned protocol_error(void) { return laptop_protocol_error(lent.laptop.state, lent.laptop.handed); }

static unsigned write_catalogue(void) {
    struct laptop *l = &lent.laptop;
    struct side *s = lent_side();
    return catalogue_write(l->state, side(), s->held_svids, s->held_modes, s->held_identity, s->held_run, lent_words()->held_run, l->catalogue,
                           part_of(2, CONTROLLER_CATALOGUE_BYTES), &l->catalogue_length);
}

/* Reading and mending a catalogue's bytes. */

static unsigned read_catalogue(void) {
    struct reader *r = &lent.reader;
    controller_count count = take_bytes(2, r->bytes);
    return catalogue_read(r->bytes, count, r->svids, r->modes, r->identity, r->run, part_of(1, CONTROLLER_RUN_WORDS), r->sizes);
}

static unsigned find_stretch(void) {
    struct reader *r = &lent.reader;
    controller_count count = take_bytes(2, r->bytes);
    return catalogue_stretch(r->bytes, count, hex(1), &r->length);
}

static unsigned mend(void) {
    struct reader *r = &lent.reader;
    controller_count count = take_bytes(2, r->bytes);
    return catalogue_mend(r->bytes, count, r->mended, part_of(1, MENDED_BYTES), r->kept);
}

/* What the steps set between calls. */

static unsigned set_room(void) {
    room = part_of(1, CONTROLLER_MESSAGE_BYTES);
    return CONTROLLER_ACCEPTED;
}

static unsigned set_runs(void) {
    struct words_lent *w = lent_words();
    w->run = part_of(2, CONTROLLER_RUN_WORDS);
    w->held_run = part_of(3, CONTROLLER_RUN_WORDS);
    return CONTROLLER_ACCEPTED;
}

/* Ill-formed numbers that count as those that stood there: a tag of 0 and an edition of 2.1 become unknown ones, and bytes get bits above their eight. */
static void stray_tags(uint16_t *state, const int *tags, size_t count) {
    for (size_t i = 0; i < count; i++)
        if (state[tags[i]] == 0) state[tags[i]] = 0x0901;
}

static void stray_bytes(uint16_t *state, const int *bytes, size_t count) {
    for (size_t i = 0; i < count; i++) state[bytes[i]] |= 0x5A00;
}

/* The low eight bits of the unknown one are those of 1.0: they do not count. */
static void stray_edition(uint16_t *edition) {
    if (*edition == CONTROLLER_EDITION_2_1) *edition = 0x0900 | CONTROLLER_EDITION_1_0;
}

static void stray_side(struct side *s, uint16_t *numbers) {
    static const int tags[] = {CONTROLLER_SIDE_CANDIDATE, CONTROLLER_SIDE_HELD}, bytes[] = {1, 2, 3, 4, 6, 7};
    stray_tags(numbers, tags, 2);
    stray_bytes(numbers, bytes, 6);
    stray_edition(numbers + CONTROLLER_SIDE_EDITION);
    for (int i = 0; i < CONTROLLER_SVIDS; i++) {
        s->entered[i] |= 0xC0;
        if (s->modes[i] == CONTROLLER_MODES) s->modes[i] = 250;
        if (s->held_modes[i] == CONTROLLER_MODES) s->held_modes[i] = 250;
    }
}

static unsigned stray(void) {
    static const int dock_tags[] = {CONTROLLER_DOCK_STANDING}, dock_bytes[] = {0, 1, 2, 5, 6};
    static const int laptop_tags[] = {CONTROLLER_LAPTOP_AWAITED}, laptop_bytes[] = {2, 3};
    struct laptop *l = &lent.laptop;
    stray_tags(lent.dock.state, dock_tags, 1);
    stray_bytes(lent.dock.state, dock_bytes, 5);
    stray_edition(lent.dock.state + CONTROLLER_DOCK_EDITION);
    stray_tags(l->state, laptop_tags, 1);
    stray_bytes(l->state, laptop_bytes, 2);
    stray_side(&l->partner, l->state + CONTROLLER_LAPTOP_PARTNER);
    stray_side(&l->cable, l->state + CONTROLLER_LAPTOP_CABLE);
    return CONTROLLER_ACCEPTED;
}

static const struct step STEPS[] = {
    {"dock_fresh", fresh_dock, show_fresh_dock},
    {"dock_load", load, show_dock},
    {"dock_message", ask, show_dock},
    {"dock_policy_answer", answer, show_dock},
    {"dock_sent", sent, show_dock},
    {"dock_failed", failed, show_dock},
    {"laptop_fresh", fresh_laptop, show_fresh_laptop},
    {"laptop_message", hear, show_laptop},
    {"laptop_report", report, show_report},
    {"laptop_next", next, show_laptop},
    {"laptop_start_over", start_over, show_laptop},
    {"laptop_drop", drop, show_laptop},
    {"laptop_enter", enter, show_laptop},
    {"laptop_exit", leave, show_laptop},
    {"laptop_response_timer", response_timer, show_laptop},
    {"laptop_entry_timer", entry_timer, show_laptop},
    {"laptop_exit_timer", exit_timer, show_laptop},
    {"laptop_protocol_error", protocol_error, show_laptop},
    {"catalogue_write", write_catalogue, show_catalogue},
    {"catalogue_read", read_catalogue, show_reading},
    {"catalogue_stretch", find_stretch, show_stretch},
    {"catalogue_mend", mend, show_mending},
    {"room", set_room, show_set},
    {"runs", set_runs, show_set},
    {"stray", stray, show_set},
};

const struct step *step_named(const char *name) {
    for (size_t i = 0; i < sizeof STEPS / sizeof *STEPS; i++)
        if (strcmp(STEPS[i].name, name) == 0) return &STEPS[i];
    fail("an unknown step", name);
    return NULL;
}
