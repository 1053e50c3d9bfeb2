/*
 * The cases of document 01 over the library, printed as the programs `cases` print them. SVIDs are 1, 2, 3 and so on.
 *   cases          all of them, of the partner
 *   cases cable    case L of the cable, while the partner's list is open
 */
#include "ends.h"

#include <stdio.h>
#include <stdlib.h>
#include <string.h>

#define PD_SID 0xFF00
/* At 2.0. */
#define REQUEST(svid, command) ((uint32_t)(svid) << 16 | 0xA000u | (command))
#define ACK(svid, command) (REQUEST(svid, command) | 0x40u)

static const uint32_t IDENTITY_OBJECTS[3] = {1, 2, 3};
static const uint32_t MODE = 0x405;

/* A message as its objects. */
struct message {
    uint32_t objects[7];
    uint8_t count;
};

static struct dock dock;
static struct laptop laptop;

/* A call that a case needs, and that is refused, ends the program. */
static void must(uint8_t refusal, const char *call) {
    if (refusal == CONTROLLER_ACCEPTED) return;
    printf("%s is refused %u\n", call, refusal);
    exit(1);
}

static void must_be(int is_so, const char *what) {
    if (is_so) return;
    printf("not so: %s\n", what);
    exit(1);
}

static struct message message_in(const uint8_t *bytes, uint32_t length) {
    struct message message = {{0}, (uint8_t)(length / 4)};
    for (int i = 0; i < message.count; i++) message.objects[i] = object_at(bytes + 4 * i);
    return message;
}

static controller_count bytes_of(const struct message *message, uint8_t bytes[CONTROLLER_MESSAGE_BYTES]) {
    for (int i = 0; i < message->count; i++) put_object(message->objects[i], bytes + 4 * i);
    return 4 * (controller_count)message->count;
}

static void print_message(const struct message *message) {
    for (int i = 0; i < message->count; i++) printf("%s%08X", i == 0 ? "" : " ", (unsigned)message->objects[i]);
}

/* A fresh dock with the SVIDs 1 to n. */
static void load_dock(unsigned n) {
    uint16_t svids[CONTROLLER_SVIDS];
    for (unsigned i = 0; i < n; i++) svids[i] = (uint16_t)(i + 1);
    dock_fresh(dock.state, dock.identity, dock.svids);
    must(dock_load(dock.state, dock.identity, dock.svids, IDENTITY_OBJECTS, 3, svids, n, &dock.length), "dock_load");
}

/* The dock's answer to a request of one object, which it is then sending. */
static struct message dock_answers(uint32_t request, uint8_t policy) {
    struct message asked = {{request}, 1};
    uint8_t bytes[CONTROLLER_MESSAGE_BYTES];
    controller_count length = bytes_of(&asked, bytes);
    must(dock_message(dock.state, dock.identity, dock.svids, bytes, length, dock.out, sizeof dock.out, &dock.length), "dock_message");
    uint8_t command = (uint8_t)dock.state[CONTROLLER_DOCK_COMMAND];
    controller_count objects = command == CONTROLLER_DISCOVER_MODES;
    must(dock_policy_answer(dock.state, dock.identity, dock.svids, policy, dock.state[CONTROLLER_DOCK_SVID], command,
                            (uint8_t)dock.state[CONTROLLER_DOCK_POSITION], &MODE, objects, dock.out, sizeof dock.out, &dock.length),
         "dock_policy_answer");
    return message_in(dock.out, dock.length);
}

static void confirm(void) { must(dock_sent(dock.state, dock.identity, dock.svids, &dock.length), "dock_sent"); }

static void fresh(void) { laptop_fresh(laptop.state, laptop.partner.entered, laptop.cable.entered); }

static uint8_t next(uint8_t side) {
    struct side *s = side_of(&laptop, side);
    return laptop_next(laptop.state, side, s->svids, s->entered, s->run, CONTROLLER_RUN_WORDS, s->held_run, CONTROLLER_RUN_WORDS, laptop.out,
                       sizeof laptop.out, laptop.handed);
}

static uint8_t hear(uint8_t side, const struct message *message) {
    struct side *s = side_of(&laptop, side);
    uint8_t bytes[CONTROLLER_MESSAGE_BYTES];
    controller_count length = bytes_of(message, bytes);
    return laptop_message(laptop.state, side, bytes, length, s->svids, s->modes, s->identity, s->run, CONTROLLER_RUN_WORDS, s->held_svids,
                          s->held_modes, s->held_identity, s->held_run, CONTROLLER_RUN_WORDS, s->entered, laptop.handed);
}

/* The number at a place in the nine of a side. */
static unsigned number(uint8_t side, enum controller_side_state place) {
    return laptop.state[(side == CONTROLLER_CABLE ? CONTROLLER_LAPTOP_CABLE : CONTROLLER_LAPTOP_PARTNER) + place];
}

/* A request of next to the partner, and the dock's answer to it. Gives the number by which the laptop refuses that, or 0. */
static uint8_t exchange(uint8_t policy, struct message *answer) {
    must(next(CONTROLLER_PARTNER), "laptop_next");
    *answer = dock_answers(object_at(laptop.out), policy);
    return hear(CONTROLLER_PARTNER, answer);
}

static void exchange_and_confirm(void) {
    struct message answer;
    must(exchange(CONTROLLER_GIVE, &answer), "laptop_message");
    confirm();
}

/* Asks the partner on until there is no candidate. */
static void gather(void) {
    while (number(CONTROLLER_PARTNER, CONTROLLER_SIDE_CANDIDATE) != 0) exchange_and_confirm();
}

/* The number of held SVIDs. */
static void print_held(uint8_t side) {
    if (number(side, CONTROLLER_SIDE_HELD) == 0) printf("-");
    else printf("%u", number(side, CONTROLLER_SIDE_HELD_COUNT));
}

static void print_catalogue(uint8_t side, const char *name) {
    struct side *s = side_of(&laptop, side);
    must(catalogue_write(laptop.state, side, s->held_svids, s->held_modes, s->held_identity, s->held_run, CONTROLLER_RUN_WORDS, laptop.catalogue,
                         sizeof laptop.catalogue, &laptop.catalogue_length),
         "catalogue_write");
    printf("case %s: held ", name);
    print_held(side);
    printf(", catalogue of %u bytes ", laptop.catalogue_length);
    for (int i = 0; i < laptop.catalogue_length; i++) printf("%02X", laptop.catalogue[i]);
    printf("\n");
}

/* Cases 1 to 8: the dock's answers to Discover SVIDs, up to the first on which the page stays. */
static void print_list(int number, unsigned n) {
    uint16_t page = 0;
    int answer = 0;
    load_dock(n);
    do {
        page = dock.state[CONTROLLER_DOCK_PAGE];
        struct message message = dock_answers(REQUEST(PD_SID, CONTROLLER_DISCOVER_SVIDS), CONTROLLER_GIVE);
        printf("case %d: n=%u, answer %d: ", number, dock.state[CONTROLLER_DOCK_COUNT], ++answer);
        print_message(&message);
        printf("\n");
        confirm();
    } while (dock.state[CONTROLLER_DOCK_PAGE] != page);
}

/* Case 9: the dock takes it, so it is a REQ, and asks policy about what it read. */
static void print_reading(uint32_t header) {
    uint8_t bytes[4];
    put_object(header, bytes);
    load_dock(0);
    must(dock_message(dock.state, dock.identity, dock.svids, bytes, sizeof bytes, dock.out, sizeof dock.out, &dock.length), "dock_message");
    printf("case 9: %08X: SVID %04X, command %u, type 0, position %u\n", (unsigned)header, dock.state[CONTROLLER_DOCK_SVID],
           dock.state[CONTROLLER_DOCK_COMMAND], dock.state[CONTROLLER_DOCK_POSITION]);
}

static const struct message IDENTITY_ACK = {{ACK(PD_SID, CONTROLLER_IDENTITY), 1, 2, 3}, 4};

static void print_bad_page(void) {
    const struct message page = {{ACK(PD_SID, CONTROLLER_DISCOVER_SVIDS), 0x00010000, 0x00020000}, 3};
    fresh();
    must(next(CONTROLLER_PARTNER), "laptop_next");
    must(hear(CONTROLLER_PARTNER, &IDENTITY_ACK), "laptop_message");
    must(next(CONTROLLER_PARTNER), "laptop_next");
    printf("case 10: ");
    print_message(&page);
    printf(": refused %u\n", hear(CONTROLLER_PARTNER, &page));
}

static void print_unconfirmed(void) {
    struct message page;
    load_dock(13);
    fresh();
    exchange_and_confirm();
    must(exchange(CONTROLLER_GIVE, &page), "laptop_message");
    must(dock_failed(dock.state, dock.identity, dock.svids, &dock.length), "dock_failed");
    gather();
    printf("case 11: n=%u, first page unconfirmed once: %u pages received, ", dock.state[CONTROLLER_DOCK_COUNT],
           number(CONTROLLER_PARTNER, CONTROLLER_SIDE_PAGES));
    print_held(CONTROLLER_PARTNER);
    printf(" SVIDs held\n");
}

/* Case 12: the old catalogue has one SVID, and the dock is then loaded with twelve. */
static void print_voided(void) {
    struct message page, nak;
    load_dock(1);
    fresh();
    exchange_and_confirm();
    gather();
    print_catalogue(CONTROLLER_PARTNER, "12");
    load_dock(12);
    exchange_and_confirm();
    must(exchange(CONTROLLER_GIVE, &page), "laptop_message");
    confirm();
    uint8_t refusal = exchange(CONTROLLER_NAK, &nak);
    printf("case 12: ");
    print_message(&page);
    printf(", then ");
    print_message(&nak);
    printf(": refused %u\n", refusal);
    print_catalogue(CONTROLLER_PARTNER, "12");
}

/* The watcher's line of an event of a side. */
static void print_event(uint8_t side, int event, uint8_t refusal) {
    printf("case L: %d %u ", event, refusal);
    if (refusal == CONTROLLER_ACCEPTED && laptop.handed[CONTROLLER_HANDED_LENGTH] > 0) printf("%08X", (unsigned)object_at(laptop.out));
    else printf("-");
    printf(" %u ", number(side, CONTROLLER_SIDE_PAGES));
    print_held(side);
    printf("\n");
    must_be(laptop.handed[CONTROLLER_HANDED_SIDE] == side, "the side of the call is handed over");
}

static void print_case_l(uint8_t side) {
    const struct message page = {{ACK(PD_SID, CONTROLLER_DISCOVER_SVIDS), 0xFF010000}, 2};
    const struct message modes = {{ACK(0xFF01, CONTROLLER_DISCOVER_MODES), MODE}, 2};
    print_event(side, 1, next(side));
    print_event(side, 2, hear(side, &IDENTITY_ACK));
    print_event(side, 3, next(side));
    print_event(side, 4, hear(side, &page));
    print_event(side, 5, next(side));
    print_event(side, 6, hear(side, &modes));
    print_catalogue(side, "L");
}

static void print_cases(void) {
    const unsigned lists[8] = {0, 3, 4, 10, 11, 12, 13, 72};
    for (int i = 0; i < 8; i++) print_list(i + 1, lists[i]);
    print_reading(0xFF01A104);
    print_bad_page();
    print_unconfirmed();
    print_voided();
    fresh();
    print_case_l(CONTROLLER_PARTNER);
}

/* The partner's gathering stays where it stood, and comes to its end. */
static void print_case_l_of_cable(void) {
    load_dock(13);
    fresh();
    exchange_and_confirm();
    exchange_and_confirm();
    struct laptop open = laptop;
    must_be(number(CONTROLLER_PARTNER, CONTROLLER_SIDE_CANDIDATE) == 1, "the partner's list is open");
    print_case_l(CONTROLLER_CABLE);
    size_t partners_numbers = (CONTROLLER_LAPTOP_CABLE - CONTROLLER_LAPTOP_PARTNER) * sizeof *laptop.state;
    must_be(memcmp(laptop.state + CONTROLLER_LAPTOP_PARTNER, open.state + CONTROLLER_LAPTOP_PARTNER, partners_numbers) == 0,
            "the partner's numbers stay");
    must_be(memcmp(&laptop.partner, &open.partner, sizeof open.partner) == 0, "the partner's arrays and runs stay");
    gather();
    must_be(number(CONTROLLER_PARTNER, CONTROLLER_SIDE_HELD_COUNT) == 13, "the partner's 13 SVIDs are held");
    must_be(number(CONTROLLER_CABLE, CONTROLLER_SIDE_HELD_COUNT) == 1, "the cable's SVID is held");
}

int main(int argc, char **argv) {
    if (argc == 2 && strcmp(argv[1], "cable") == 0) print_case_l_of_cable();
    else print_cases();
    return 0;
}
