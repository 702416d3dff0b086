/* Calls each function of sv/tlbridge_dpi.c as a simulator would: plain numbers, and vectors in words of 32 bits. It runs over the pairs of
 * widths that macros name, as -DTLBRIDGE_8_4. Expected beats follow from docs/SPECIFICATION.md: byte i of a message is on lane
 * (address + i) mod width of the beat that has it. The last line counts the checks. */
#include <assert.h>
#include <stdint.h>
#include <stdio.h>
#include <stdlib.h>
#include <string.h>

/* The prototypes of sv/tlbridge_pkg.sv, before the glue's own: one that differs does not compile. */
void *tlbridge_handle(void);
uint8_t tlbridge_open(void *, int, int, uint64_t);
void tlbridge_free(void *);
uint8_t tlbridge_settle(void *);
uint64_t tlbridge_pump_client(void *), tlbridge_pump_manager(void *), tlbridge_fetch_client(void *), tlbridge_fetch_manager(void *);
uint8_t tlbridge_drained(void *);
uint8_t tlbridge_standing(void *, uint8_t, uint64_t *, uint64_t *, uint64_t *);
const char *tlbridge_status_name(uint8_t), *tlbridge_status_text(uint8_t);
uint8_t tlbridge_ready_a(void *), tlbridge_ready_b(void *), tlbridge_ready_c(void *), tlbridge_ready_d(void *), tlbridge_ready_e(void *);
uint8_t tlbridge_close_a(void *), tlbridge_close_b(void *), tlbridge_close_c(void *), tlbridge_close_d(void *), tlbridge_close_e(void *);
uint8_t tlbridge_offer_a(void *, uint8_t, uint8_t, uint8_t, uint16_t, uint64_t, const uint32_t *, const uint32_t *, uint8_t);
uint8_t tlbridge_offer_b(void *, uint8_t, uint8_t, uint8_t, uint16_t, uint64_t, const uint32_t *, const uint32_t *, uint8_t);
uint8_t tlbridge_offer_c(void *, uint8_t, uint8_t, uint8_t, uint16_t, uint64_t, const uint32_t *, uint8_t);
uint8_t tlbridge_offer_d(void *, uint8_t, uint8_t, uint8_t, uint16_t, uint16_t, uint8_t, const uint32_t *, uint8_t);
uint8_t tlbridge_offer_e(void *, uint16_t);
uint8_t tlbridge_take_a(void *, uint8_t *, uint8_t *, uint8_t *, uint16_t *, uint64_t *, uint32_t *, uint32_t *, uint8_t *);
uint8_t tlbridge_take_b(void *, uint8_t *, uint8_t *, uint8_t *, uint16_t *, uint64_t *, uint32_t *, uint32_t *, uint8_t *);
uint8_t tlbridge_take_c(void *, uint8_t *, uint8_t *, uint8_t *, uint16_t *, uint64_t *, uint32_t *, uint8_t *);
uint8_t tlbridge_take_d(void *, uint8_t *, uint8_t *, uint8_t *, uint16_t *, uint16_t *, uint8_t *, uint32_t *, uint8_t *);
uint8_t tlbridge_take_e(void *, uint16_t *);
/* NOLINTNEXTLINE(bugprone-suspicious-include): the functions that it has only for itself are tested, too */
#include "../../sv/tlbridge_dpi.c"

/* Statuses of docs/FAULTS.md. Macros give those of sv/tlbridge_pkg.sv: OTHER_PAIR, NOT_OPEN and NOT_READY. */
enum { IN_BURST = 11, NO_SUCH_RING = 12 };

static unsigned long passed, failed;
static char place[100];

static void check(bool fact, const char *said) {
    passed += fact;
    failed += !fact;
    if (!fact) printf("failed: %s: %s\n", place, said);
}
#define CHECK(fact) check(fact, #fact)

/* A beat of any channel, with its vectors. */
typedef struct {
    uint8_t opcode, param, size, denied, corrupt;
    uint16_t source, sink;
    uint64_t address;
    uint32_t mask[4], data[32];
} wires;

static void put_lane(wires *beat, unsigned lane, uint8_t byte) {
    beat->data[lane / 4] |= (uint32_t)byte << (8 * (lane % 4));
    beat->mask[lane / 32] |= (uint32_t)1 << (lane % 32);
}

static uint8_t offer_wires(void *bridge, char x, const wires *w) {
    switch (x) {
    case 'A': return tlbridge_offer_a(bridge, w->opcode, w->param, w->size, w->source, w->address, w->mask, w->data, w->corrupt);
    case 'B': return tlbridge_offer_b(bridge, w->opcode, w->param, w->size, w->source, w->address, w->mask, w->data, w->corrupt);
    case 'C': return tlbridge_offer_c(bridge, w->opcode, w->param, w->size, w->source, w->address, w->data, w->corrupt);
    case 'D': return tlbridge_offer_d(bridge, w->opcode, w->param, w->size, w->source, w->sink, w->denied, w->data, w->corrupt);
    default: return tlbridge_offer_e(bridge, w->sink);
    }
}

/* Takes a beat into wires that hold other values before. */
static bool take_wires(void *bridge, char x, wires *w) {
    memset(w, 0xa5, sizeof *w);
    if (x > 'B') memset(w->mask, 0, sizeof w->mask);
    if (x == 'E') memset(w->data, 0, sizeof w->data);
    if (x != 'D') w->denied = 0;
    if (x < 'D') w->sink = 0;
    if (x >= 'D') w->address = 0;
    if (x == 'E') w->opcode = w->param = w->size = w->corrupt = 0, w->source = 0;
    switch (x) {
    case 'A': return tlbridge_take_a(bridge, &w->opcode, &w->param, &w->size, &w->source, &w->address, w->mask, w->data, &w->corrupt);
    case 'B': return tlbridge_take_b(bridge, &w->opcode, &w->param, &w->size, &w->source, &w->address, w->mask, w->data, &w->corrupt);
    case 'C': return tlbridge_take_c(bridge, &w->opcode, &w->param, &w->size, &w->source, &w->address, w->data, &w->corrupt);
    case 'D': return tlbridge_take_d(bridge, &w->opcode, &w->param, &w->size, &w->source, &w->sink, &w->denied, w->data, &w->corrupt);
    default: return tlbridge_take_e(bridge, &w->sink);
    }
}

static bool same(const wires *a, const wires *b) {
    return a->opcode == b->opcode && a->param == b->param && a->size == b->size && a->denied == b->denied && a->corrupt == b->corrupt &&
           a->source == b->source && a->sink == b->sink && a->address == b->address && memcmp(a->mask, b->mask, sizeof a->mask) == 0 &&
           memcmp(a->data, b->data, sizeof a->data) == 0;
}

typedef uint8_t (*one_call)(void *);
static const one_call ready_of[] = {tlbridge_ready_a, tlbridge_ready_b, tlbridge_ready_c, tlbridge_ready_d, tlbridge_ready_e};
static const one_call close_of[] = {tlbridge_close_a, tlbridge_close_b, tlbridge_close_c, tlbridge_close_d, tlbridge_close_e};
typedef uint64_t (*moves)(void *);

static bool is_of_client(char x) {
    return x == 'A' || x == 'C' || x == 'E';
}

static bool waits_at(void *bridge, char x, uint64_t staged, uint64_t in_ring, uint64_t inbox) {
    uint64_t got[3] = {9, 9, 9};
    return tlbridge_standing(bridge, (uint8_t)x, &got[0], &got[1], &got[2]) && got[0] == staged && got[1] == in_ring && got[2] == inbox;
}

/* The head of a message with data on a channel, in which each field that the channel has is not 0; of `1 << size` bytes. */
static wires head_of(char x, uint8_t size, uint64_t address) {
    wires w = {0};
    w.sink = (uint16_t)(x >= 'D' ? 0x5aa5 + address : 0);
    if (x == 'E') return w;
    w.opcode = x == 'C' ? 7 : x == 'D' ? 5 : 2;
    w.param = x == 'C' ? 5 : x == 'D' ? 2 : 4;
    w.size = size;
    w.source = (uint16_t)((x == 'D' ? 0xa000U : 0x5000U) + 256U * size + address); /* no two requests of one bridge have the same */
    w.address = x == 'D' ? 0 : 0x8877665544332200 + address;
    w.denied = x == 'D';
    w.corrupt = 1;
    return w;
}

/* The beat of a head that has the bytes from `first` on, at most as many as lanes. */
static wires beat_of(char x, const wires *head, uint64_t address, unsigned first, unsigned width) {
    wires w = *head;
    unsigned bytes = x == 'E' ? 0 : 1u << head->size;
    for (unsigned i = first; i < bytes && i < first + width; i++) put_lane(&w, (unsigned)((address + i) % width), (uint8_t)(7 * (uint64_t)i + address + 3));
    if (x > 'B') memset(w.mask, 0, sizeof w.mask);
    return w;
}

/* A message of a channel crosses beat by beat: each is staged, is moved to the ring and to the inbox, and is taken. */
static void crosses(void *bridge, char x, uint8_t size, uint64_t address, unsigned near, unsigned far) {
    assert(near > 0 && far > 0);
    moves pump = is_of_client(x) ? tlbridge_pump_client : tlbridge_pump_manager;
    moves fetch = is_of_client(x) ? tlbridge_fetch_manager : tlbridge_fetch_client;
    wires head = head_of(x, size, address), got, none = {0};
    unsigned bytes = x == 'E' ? 1 : 1u << size, of_near = bytes < near ? bytes : near, of_far = bytes < far ? bytes : far, taken = 0;
    (void)snprintf(place, sizeof place, "%u to %u, channel %c, 2^%u bytes at %u", near, far, x, size, (unsigned)address);
    for (unsigned sent = 0; sent < bytes; sent += of_near) {
        wires beat = beat_of(x, &head, address, sent, near);
        CHECK(ready_of[x - 'A'](bridge) == 1);
        CHECK(offer_wires(bridge, x, &beat) == 0);
        unsigned more = (sent + of_near) / of_far - taken;
        CHECK(waits_at(bridge, x, more, 0, 0));
        CHECK(ready_of[x - 'A'](bridge) == (more == 0) && tlbridge_drained(bridge) == (more == 0));
        CHECK(pump(bridge) == more && waits_at(bridge, x, 0, more, 0) && tlbridge_drained(bridge) == (more == 0));
        CHECK(fetch(bridge) == more && waits_at(bridge, x, 0, 0, more) && tlbridge_drained(bridge) == (more == 0));
        for (; more > 0; more--, taken++) {
            wires wanted = beat_of(x, &head, address, taken * of_far, far);
            CHECK(take_wires(bridge, x, &got) && same(&got, &wanted));
        }
        CHECK(!take_wires(bridge, x, &got) && same(&got, &none));
        CHECK(tlbridge_drained(bridge) == 1);
    }
}

/* A request of a source crosses, so that D may respond. */
static void asks(void *bridge, uint8_t size, uint64_t address, unsigned near) {
    wires get = head_of('A', size, address), got;
    get.source = head_of('D', size, address).source;
    get.opcode = 6; /* AcquireBlock */
    get.param = 2;
    get.corrupt = 0;
    unsigned bytes = 1u << size;
    for (unsigned i = 0; i < bytes && i < near; i++) put_lane(&get, (unsigned)((address + i) % near), 0);
    CHECK(offer_wires(bridge, 'A', &get) == 0 && tlbridge_settle(bridge) == 0 && take_wires(bridge, 'A', &got) && got.opcode == 6);
}

static void test_crossings(void *bridge, unsigned client, unsigned manager) {
    unsigned widest = client > manager ? client : manager;
    uint8_t whole = 0;
    while (1u << whole < widest) whole++;
    CHECK(tlbridge_open(bridge, (int)client, (int)manager, 200) == 0);
    for (int number = 0; number < 5; number++) {
        char x = (char)('A' + number);
        unsigned near = is_of_client(x) ? client : manager, far = is_of_client(x) ? manager : client;
        for (uint64_t address = 0; address < widest; address++) {
            if (x == 'D') asks(bridge, 0, address, client);
            crosses(bridge, x, 0, address, near, far);
        }
        if (x == 'D') asks(bridge, (uint8_t)(whole + 1), 0, client);
        if (x != 'E') crosses(bridge, x, (uint8_t)(whole + 1), 0, near, far);
    }
}

/* Data past the lanes of a link is refused, on each lane, and nothing changes. */
static void test_lanes(void *bridge, unsigned client, unsigned manager) {
    for (int number = 0; number < 4; number++) {
        char x = (char)('A' + number);
        unsigned near = is_of_client(x) ? client : manager;
        (void)snprintf(place, sizeof place, "%u to %u, channel %c, data past the lanes", client, manager, x);
        for (unsigned lane = near; lane < 128; lane++) {
            wires beat = head_of(x, 0, 0);
            beat.data[lane / 4] = (uint32_t)1 << (8 * (lane % 4));
            CHECK(offer_wires(bridge, x, &beat) == OTHER_PAIR && ready_of[x - 'A'](bridge) == 1 && tlbridge_drained(bridge) == 1);
        }
    }
    wires put = head_of('A', 0, 0);
    put_lane(&put, client < 128 ? client : 127, 0);
    CHECK(offer_wires(bridge, 'A', &put) == 5); /* Mask */
}

static void test_without_a_bridge(void *bridge, const char *when) {
    uint64_t counts[3] = {9, 9, 9};
    wires beat, none = {0};
    (void)snprintf(place, sizeof place, "%s", when);
    CHECK(tlbridge_settle(bridge) == NOT_OPEN && tlbridge_drained(bridge) == 0);
    CHECK(tlbridge_pump_client(bridge) == 0 && tlbridge_pump_manager(bridge) == 0 && tlbridge_fetch_client(bridge) == 0 && tlbridge_fetch_manager(bridge) == 0);
    CHECK(tlbridge_standing(bridge, 'A', &counts[0], &counts[1], &counts[2]) == 0 && counts[0] + counts[1] + counts[2] == 0);
    for (int number = 0; number < 5; number++) {
        char x = (char)('A' + number);
        beat = head_of(x, 0, 0);
        CHECK(ready_of[x - 'A'](bridge) == 0 && close_of[x - 'A'](bridge) == NOT_OPEN && offer_wires(bridge, x, &beat) == NOT_OPEN);
        if (x != 'E') put_lane(&beat, 127, 1); /* it would not fit */
        CHECK(offer_wires(bridge, x, &beat) == NOT_OPEN);
        CHECK(!take_wires(bridge, x, &beat) && same(&beat, &none));
    }
}

static void test_closing(void *bridge, unsigned client, unsigned manager) {
    for (int number = 0; number < 5; number++) {
        char x = (char)('A' + number);
        (void)snprintf(place, sizeof place, "%u to %u, closing %c", client, manager, x);
        CHECK(tlbridge_open(bridge, (int)client, (int)manager, 16) == 0);
        wires beat = x == 'E' ? head_of(x, 0, 0) : beat_of(x, &(wires){.opcode = x == 'C' ? 7 : 0, .size = 8}, 0, 0, is_of_client(x) ? client : manager);
        if (x != 'D' && x != 'E') {
            CHECK(offer_wires(bridge, x, &beat) == 0 && close_of[x - 'A'](bridge) == IN_BURST);
            CHECK(tlbridge_open(bridge, (int)client, (int)manager, 16) == 0);
        }
        CHECK(close_of[x - 'A'](bridge) == 0 && ready_of[x - 'A'](bridge) == 0 && offer_wires(bridge, x, &beat) == NOT_READY);
        for (int other = 0; other < 5; other++) CHECK(ready_of[other](bridge) == (other != number));
    }
}

static void test_opening(void *bridge) {
    wires release = {.opcode = 6, .size = 2}, got;
    (void)snprintf(place, sizeof place, "opening");
    CHECK(tlbridge_open(bridge, 8, 4, 1) == 0);
    for (int i = 0; i < 3; i++) CHECK(offer_wires(bridge, 'C', &release) == 0 && tlbridge_pump_client(bridge) == (i == 0) && (i > 0 || waits_at(bridge, 'C', 0, 1, 0)) &&
                                      (i == 0 || tlbridge_fetch_manager(bridge) == 1) && (i == 0 || tlbridge_pump_client(bridge) == 1));
    CHECK(waits_at(bridge, 'C', 0, 1, 2));
    for (int letter = 0; letter < 256; letter++)
        if (letter < 'A' || letter > 'E') CHECK(waits_at(bridge, (char)letter, 0, 0, 0));
    CHECK(tlbridge_open(bridge, 4, 8, 4096) == 0 && waits_at(bridge, 'C', 0, 0, 0) && !take_wires(bridge, 'C', &got));
    CHECK(tlbridge_open(bridge, 8, 4, 4097) == NO_SUCH_RING);
    test_without_a_bridge(bridge, "after a ring that is too large");
    CHECK(tlbridge_open(bridge, 8, 4, 0) == NO_SUCH_RING && tlbridge_open(bridge, 8, 4, 4096) == 0);
    const int none[][2] = {{8, 5}, {3, 4}, {0, 0}, {-8, 4}, {32, 1}, {4, 1}, {1, 8}, {256, 4}};
    for (unsigned i = 0; i < sizeof none / sizeof *none; i++) {
        CHECK(tlbridge_open(bridge, none[i][0], none[i][1], 16) == OTHER_PAIR);
        test_without_a_bridge(bridge, "after a pair that is not linked");
    }
}

static void test_answers(void) {
    (void)snprintf(place, sizeof place, "answers");
#define SAYS(number, name, sentence) \
    CHECK(strcmp(tlbridge_status_name(number), name) == 0); \
    CHECK(strcmp(tlbridge_status_text(number), name ": " sentence) == 0);
#include "../lib/statuses.h"
    CHECK(strcmp(tlbridge_status_name(OTHER_PAIR), "OtherWidth") == 0);
    CHECK(strcmp(tlbridge_status_text(OTHER_PAIR), "OtherWidth: the glue is not compiled for this pair of widths, or data is on a lane that the link does not have") == 0);
    CHECK(strcmp(tlbridge_status_name(99), "") == 0 && strcmp(tlbridge_status_text(99), ": ") == 0);
}

int main(void) {
    void *bridge = tlbridge_handle();
    test_without_a_bridge(bridge, "before the first opening");
    for (size_t i = 0; i < sizeof tlbridge_pairs / sizeof *tlbridge_pairs; i++) {
        test_crossings(bridge, tlbridge_pairs[i].client, tlbridge_pairs[i].manager);
        test_lanes(bridge, tlbridge_pairs[i].client, tlbridge_pairs[i].manager);
        test_closing(bridge, tlbridge_pairs[i].client, tlbridge_pairs[i].manager);
    }
    test_opening(bridge);
    test_answers();
    tlbridge_open(bridge, 8, 4, 16);
    tlbridge_free(bridge);
    test_without_a_bridge(bridge, "after it was freed");
    tlbridge_free(bridge);
    free(bridge);
    printf("%lu passed, %lu failed\n", passed, failed);
    return failed > 0;
}
