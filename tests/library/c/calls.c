/* Every call of the library for one pair of widths, in one thread: each refusal, random messages against the plain layout of
 * docs/SPECIFICATION.md, and random calls. Compiled with -DCLIENT=8 -DMANAGER=4 -Wl,--wrap=malloc, as tests/library/test_library.py does. The last line
 * counts the checks. */
#include "sides.h"
#include <stdlib.h>

/* Sets the mask bits of the first lanes of a beat. */
static void fill_mask(tl_beat *beat, int lanes) {
    for (int lane = 0; lane < lanes; lane++) tl_mask_add(beat, (unsigned)lane);
}

/* Whether the mask has only the bit of this lane. */
static bool has_one_lane(const tl_beat *beat, int lane) {
    uint64_t bit = (uint64_t)1 << lane % 64;
    return tl_mask_has(beat, (unsigned)lane) && beat->mask == (lane < 64 ? bit : 0) && beat->mask_high == (lane < 64 ? 0 : bit);
}

static void settle(both_sides *both) {
    tl_standings all;
    CHECK(CALL(settle)(&both->client, &both->manager, &all) == TL_OK);
}

static tl_counts counts_of(const tl_standings *all, int x) {
    const tl_counts of[] = {all->a, all->b, all->c, all->d, all->e};
    return of[x];
}

/* The name and the sentence of each number. */
static void texts(void) {
    static const char *const want[] = {"Ok",        "Opcode",       "Param",    "Size",     "Unaligned",   "Mask",   "Corrupt", "HeadChanged",
                                       "SourceBusy", "NoRequest",   "SizeMismatch", "MidBurst", "RingSize", "OutOfMemory", "Header", "Channel",
                                       "Length",    "Shape",        "Range",    "NoEnd",    "Stalled",     "Read",   "Write",   "TooLong"};
    for (int n = 0; n < 256; n++) {
        tl_text text, none;
        memset(&text, 0xee, sizeof text);
        memset(&none, 0, sizeof none);
        CALL(status_text)((uint8_t)n, &text);
        static const char *const own[] = {"NotTaken", "WrongReceipt", "BridgeMismatch", "NotOpen", "NotSent", "NotReady"};
        const char *name = n < 24 ? want[n] : n >= TL_NOT_TAKEN && n <= TL_NOT_READY ? own[n - TL_NOT_TAKEN] : "";
        CHECK(memchr(text.name, 0, sizeof text.name) != NULL && strcmp(text.name, name) == 0);
        CHECK(memchr(text.sentence, 0, sizeof text.sentence) != NULL && (strlen(text.sentence) > 0) == (strlen(name) > 0));
        CHECK(memcmp(text.name + strlen(name), none.name, sizeof text.name - strlen(name)) == 0);
        CHECK(memcmp(text.sentence + strlen(text.sentence), none.sentence, sizeof text.sentence - strlen(text.sentence)) == 0);
    }
    tl_text busy;
    CALL(status_text)(TL_SOURCE_BUSY, &busy);
    CHECK(strcmp(busy.sentence, "the source's last request still waits for its response") == 0);
    CHECK(CALL(version)() == TL_VERSION);
}

static void handles(void) {
    both_sides one = {{0}, {0}}, other = {{0}, {0}};
    without_sides(&one);
    static const size_t bad[] = {0, TL_MAX_RING + 1, SIZE_MAX};
    for (int i = 0; i < 3; i++) {
        CHECK(open_both(&one, bad[i]) == TL_RING_SIZE);
        without_sides(&one);
    }
    CHECK(open_both(&one, 1) == TL_OK);
    CHECK(open_both(&one, TL_MAX_RING) == TL_OK);
    CHECK(open_both(&other, 1) == TL_OK);
    CHECK(open_both(&other, 0) == TL_RING_SIZE);
    without_sides(&other);
    /* a second free, calls after it, and an open with one side left */
    CALL(free_client)(&one.client);
    CALL(free_client)(&one.client);
    CHECK(!ready_a(&one.client) && ready_b(&one.manager) && CALL(pump_client)(&one.client) == 0);
    CHECK(open_both(&one, 3) == TL_OK);
    CHECK(ready_a(&one.client) && ready_b(&one.manager));
    CALL(free_manager)(&one.manager);
    CALL(free_manager)(&one.manager);
    CHECK(ready_a(&one.client) && !ready_b(&one.manager));
    tl_standings all;
    CHECK(CALL(meet)(&one.client, &one.manager, &all) == TL_NOT_OPEN && CALL(settle)(&one.client, &one.manager, &all) == TL_NOT_OPEN);
    CHECK(ready_a(&one.client));
    free_both(&one);
    without_sides(&one);
}

/* Sides of two bridges, which have different numbers. */
static void other_bridges(void) {
    both_sides one = {{0}, {0}}, other = {{0}, {0}};
    tl_standings all, before;
    tl_beat ack = {.sink = 5}, got;
    uint8_t lanes[MAX_LANES] = {0};
    memset(&all, 0x5a, sizeof all);
    before = all;
    CHECK(CALL(open)(&one.client, &one.manager, 4, 1) == TL_OK && CALL(open)(&other.client, &other.manager, 4, UINT64_MAX) == TL_OK);
    CHECK(one.client.bridge == 1 && one.manager.bridge == 1 && other.client.bridge == UINT64_MAX && other.manager.bridge == UINT64_MAX);
    CHECK(offer_e(&one.client, &ack, lanes) == TL_OK);
    CHECK(CALL(meet)(&one.client, &other.manager, &all) == TL_BRIDGE_MISMATCH && CALL(settle)(&one.client, &other.manager, &all) == TL_BRIDGE_MISMATCH);
    CHECK(CALL(meet)(&other.client, &one.manager, &all) == TL_BRIDGE_MISMATCH && CALL(settle)(&other.client, &one.manager, &all) == TL_BRIDGE_MISMATCH);
    CHECK(memcmp(&all, &before, sizeof all) == 0 && !take_e(&one.manager, &got, lanes));
    CHECK(CALL(settle)(&one.client, &one.manager, &all) == TL_OK && all.e.inbox == 1 && take_e(&one.manager, &got, lanes));
    CHECK(CALL(meet)(&other.client, &other.manager, &all) == TL_OK && tl_drained(&all));
    free_both(&one);
    free_both(&other);
}

/* The receipt of each side: when it is given, what it counts, and what the other side says of it. */
static void receipts(void) {
    both_sides one = {{0}, {0}};
    tl_beat beat = {.opcode = 6, .size = 0, .mask = 1}, got;
    uint8_t lanes[MAX_LANES] = {0};
    tl_totals of_client, of_manager, before, now;
    memset(&of_client, 0x5a, sizeof of_client);
    before = of_client;
    CHECK(open_both(&one, 1) == TL_OK);
    CHECK(CALL(finish_client)(&one.client, &of_client) == TL_NOT_SENT && memcmp(&of_client, &before, sizeof before) == 0);
    CHECK(offer_e(&one.client, &beat, lanes) == TL_OK && CALL(pump_client)(&one.client) == 1 && offer_e(&one.client, &beat, lanes) == TL_OK);
    CHECK(close_a(&one.client) == TL_OK && close_c(&one.client) == TL_OK && close_e(&one.client) == TL_OK);
    /* the ring has one place: a beat is staged until the first one was fetched */
    CHECK(CALL(pump_client)(&one.client) == 0 && CALL(finish_client)(&one.client, &of_client) == TL_NOT_SENT);
    settle(&one);
    CHECK(CALL(finish_client)(&one.client, &of_client) == TL_OK && of_client.bridge == 7 && of_client.e == 2);
    CHECK(of_client.a == 0 && of_client.b == 0 && of_client.c == 0 && of_client.d == 0);
    for (int i = 0; i < 2; i++) {
        CHECK(CALL(drained_manager)(&one.manager, &of_client) == TL_NOT_TAKEN && take_e(&one.manager, &got, lanes));
        CHECK(CALL(count_manager)(&one.manager, &now) == TL_OK && now.e == (uint64_t)i + 1);
        settle(&one);
    }
    CHECK(CALL(drained_manager)(&one.manager, &of_client) == TL_OK);
    /* a finished side still takes */
    CHECK(offer_b(&one.manager, &beat, lanes) == TL_OK && close_b(&one.manager) == TL_OK && close_d(&one.manager) == TL_OK);
    CHECK(CALL(finish_manager)(&one.manager, &of_manager) == TL_NOT_SENT);
    settle(&one);
    CHECK(CALL(finish_manager)(&one.manager, &of_manager) == TL_OK && of_manager.b == 1 && of_manager.d == 0 && of_manager.e == 2);
    CHECK(CALL(drained_client)(&one.client, &of_manager) == TL_NOT_TAKEN && take_b(&one.client, &got, lanes));
    CHECK(CALL(drained_client)(&one.client, &of_manager) == TL_OK && CALL(drained_manager)(&one.manager, &of_client) == TL_OK);
    /* each number is compared, and that of the bridge first */
    of_client.a++;
    CHECK(CALL(drained_manager)(&one.manager, &of_client) == TL_NOT_TAKEN);
    of_client.bridge++;
    CHECK(CALL(drained_manager)(&one.manager, &of_client) == TL_BRIDGE_MISMATCH);
    free_both(&one);
}

/* Whether both sides refuse these numbers as a receipt. */
static bool is_no_receipt(both_sides *both, const tl_totals *totals) {
    return CALL(drained_client)(&both->client, totals) == TL_WRONG_RECEIPT && CALL(drained_manager)(&both->manager, totals) == TL_WRONG_RECEIPT;
}

/* What is not a receipt of the other side since the latest open, though its numbers are right: those of a bridge without a beat. */
static void wrong_receipts(void) {
    both_sides one = {{0}, {0}}, other = {{0}, {0}};
    tl_totals zeros = {0}, of_client, of_manager, count;
    for (uint64_t number = 0; number < 2; number++) {
        CHECK(CALL(open)(&one.client, &one.manager, 4, number) == TL_OK && one.client.opening == one.manager.opening);
        for (int x = A; x < CHANNELS; x++) CHECK(close_it[x](near_side(&one, x)) == TL_OK);
        CHECK(is_no_receipt(&one, &zeros));
        CHECK(CALL(count_client)(&one.client, &count) == TL_OK && count.finished == TL_NO_RECEIPT && is_no_receipt(&one, &count));
        CHECK(CALL(count_manager)(&one.manager, &count) == TL_OK && count.finished == TL_NO_RECEIPT && is_no_receipt(&one, &count));
        CHECK(CALL(finish_client)(&one.client, &of_client) == TL_OK && of_client.finished == TL_CLIENT_FINISHED);
        CHECK(CALL(finish_manager)(&one.manager, &of_manager) == TL_OK && of_manager.finished == TL_MANAGER_FINISHED);
        CHECK(CALL(drained_client)(&one.client, &of_client) == TL_WRONG_RECEIPT && CALL(drained_manager)(&one.manager, &of_manager) == TL_WRONG_RECEIPT);
        CHECK(CALL(drained_client)(&one.client, &of_manager) == TL_OK && CALL(drained_manager)(&one.manager, &of_client) == TL_OK);
        /* the receipts of the bridge before, in the same handles and with the same number */
        CHECK(CALL(open)(&one.client, &one.manager, 4, number) == TL_OK);
        CHECK(CALL(drained_client)(&one.client, &of_manager) == TL_WRONG_RECEIPT && CALL(drained_manager)(&one.manager, &of_client) == TL_WRONG_RECEIPT);
        free_both(&one);
        CHECK(one.client.opening == 2 * number + 2 && one.manager.opening == 2 * number + 2);
    }
    /* a handle of an earlier open does not meet the new one, and a failed open is none */
    tl_standings all;
    CHECK(CALL(open)(&other.client, &other.manager, 4, 1) == TL_OK && other.manager.opening == 1);
    CHECK(CALL(open)(&other.client, &one.manager, 4, 1) == TL_OK && other.client.opening == 5 && one.manager.opening == 5);
    CHECK(CALL(meet)(&other.client, &other.manager, &all) == TL_BRIDGE_MISMATCH && CALL(settle)(&other.client, &other.manager, &all) == TL_BRIDGE_MISMATCH);
    CHECK(CALL(meet)(&other.client, &one.manager, &all) == TL_OK);
    CHECK(CALL(open)(&other.client, &one.manager, 0, 1) == TL_RING_SIZE && other.client.opening == 5 && one.manager.opening == 5);
    free_both(&other);
}

/* The memory of the library: `-Wl,--wrap=malloc` leads its calls here. */
static long allocations_left = -1;
void *__real_malloc(size_t bytes);
void *__wrap_malloc(size_t bytes);

void *__wrap_malloc(size_t bytes) {
    if (allocations_left == 0) return NULL;
    if (allocations_left > 0) allocations_left--;
    return __real_malloc(bytes);
}

/* Each allocation of an open refused in turn, on handles that hold sides. */
static void without_memory(void) {
    both_sides bridge = {{0}, {0}};
    int refused = 0;
    uint8_t answer = TL_OUT_OF_MEMORY;
    while (answer == TL_OUT_OF_MEMORY && refused < 100) {
        CHECK(open_both(&bridge, 16) == TL_OK);
        allocations_left = refused;
        answer = open_both(&bridge, 16);
        allocations_left = -1;
        if (answer == TL_OUT_OF_MEMORY) {
            without_sides(&bridge);
            refused++;
        }
    }
    CHECK(answer == TL_OK);
    CHECK(refused == 14); /* of each ring its beats and what both ends share, two tables, and the two sides */
    free_both(&bridge);
}

/* Whether a taken beat is this far beat of a message. */
static bool is_due(const message *m, int x, int number, const tl_beat *beat, const uint8_t *lanes) {
    tl_beat due;
    uint8_t due_lanes[MAX_LANES];
    lay_out(m, x, far_width[x], number, &due, due_lanes);
    if (x == E) due.mask = 0;
    return same(beat, &due) && memcmp(lanes, due_lanes, (size_t)far_width[x]) == 0;
}

/* Sends a message over channel x, in near beats, and compares each far beat that is taken, one by one or several at once, with its layout. */
static void crosses(both_sides *bridge, int x, const message *m) {
    int sent = 0, got = 0, near_beats = beat_count(m, near_width[x]), far_beats = beat_count(m, far_width[x]);
    tl_beat beat;
    uint8_t lanes[MAX_LANES];
    taken_beat taken[TL_INBOX];
    while (sent < near_beats || got < far_beats) {
        if (sent < near_beats && ready[x](near_side(bridge, x))) {
            lay_out(m, x, near_width[x], sent, &beat, lanes);
            /* lanes without a byte may hold anything */
            for (int i = 0; i < near_width[x]; i++)
                if (!m->data && x != E) lanes[i] = (uint8_t)draw(256);
            if (beat.corrupt) beat.corrupt = (uint8_t)(1 + draw(255));
            memset(beat.reserved, (int)draw(256), sizeof beat.reserved);
            CHECK(offer[x](near_side(bridge, x), &beat, lanes) == TL_OK);
            sent++;
            if (sent < near_beats) CHECK(close_it[x](near_side(bridge, x)) == TL_MID_BURST);
        }
        if (draw(2)) from_client(x) ? CALL(pump_client)(&bridge->client) : CALL(pump_manager)(&bridge->manager);
        if (draw(2)) from_client(x) ? CALL(fetch_manager)(&bridge->manager) : CALL(fetch_client)(&bridge->client);
        while (draw(4) && take[x](far_side(bridge, x), &beat, lanes)) {
            CHECK(got < far_beats && is_due(m, x, got, &beat, lanes));
            got++;
        }
        if (draw(4)) continue;
        size_t room = draw(2) ? TL_INBOX : draw(4), count = take_all[x](far_side(bridge, x), taken, room);
        CHECK(count == room || !take[x](far_side(bridge, x), &beat, lanes));
        for (size_t i = 0; i < count; i++, got++) CHECK(got < far_beats && is_due(m, x, got, &taken[i].beat, taken[i].lanes));
    }
    settle(bridge);
    CHECK(!take[x](far_side(bridge, x), &beat, lanes));
}

static void messages(void) {
    both_sides bridge = {{0}, {0}};
    message m;
    CHECK(open_both(&bridge, 5) == TL_OK);
    for (int i = 0; i < 400; i++) {
        uint8_t size = (uint8_t)(draw(16) ? draw(8) : draw(13));
        tl_id source = draw_id();
        uint64_t address = draw((uint64_t)1 << 40) << size;
        /* a request, whose source stays busy until its response is taken */
        draw_message(&m, A, source, size, address);
        crosses(&bridge, A, &m);
        draw_message(&m, B, draw_id(), size, address);
        crosses(&bridge, B, &m);
        draw_message(&m, C, draw_id(), size, address);
        crosses(&bridge, C, &m);
        draw_message(&m, D, source, size, address);
        crosses(&bridge, D, &m);
        draw_message(&m, E, 0, 0, 0);
        crosses(&bridge, E, &m);
    }
    free_both(&bridge);
}

/* An inbox that is full, with two beats more in the ring, taken by calls with room for none, for one, and for all. */
static void whole_inboxes(void) {
    both_sides bridge = {{0}, {0}};
    uint8_t lanes[MAX_LANES] = {0};
    taken_beat taken[TL_INBOX];
    tl_totals totals;
    tl_id sink = 0;
    CHECK(open_both(&bridge, TL_MAX_RING) == TL_OK);
    for (tl_id i = 0; i < TL_INBOX + 2; i++) {
        tl_beat ack = {.sink = i};
        CHECK(offer_e(&bridge.client, &ack, lanes) == TL_OK);
        settle(&bridge);
    }
    CHECK(CALL(take_all_e)(&bridge.manager, NULL, 0) == 0);
    static const size_t rooms[] = {1, TL_INBOX, TL_INBOX, TL_INBOX}, counts[] = {1, TL_INBOX, 1, 0};
    for (int i = 0; i < 4; i++) {
        size_t count = take_all_e(&bridge.manager, taken, rooms[i]);
        CHECK(count == counts[i]);
        for (size_t k = 0; k < count; k++, sink++) CHECK(taken[k].beat.sink == sink);
        CHECK(CALL(count_manager)(&bridge.manager, &totals) == TL_OK && totals.e == sink);
        settle(&bridge);
    }
    free_both(&bridge);
}

/* The beats that each rule refuses. */
static void refusals(void) {
    both_sides bridge = {{0}, {0}};
    client_handle *client = &bridge.client;
    manager_handle *manager = &bridge.manager;
    uint8_t lanes[MAX_LANES] = {0};
    CHECK(open_both(&bridge, TL_MAX_LANES) == TL_OK);
    /* a PutFullData of two near beats */
    uint8_t size = 1;
    while (1 << size < 2 * CLIENT) size++;
    tl_beat put = {.size = size, .source = 7}, beat;
    fill_mask(&put, CLIENT);
    beat = put;
    beat.opcode = 8;
    CHECK(offer_a(client, &beat, lanes) == TL_OPCODE);
    beat = put, beat.param = 1;
    CHECK(offer_a(client, &beat, lanes) == TL_PARAM);
    beat = put, beat.size = 13;
    CHECK(offer_a(client, &beat, lanes) == TL_SIZE);
    beat = put, beat.address = 1;
    CHECK(offer_a(client, &beat, lanes) == TL_UNALIGNED);
    beat = put, beat.mask ^= 1;
    CHECK(offer_a(client, &beat, lanes) == TL_MASK);
    beat = put, beat.mask_high ^= (uint64_t)1 << 63;
    CHECK(offer_a(client, &beat, lanes) == TL_MASK);
    beat = put, beat.opcode = 4, beat.corrupt = 200;
    CHECK(offer_a(client, &beat, lanes) == TL_CORRUPT);
    CHECK(CALL(pump_client)(client) == 0 && close_a(client) == TL_OK);
    CHECK(offer_a(client, &put, lanes) == TL_NOT_READY);
    CHECK(close_a(client) == TL_OK && !ready_a(client));

    CHECK(open_both(&bridge, TL_MAX_LANES) == TL_OK);
    tl_beat response = {.size = size, .source = 7};
    CHECK(offer_d(manager, &response, lanes) == TL_NO_REQUEST);
    CHECK(offer_a(client, &put, lanes) == TL_OK);
    CHECK(close_a(client) == TL_MID_BURST);
    settle(&bridge);
    beat = put, beat.address = (uint64_t)1 << 20;
    CHECK(offer_a(client, &beat, lanes) == TL_HEAD_CHANGED);
    CHECK(offer_a(client, &put, lanes) == TL_OK);
    CHECK(offer_a(client, &put, lanes) == TL_NOT_READY);
    settle(&bridge);
    CHECK(offer_a(client, &put, lanes) == TL_SOURCE_BUSY);
    CHECK(offer_d(manager, &response, lanes) == TL_NO_REQUEST);
    CHECK(take_a(manager, &beat, lanes));
    response.size--;
    CHECK(offer_d(manager, &response, lanes) == TL_SIZE_MISMATCH);
    response.size++;
    CHECK(offer_d(manager, &response, lanes) == TL_OK);
    settle(&bridge);
    CHECK(offer_a(client, &put, lanes) == TL_SOURCE_BUSY);
    CHECK(take_d(client, &beat, lanes));
    CHECK(offer_a(client, &put, lanes) == TL_OK);
    free_both(&bridge);
}

/* Two requests in flight whose sources differ only above the eighth bit, Intent of one byte and of two: over a bridge on which nothing was
 * sent yet. */
static void ids_of_16_bits(both_sides *bridge) {
    uint8_t lanes[MAX_LANES] = {0};
    tl_beat one = {.opcode = 5, .size = 0, .source = 0x0007, .mask = 1};
    tl_beat other = {.opcode = 5, .size = 1, .source = 0x8007, .mask = CLIENT == 1 ? 1 : 3}, beat;
    tl_beat to_one = {.opcode = 2, .size = 0, .source = 0x0007, .sink = 0xfe00}, to_other = {.opcode = 2, .size = 1, .source = 0x8007, .sink = 0x00fe};
    CHECK(offer[A](near_side(bridge, A), &one, lanes) == TL_OK);
    settle(bridge);
    CHECK(offer[A](near_side(bridge, A), &one, lanes) == TL_SOURCE_BUSY);
    CHECK(offer[A](near_side(bridge, A), &other, lanes) == TL_OK);
    settle(bridge);
    CHECK(offer[A](near_side(bridge, A), &other, lanes) == TL_SOURCE_BUSY);
    /* the request of the other waits in the inbox */
    CHECK(take[A](far_side(bridge, A), &beat, lanes) && beat.source == one.source && beat.size == one.size);
    CHECK(offer[D](near_side(bridge, D), &to_other, lanes) == TL_NO_REQUEST);
    CHECK(take[A](far_side(bridge, A), &beat, lanes) && beat.source == other.source && beat.size == other.size);
    beat = to_one, beat.size = other.size;
    CHECK(offer[D](near_side(bridge, D), &beat, lanes) == TL_SIZE_MISMATCH);
    beat = to_other, beat.size = one.size;
    CHECK(offer[D](near_side(bridge, D), &beat, lanes) == TL_SIZE_MISMATCH);
    CHECK(offer[D](near_side(bridge, D), &to_other, lanes) == TL_OK);
    settle(bridge);
    CHECK(take[D](far_side(bridge, D), &beat, lanes) && same(&beat, &to_other));
    CHECK(offer[A](near_side(bridge, A), &one, lanes) == TL_SOURCE_BUSY);
    CHECK(offer[A](near_side(bridge, A), &other, lanes) == TL_OK);
    CHECK(offer[D](near_side(bridge, D), &to_one, lanes) == TL_OK);
    settle(bridge);
    CHECK(take[D](far_side(bridge, D), &beat, lanes) && same(&beat, &to_one));
    CHECK(take[A](far_side(bridge, A), &beat, lanes) && beat.source == other.source);
    /* the other channels also have ids */
    tl_beat probe = {.opcode = 6, .source = 0xff03, .mask = 1}, release = {.opcode = 6, .source = 0x03ff}, ack = {.sink = 0x0180};
    CHECK(offer[B](near_side(bridge, B), &probe, lanes) == TL_OK && offer[C](near_side(bridge, C), &release, lanes) == TL_OK && offer[E](near_side(bridge, E), &ack, lanes) == TL_OK);
    settle(bridge);
    CHECK(take[B](far_side(bridge, B), &beat, lanes) && same(&beat, &probe));
    CHECK(take[C](far_side(bridge, C), &beat, lanes) && same(&beat, &release));
    CHECK(take[E](far_side(bridge, E), &beat, lanes) && same(&beat, &ack));
}

/* The last lane of each link, and the lanes past it: over a bridge on which nothing was sent yet. */
static void last_lanes(both_sides *bridge) {
    uint8_t lanes[MAX_LANES] = {0}, far_lanes[MAX_LANES];
    tl_beat far;
    for (int x = A; x <= B; x++) {
        int near_last = near_width[x] - 1, far_last = far_width[x] - 1;
        /* PutPartialData of the byte at an address that has the last lane of every width */
        tl_beat put = {.opcode = 1, .source = 0x0011, .address = TL_MAX_LANES - 1}, beat;
        tl_mask_add(&put, (unsigned)near_last);
        for (int lane = near_width[x]; lane < MAX_LANES; lane++) {
            beat = put;
            tl_mask_add(&beat, (unsigned)lane);
            CHECK(offer[x](near_side(bridge, x), &beat, lanes) == TL_MASK);
        }
        lanes[near_last] = 0xa5;
        CHECK(offer[x](near_side(bridge, x), &put, lanes) == TL_OK);
        lanes[near_last] = 0;
        settle(bridge);
        CHECK(take[x](far_side(bridge, x), &far, far_lanes) && has_one_lane(&far, far_last) && far_lanes[far_last] == 0xa5);
        /* the same of a whole beat, with only its last byte in the mask: the last far beat has it */
        uint8_t size = 0;
        while (1 << size < near_width[x]) size++;
        put = (tl_beat){.opcode = 1, .size = size, .source = 0x0012};
        tl_mask_add(&put, (unsigned)near_last);
        CHECK(offer[x](near_side(bridge, x), &put, lanes) == TL_OK);
        settle(bridge);
        for (int first = 0; first < near_width[x]; first += far_width[x]) {
            bool is_last = first + far_width[x] >= near_width[x];
            CHECK(take[x](far_side(bridge, x), &far, far_lanes));
            CHECK(is_last ? has_one_lane(&far, near_last % far_width[x]) : far.mask == 0 && far.mask_high == 0);
        }
        CHECK(!take[x](far_side(bridge, x), &far, far_lanes));
    }
}

/* Runs a test over a new bridge, on which nothing waits at the end. */
static void over_new(void (*test)(both_sides *)) {
    both_sides bridge = {{0}, {0}};
    tl_standings all;
    CHECK(open_both(&bridge, 4) == TL_OK);
    test(&bridge);
    CHECK(CALL(meet)(&bridge.client, &bridge.manager, &all) == TL_OK && tl_drained(&all));
    free_both(&bridge);
}

/* The number of waiting beats of E in each buffer. Each near beat of E makes one far beat. */
static void meetings(void) {
    both_sides bridge = {{0}, {0}};
    client_handle *client = &bridge.client;
    manager_handle *manager = &bridge.manager;
    tl_standings all;
    tl_beat ack = {.sink = 0x0105}, beat;
    uint8_t lanes[MAX_LANES] = {0};
    CHECK(open_both(&bridge, 4) == TL_OK);
    CHECK(CALL(meet)(client, manager, &all) == TL_OK && all.e.staged + all.e.in_ring + all.e.inbox == 0);
    size_t staged = 0, in_ring = 0, inbox = 0, sent = 0, got = 0;
    for (int i = 0; i < 2000; i++) {
        switch (draw(6)) {
        case 0: {
            bool accepted = offer_e(client, &ack, lanes) == TL_OK;
            CHECK(accepted == (staged == 0));
            staged += accepted;
            sent += accepted;
            break;
        }
        case 1: {
            size_t moved = CALL(pump_client)(client);
            CHECK(moved <= staged && in_ring + moved <= 4);
            staged -= moved;
            in_ring += moved;
            break;
        }
        case 2: {
            size_t moved = CALL(fetch_manager)(manager);
            CHECK(moved <= in_ring);
            in_ring -= moved;
            inbox += moved;
            break;
        }
        case 3: {
            bool some = take_e(manager, &beat, lanes);
            CHECK(some == (inbox > 0) && (!some || beat.sink == 0x0105));
            inbox -= some;
            got += some;
            break;
        }
        case 4: {
            /* nothing more can move: the ring is empty, or the inbox is full */
            CHECK(CALL(settle)(client, manager, &all) == TL_OK);
            size_t waiting = staged + in_ring + inbox;
            inbox = waiting < TL_MAX_LANES ? waiting : TL_MAX_LANES;
            in_ring = waiting - inbox < 4 ? waiting - inbox : 4;
            staged = waiting - inbox - in_ring;
            CHECK(all.e.staged == staged && all.e.in_ring == in_ring && all.e.inbox == inbox);
            break;
        }
        default:
            CHECK(CALL(meet)(client, manager, &all) == TL_OK);
            CHECK(all.e.staged == staged && all.e.in_ring == in_ring && all.e.inbox == inbox);
            CHECK(sent == got + staged + in_ring + inbox);
            CHECK(all.a.staged + all.a.in_ring + all.a.inbox + all.b.staged + all.b.in_ring + all.b.inbox == 0);
            /* each side now knows its rings: a pump and a fetch move all that there is room for */
            CHECK(CALL(pump_client)(client) == (staged < 4 - in_ring ? staged : 4 - in_ring));
            size_t moved = staged < 4 - in_ring ? staged : 4 - in_ring;
            staged -= moved;
            in_ring += moved;
        }
    }
    free_both(&bridge);
}

static bool standings(both_sides *bridge, tl_standings *all) {
    return CALL(meet)(&bridge->client, &bridge->manager, all) == TL_OK;
}

/* Random calls with random fields: what each answers agrees with the standings before and after it. */
static void random_calls(int count) {
    both_sides bridges[2] = {{{0}, {0}}, {{0}, {0}}};
    for (int i = 0; i < count; i++) {
        both_sides *bridge = &bridges[draw(2)];
        tl_standings before, after;
        bool held = standings(bridge, &before);
        tl_beat beat = {.address = draw(2) ? 0 : draw((uint64_t)1 << 40) << 8};
        fill_mask(&beat, draw(2) ? CLIENT : MANAGER);
        beat.opcode = (uint8_t)draw(9);
        beat.param = (uint8_t)(draw(4) ? 0 : draw(8));
        beat.size = (uint8_t)(draw(2) ? 3 : draw(14));
        beat.source = (tl_id)(draw(2) + 256 * draw(2));
        beat.sink = draw_id();
        beat.denied = (uint8_t)(draw(4) == 0);
        beat.corrupt = (uint8_t)(draw(8) == 0);
        uint8_t lanes[MAX_LANES];
        for (int k = 0; k < MAX_LANES; k++) lanes[k] = (uint8_t)draw(256);
        int x = (int)draw(CHANNELS), what = (int)draw(64);
        size_t moved = 0;
        if (what == 0) {
            free_both(bridge);
            CHECK(!standings(bridge, &after));
            continue;
        } else if (what == 1) {
            size_t ring = (size_t)draw(9);
            CHECK(open_both(bridge, ring) == (ring == 0 ? TL_RING_SIZE : TL_OK));
            CHECK(standings(bridge, &after) == (ring > 0) && (ring == 0 || tl_drained(&after)));
            continue;
        } else if (what == 2 && draw(8) == 0) {
            uint8_t answer = close_it[x](near_side(bridge, x));
            CHECK(held ? answer == TL_OK || answer == TL_MID_BURST : answer == TL_NOT_OPEN);
        } else if (what < 24) {
            bool was_ready = ready[x](near_side(bridge, x));
            uint8_t answer = offer[x](near_side(bridge, x), &beat, lanes);
            CHECK(held ? was_ready ? answer <= 10 : answer == TL_NOT_READY : answer == TL_NOT_OPEN);
            CHECK(x != E || answer == TL_OK || answer >= TL_NOT_OPEN);
            if (answer == TL_OK && standings(bridge, &after)) {
                for (int y = A; y < CHANNELS; y++) {
                    CHECK(y == x || counts_of(&before, y).staged == counts_of(&after, y).staged);
                    CHECK(counts_of(&before, y).in_ring == counts_of(&after, y).in_ring && counts_of(&before, y).inbox == counts_of(&after, y).inbox);
                }
                continue;
            }
        } else if (what < 44) {
            bool some = held && counts_of(&before, x).inbox > 0;
            CHECK(take[x](far_side(bridge, x), &beat, lanes) == some);
            if (some && standings(bridge, &after)) {
                CHECK(counts_of(&after, x).inbox == counts_of(&before, x).inbox - 1);
                continue;
            }
        } else {
            bool pumps = what % 2;
            moved = pumps ? CALL(pump_client)(&bridge->client) + CALL(pump_manager)(&bridge->manager)
                          : CALL(fetch_client)(&bridge->client) + CALL(fetch_manager)(&bridge->manager);
            CHECK(moved <= (size_t)5 * TL_MAX_LANES);
            if (standings(bridge, &after)) {
                for (int y = A; y < CHANNELS; y++) {
                    tl_counts b = counts_of(&before, y), a = counts_of(&after, y);
                    size_t k = pumps ? b.staged - a.staged : b.in_ring - a.in_ring;
                    CHECK(pumps ? a.in_ring == b.in_ring + k && a.inbox == b.inbox : a.inbox == b.inbox + k && a.staged == b.staged);
                    moved -= k;
                }
                CHECK(moved == 0);
                continue;
            }
        }
        /* nothing changed */
        CHECK(standings(bridge, &after) == held);
        CHECK(!held || memcmp(&before, &after, sizeof before) == 0);
    }
    free_both(&bridges[0]);
    free_both(&bridges[1]);
}

int main(void) {
    texts();
    handles();
    other_bridges();
    receipts();
    wrong_receipts();
    without_memory();
    refusals();
    over_new(ids_of_16_bits);
    over_new(last_lanes);
    meetings();
    messages();
    whole_inboxes();
    random_calls(10000);
    printf("%d to %d bytes: %ld checks passed, %ld failed\n", CLIENT, MANAGER, passed, failed);
    return failed > 0;
}
