/* The two sides of a bridge, each in a thread: a side that is freed early, and random messages on all five channels, both ways at once, of which
 * each far beat is compared with the layout of docs/SPECIFICATION.md.
 *
 *     sides [MESSAGES]      on each channel [default: 20,000]
 *
 * Compiled with -DCLIENT=8 -DMANAGER=4 -pthread, as tests/library/test_library.py does. The last line counts the checks. */
#include "sides.h"
#include <pthread.h>
#include <sched.h>
#include <stdlib.h>

/* The far beats of E, of which each near beat makes one: how many arrive. */
static int arrived_on_e(manager_handle *manager) {
    tl_beat beat;
    uint8_t lanes[MAX_LANES];
    int got = 0;
    do {
        while (take_e(manager, &beat, lanes)) got++;
    } while (CALL(fetch_manager)(manager) > 0);
    return got;
}

/* One side goes, and the other goes on by itself. */
static void a_side_goes(void) {
    both_sides bridge = {{0}, {0}};
    client_handle *client = &bridge.client;
    manager_handle *manager = &bridge.manager;
    tl_beat ack = {.sink = 5};
    uint8_t lanes[MAX_LANES] = {0};
    enum { RING = 8 };
    CHECK(open_both(&bridge, RING) == TL_OK);
    CALL(free_manager)(manager);
    int sent = 0;
    for (int i = 0; i < 10 * RING; i++) {
        sent += offer_e(client, &ack, lanes) == TL_OK;
        CALL(pump_client)(client);
        CHECK(CALL(fetch_client)(client) == 0);
    }
    CHECK(sent == RING + 1); /* the ring, and one that stays staged */
    CHECK(offer_e(client, &ack, lanes) == TL_NOT_READY && close_e(client) == TL_OK);
    CHECK(!take_b(client, &ack, lanes) && !take_d(client, &ack, lanes));
    CALL(free_client)(client);

    CHECK(open_both(&bridge, RING) == TL_OK);
    for (int i = 0; i < 5; i++) CHECK(offer_e(client, &ack, lanes) == TL_OK && CALL(pump_client)(client) == 1);
    CHECK(offer_e(client, &ack, lanes) == TL_OK);
    CALL(free_client)(client);
    CHECK(arrived_on_e(manager) == 5); /* what was staged went with its side */
    CHECK(arrived_on_e(manager) == 0 && ready_b(manager));
    CALL(free_manager)(manager);
}

/* The same in threads: the client's thread sends, and frees its side while the manager's thread still takes. */
enum { LAST_BEATS = 500 };

static void *send_and_go(void *argument) {
    client_handle *client = argument;
    tl_beat ack = {.sink = 5};
    uint8_t lanes[MAX_LANES] = {0};
    for (int sent = 0; sent < LAST_BEATS;) {
        if (offer_e(client, &ack, lanes) == TL_OK)
            sent++;
        else
            sched_yield();
        CALL(pump_client)(client);
    }
    while (!ready_e(client)) CALL(pump_client)(client);
    CALL(free_client)(client);
    return NULL;
}

static void a_side_goes_in_its_thread(void) {
    both_sides bridge = {{0}, {0}};
    client_handle *client = &bridge.client;
    manager_handle *manager = &bridge.manager;
    pthread_t thread;
    CHECK(open_both(&bridge, 3) == TL_OK);
    CHECK(pthread_create(&thread, NULL, send_and_go, client) == 0);
    int got = 0;
    while (got < LAST_BEATS) {
        int more = arrived_on_e(manager);
        if (more == 0) sched_yield();
        got += more;
    }
    CALL(free_manager)(manager);
    CHECK(pthread_join(thread, NULL) == 0 && got == LAST_BEATS);
    without_sides(&bridge);
}

/* Beats in order. */
typedef struct {
    tl_beat beat;
    uint8_t lanes[CLIENT > MANAGER ? CLIENT : MANAGER];
} full_beat;

typedef struct {
    full_beat *beats;
    size_t count, room;
} beat_list;

static void add(beat_list *list, const tl_beat *beat, const uint8_t *lanes, int width) {
    if (list->count == list->room) {
        list->room = 2 * list->room + 1024;
        list->beats = realloc(list->beats, list->room * sizeof *list->beats);
        if (list->beats == NULL) abort();
    }
    full_beat *last = &list->beats[list->count++];
    memset(last, 0, sizeof *last);
    last->beat = *beat;
    memcpy(last->lanes, lanes, (size_t)width);
}

/* The beats that are offered on each channel, and those that are due there by the layout of docs/SPECIFICATION.md. */
static beat_list near[CHANNELS], due[CHANNELS];

/* Lawful messages. The responses are in the order of their requests. As many requests are outstanding as there are sources. */
static void draw_lists(int messages) {
    enum { SOURCES = 16 };
    message m;
    for (int i = 0; i < messages; i++) {
        uint8_t size = (uint8_t)(draw(64) ? draw(6) : draw(10));
        /* four of them differ only in their two highest bits */
        tl_id source = (tl_id)(i % 4 + 0x4000 * (i % SOURCES / 4));
        uint64_t address = draw((uint64_t)1 << 40) << size;
        for (int x = A; x < CHANNELS; x++) {
            draw_message(&m, x, x == A || x == D ? source : draw_id(), size, address);
            if (x == D && m.head.opcode == 6) m.head.opcode = 0;
            tl_beat beat;
            uint8_t lanes[MAX_LANES];
            for (int at = 0; at < beat_count(&m, near_width[x]); at++) {
                lay_out(&m, x, near_width[x], at, &beat, lanes);
                for (int k = 0; k < near_width[x]; k++)
                    if (!m.data && x != E) lanes[k] = (uint8_t)draw(256);
                add(&near[x], &beat, lanes, near_width[x]);
            }
            for (int at = 0; at < beat_count(&m, far_width[x]); at++) {
                lay_out(&m, x, far_width[x], at, &beat, lanes);
                add(&due[x], &beat, lanes, far_width[x]);
            }
        }
    }
}

/* A side in its thread, and what happened to it. */
typedef struct {
    void *handle;
    bool is_client;
    size_t sent[CHANNELS], got[CHANNELS];
    long wrong, waits;
} player;

/* Takes what is there, and compares it. */
static bool take_inboxes(player *p) {
    tl_beat beat;
    uint8_t lanes[MAX_LANES];
    bool some = false;
    for (int x = A; x < CHANNELS; x++) {
        if (from_client(x) == p->is_client) continue;
        while (take[x](p->handle, &beat, lanes)) {
            some = true;
            if (p->got[x] >= due[x].count) {
                p->wrong++;
                continue;
            }
            const full_beat *next = &due[x].beats[p->got[x]++];
            if (!same(&beat, &next->beat) || memcmp(lanes, next->lanes, (size_t)far_width[x]) != 0) p->wrong++;
        }
    }
    return some;
}

/* Offers the next beat of each channel on which it is accepted now. */
static bool offer_all(player *p) {
    bool some = false;
    for (int x = A; x < CHANNELS; x++) {
        if (from_client(x) != p->is_client || p->sent[x] == near[x].count) continue;
        const full_beat *next = &near[x].beats[p->sent[x]];
        uint8_t answer = offer[x](p->handle, &next->beat, next->lanes);
        if (answer == TL_OK) {
            p->sent[x]++;
            some = true;
        } else if (answer == TL_NOT_READY || (x == A && answer == TL_SOURCE_BUSY) || (x == D && answer == TL_NO_REQUEST)) {
            p->waits++;
        } else {
            p->wrong++;
            p->sent[x] = near[x].count;
        }
    }
    return some;
}

/* All was offered and has left the stages, and all that is due was taken. */
static bool is_done(const player *p) {
    for (int x = A; x < CHANNELS; x++) {
        if (from_client(x) == p->is_client ? p->sent[x] < near[x].count || !ready[x](p->handle) : p->got[x] < due[x].count && p->wrong == 0)
            return false;
    }
    return true;
}

static void *play(void *argument) {
    player *p = argument;
    while (!is_done(p)) {
        bool some = offer_all(p);
        if (p->is_client)
            some |= CALL(pump_client)(p->handle) + CALL(fetch_client)(p->handle) > 0;
        else
            some |= CALL(pump_manager)(p->handle) + CALL(fetch_manager)(p->handle) > 0;
        some |= take_inboxes(p);
        if (!some) sched_yield();
    }
    return NULL;
}

static void in_two_threads(size_t ring) {
    both_sides bridge = {{0}, {0}};
    player one = {.handle = &bridge.client, .is_client = true}, other = {.handle = &bridge.manager};
    pthread_t threads[2];
    CHECK(open_both(&bridge, ring) == TL_OK);
    CHECK(pthread_create(&threads[0], NULL, play, &one) == 0 && pthread_create(&threads[1], NULL, play, &other) == 0);
    CHECK(pthread_join(threads[0], NULL) == 0 && pthread_join(threads[1], NULL) == 0);
    size_t arrived = 0;
    for (int x = A; x < CHANNELS; x++) {
        const player *near_one = from_client(x) ? &one : &other, *far_one = from_client(x) ? &other : &one;
        CHECK(near_one->sent[x] == near[x].count && far_one->got[x] == due[x].count);
        CHECK(close_it[x](near_one->handle) == TL_OK);
        arrived += far_one->got[x];
    }
    CHECK(one.wrong == 0 && other.wrong == 0);
    tl_standings all, none;
    memset(&none, 0, sizeof none);
    CHECK(CALL(meet)(&bridge.client, &bridge.manager, &all) == TL_OK && memcmp(&all, &none, sizeof all) == 0);
    /* nothing more comes */
    CHECK(CALL(pump_client)(&bridge.client) + CALL(fetch_client)(&bridge.client) == 0);
    CHECK(CALL(pump_manager)(&bridge.manager) + CALL(fetch_manager)(&bridge.manager) == 0);
    CHECK(!take_inboxes(&one) && !take_inboxes(&other));
    printf("rings of %zu: %zu far beats arrived, an offer waited %ld times\n", ring, arrived, one.waits + other.waits);
    free_both(&bridge);
}

int main(int count, char **words) {
    int messages = count > 1 ? (int)strtol(words[1], NULL, 10) : 20000;
    a_side_goes();
    a_side_goes_in_its_thread();
    draw_lists(messages);
    static const size_t rings[] = {1, 16, TL_MAX_RING};
    for (int i = 0; i < 3; i++) in_two_threads(rings[i]);
    for (int x = A; x < CHANNELS; x++) {
        free(near[x].beats);
        free(due[x].beats);
    }
    printf("%d to %d bytes, %d messages in two threads: %ld checks passed, %ld failed\n", CLIENT, MANAGER, CHANNELS * messages, passed, failed);
    return failed > 0;
}
