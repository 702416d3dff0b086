/* The calls of both sides of a bridge for the tests, by the number of a channel, for one pair of widths, -DCLIENT=8 -DMANAGER=4. */
#include "messages.h"

TLBRIDGE(CLIENT, MANAGER)
#define CALL(name) TL_CALL(CLIENT, MANAGER, name)
typedef CALL(client) client_handle;
typedef CALL(manager) manager_handle;
typedef CALL(client_beat) client_beat;
typedef CALL(manager_beat) manager_beat;

/* A beat of an inbox of either side, with its lanes. */
typedef struct {
    tl_beat beat;
    uint8_t lanes[MAX_LANES];
} taken_beat;

static bool is_unwritten(const void *memory, size_t bytes) {
    const uint8_t *at = memory;
    for (size_t i = 0; i < bytes; i++)
        if (at[i] != 0x5a) return false;
    return true;
}

/* The calls of a channel, over whichever handle it takes. take_all has room for one beat more than an inbox, and checks that it writes nothing
 * past the beats that it returns. */
#define CALLS_OF(x, near, far) \
    static bool ready_##x(void *side) { return CALL(ready_##x)((near##_handle *)side); } \
    static uint8_t offer_##x(void *side, const tl_beat *beat, const uint8_t *lanes) { return CALL(offer_##x)((near##_handle *)side, beat, lanes); } \
    static bool take_##x(void *side, tl_beat *beat, uint8_t *lanes) { return CALL(take_##x)((far##_handle *)side, beat, lanes); } \
    static size_t take_all_##x(void *side, taken_beat *taken, size_t room) { \
        far##_beat beats[TL_INBOX + 1]; \
        memset(beats, 0x5a, sizeof beats); \
        size_t count = CALL(take_all_##x)((far##_handle *)side, beats, room); \
        CHECK(count <= room && count <= TL_INBOX && is_unwritten(beats + count, sizeof beats - count * sizeof *beats)); \
        for (size_t i = 0; i < count && i < room; i++) { \
            taken[i].beat = beats[i].beat; \
            memcpy(taken[i].lanes, beats[i].lanes, sizeof beats[i].lanes); \
        } \
        return count; \
    } \
    static uint8_t close_##x(void *side) { return CALL(close_##x)((near##_handle *)side); }
CALLS_OF(a, client, manager)
CALLS_OF(b, manager, client)
CALLS_OF(c, client, manager)
CALLS_OF(d, manager, client)
CALLS_OF(e, client, manager)

static bool (*const ready[])(void *) = {ready_a, ready_b, ready_c, ready_d, ready_e};
static uint8_t (*const offer[])(void *, const tl_beat *, const uint8_t *) = {offer_a, offer_b, offer_c, offer_d, offer_e};
static bool (*const take[])(void *, tl_beat *, uint8_t *) = {take_a, take_b, take_c, take_d, take_e};
static size_t (*const take_all[])(void *, taken_beat *, size_t) = {take_all_a, take_all_b, take_all_c, take_all_d, take_all_e};
static uint8_t (*const close_it[])(void *) = {close_a, close_b, close_c, close_d, close_e};

static bool from_client(int x) {
    return x == A || x == C || x == E;
}

/* Both sides of a bridge, and the one that offers on a channel and the one that takes. */
typedef struct {
    client_handle client;
    manager_handle manager;
} both_sides;

static void *near_side(both_sides *both, int x) {
    return from_client(x) ? (void *)&both->client : (void *)&both->manager;
}

static void *far_side(both_sides *both, int x) {
    return from_client(x) ? (void *)&both->manager : (void *)&both->client;
}

static uint8_t open_both(both_sides *both, size_t ring) {
    return CALL(open)(&both->client, &both->manager, ring, 7);
}

static void free_both(both_sides *both) {
    CALL(free_client)(&both->client);
    CALL(free_manager)(&both->manager);
}

/* Each call on handles that hold no side. */
static void without_sides(both_sides *none) {
    client_handle *client = &none->client;
    manager_handle *manager = &none->manager;
    tl_beat beat, before;
    uint8_t lanes[MAX_LANES], lanes_before[MAX_LANES];
    memset(&beat, 0x5a, sizeof beat);
    memset(lanes, 0x5a, sizeof lanes);
    before = beat;
    memcpy(lanes_before, lanes, sizeof lanes);
    for (int x = A; x < CHANNELS; x++) {
        CHECK(!ready[x](near_side(none, x)));
        CHECK(offer[x](near_side(none, x), &beat, lanes) == TL_NOT_OPEN);
        CHECK(!take[x](far_side(none, x), &beat, lanes));
        CHECK(take_all[x](far_side(none, x), NULL, TL_INBOX) == 0);
        CHECK(close_it[x](near_side(none, x)) == TL_NOT_OPEN);
    }
    CHECK(CALL(pump_client)(client) == 0 && CALL(fetch_client)(client) == 0);
    CHECK(CALL(pump_manager)(manager) == 0 && CALL(fetch_manager)(manager) == 0);
    CHECK(memcmp(&beat, &before, sizeof beat) == 0);
    CHECK(memcmp(lanes, lanes_before, sizeof lanes) == 0);
    tl_standings all, all_before;
    memset(&all, 0x5a, sizeof all);
    all_before = all;
    CHECK(CALL(meet)(client, manager, &all) == TL_NOT_OPEN && CALL(settle)(client, manager, &all) == TL_NOT_OPEN);
    CHECK(memcmp(&all, &all_before, sizeof all) == 0);
    tl_totals totals, totals_before;
    memset(&totals, 0x5a, sizeof totals);
    totals_before = totals;
    CHECK(CALL(count_client)(client, &totals) == TL_NOT_OPEN && CALL(count_manager)(manager, &totals) == TL_NOT_OPEN);
    CHECK(CALL(finish_client)(client, &totals) == TL_NOT_OPEN && CALL(finish_manager)(manager, &totals) == TL_NOT_OPEN);
    CHECK(CALL(drained_client)(client, &totals) == TL_NOT_OPEN && CALL(drained_manager)(manager, &totals) == TL_NOT_OPEN);
    CHECK(memcmp(&totals, &totals_before, sizeof totals) == 0);
    CHECK(client->impl == NULL && !client->is_open && client->bridge == 0);
    CHECK(manager->impl == NULL && !manager->is_open && manager->bridge == 0);
}
