/* The layouts and limits of include/tlbridge.h and the calls of both headers, for C and C++. It links with the library. */
#include "tlbridge_scoreboard.h"
#include <stddef.h>
#include <string.h>
#ifndef __cplusplus
#define static_assert _Static_assert
#endif

#define AT(type, field, offset) static_assert(offsetof(type, field) == (offset), #type "." #field)
AT(tl_beat, address, 0);
AT(tl_beat, mask, 8);
AT(tl_beat, source, 16);
AT(tl_beat, sink, 18);
AT(tl_beat, opcode, 20);
AT(tl_beat, param, 21);
AT(tl_beat, size, 22);
AT(tl_beat, denied, 23);
AT(tl_beat, corrupt, 24);
AT(tl_beat, reserved, 25);
AT(tl_beat, mask_high, 32);
AT(tl_counts, staged, 0);
AT(tl_counts, in_ring, 8);
AT(tl_counts, inbox, 16);
AT(tl_standings, a, 0);
AT(tl_standings, b, 24);
AT(tl_standings, c, 48);
AT(tl_standings, d, 72);
AT(tl_standings, e, 96);
AT(tl_text, name, 0);
AT(tl_text, sentence, 16);
AT(tl_answer, text, 0);
AT(tl_answer, length, 8);
AT(tl_answer, line, 16);
AT(tl_answer, impl, 24);
AT(tl_answer, is_open, 32);
AT(tl_answer, all_done, 33);
static_assert(sizeof(tl_beat) == 40 && sizeof(tl_standings) == 120 && sizeof(tl_text) == 160 && sizeof(tl_answer) == 40, "sizes");
static_assert(TL_MAX_RING == 4096 && TL_MAX_LANES == 128, "limits");
static_assert(TL_CLIENT_LINK == 0 && TL_MANAGER_LINK == 1 && TL_COMPARE_UNMASKED == 1 && TL_ALLOW_NO_BEATS == 2, "the scoreboard's numbers");

TLBRIDGE(8, 4)

AT(tl_8_4_client, impl, 0);
AT(tl_8_4_client, is_open, 8);
AT(tl_8_4_client, bridge, 16);
AT(tl_8_4_client, opening, 24);
AT(tl_8_4_manager, impl, 0);
AT(tl_8_4_manager, is_open, 8);
AT(tl_8_4_manager, bridge, 16);
AT(tl_8_4_manager, opening, 24);
AT(tl_totals, bridge, 0);
AT(tl_totals, opening, 8);
AT(tl_totals, finished, 16);
AT(tl_totals, a, 24);
AT(tl_totals, e, 56);
static_assert(TL_NO_RECEIPT == 0 && TL_CLIENT_FINISHED == 1 && TL_MANAGER_FINISHED == 2, "receipts");
static_assert(sizeof(tl_8_4_client) == 32 && sizeof(tl_8_4_manager) == 32 && sizeof(tl_totals) == 64 && sizeof(tl_id) == 2, "sizes");
static_assert(sizeof(((tl_beat *)0)->reserved) == 7 && sizeof(((tl_text *)0)->name) == 16 && sizeof(((tl_text *)0)->sentence) == 144, "sizes");

/* Each call again: a prototype that differs does not compile. */
#ifdef __cplusplus
extern "C" {
#endif
uint8_t tl_8_4_open(tl_8_4_client *, tl_8_4_manager *, size_t, uint64_t);
uint8_t tl_8_4_meet(tl_8_4_client *, tl_8_4_manager *, tl_standings *);
uint8_t tl_8_4_settle(tl_8_4_client *, tl_8_4_manager *, tl_standings *);
void tl_8_4_status_text(uint8_t, tl_text *);
uint32_t tl_8_4_version(void);
#define SIDE_AGAIN(side) \
    void tl_8_4_free_##side(tl_8_4_##side *); \
    size_t tl_8_4_pump_##side(tl_8_4_##side *); \
    size_t tl_8_4_fetch_##side(tl_8_4_##side *); \
    uint8_t tl_8_4_count_##side(tl_8_4_##side *, tl_totals *); \
    uint8_t tl_8_4_finish_##side(tl_8_4_##side *, tl_totals *); \
    uint8_t tl_8_4_drained_##side(tl_8_4_##side *, const tl_totals *);
#define CHANNEL_AGAIN(x, near, near_lanes, far, far_lanes) \
    bool tl_8_4_ready_##x(tl_8_4_##near *); \
    uint8_t tl_8_4_offer_##x(tl_8_4_##near *, const tl_beat *, const uint8_t[near_lanes]); \
    bool tl_8_4_take_##x(tl_8_4_##far *, tl_beat *, uint8_t[far_lanes]); \
    uint8_t tl_8_4_close_##x(tl_8_4_##near *);
SIDE_AGAIN(client)
SIDE_AGAIN(manager)
CHANNEL_AGAIN(a, client, 8, manager, 4)
CHANNEL_AGAIN(b, manager, 4, client, 8)
CHANNEL_AGAIN(c, client, 8, manager, 4)
CHANNEL_AGAIN(d, manager, 4, client, 8)
CHANNEL_AGAIN(e, client, 8, manager, 4)
uint8_t tl_answer_trace(const uint8_t *, size_t, uint8_t, tl_answer *);
void tl_answer_free(tl_answer *);
void tl_status_text(uint8_t, tl_text *);
tl_scoreboard *tl_scoreboard_open(unsigned, unsigned, unsigned);
const char *tl_scoreboard_pairs(void);
void tl_scoreboard_free(tl_scoreboard *);
void tl_scoreboard_reset(tl_scoreboard *, int, bool, uint64_t);
void tl_scoreboard_beat(tl_scoreboard *, int, char, uint64_t, const tl_beat *, const uint8_t *);
const char *tl_scoreboard_next_message(tl_scoreboard *, uint64_t *);
uint64_t tl_scoreboard_finish(tl_scoreboard *);
uint64_t tl_scoreboard_beats(const tl_scoreboard *);
uint64_t tl_scoreboard_differences(const tl_scoreboard *);
#ifdef __cplusplus
}
#endif

/* Whether a far beat that waits at any one place of any channel makes tl_drained false. */
static bool sees_each_place(void) {
    tl_standings none, some;
    memset(&none, 0, sizeof none);
    for (size_t i = 0; i < sizeof none / sizeof(size_t); i++) {
        size_t one = 1;
        some = none;
        memcpy((char *)&some + i * sizeof one, &one, sizeof one);
        if (tl_drained(&some)) return false;
    }
    return tl_drained(&none);
}

/* Whether a mask has the lanes that were added, and no others. */
static bool has_each_lane(void) {
    for (unsigned lane = 0; lane < TL_MAX_LANES; lane++) {
        tl_beat beat;
        memset(&beat, 0, sizeof beat);
        tl_mask_add(&beat, lane);
        for (unsigned other = 0; other < TL_MAX_LANES; other++)
            if (tl_mask_has(&beat, other) != (other == lane)) return false;
        if (beat.mask != (lane < 64 ? (uint64_t)1 << lane : 0) || beat.mask_high != (lane < 64 ? 0 : (uint64_t)1 << (lane - 64))) return false;
    }
    return true;
}

int main(void) {
    tl_scoreboard *board = tl_scoreboard_open(8, 4, TL_ALLOW_NO_BEATS);
    bool is_right = board != NULL && tl_scoreboard_finish(board) == 0 && tl_8_4_version() == TL_VERSION && strstr(tl_scoreboard_pairs(), "8:4") != NULL;
    tl_scoreboard_free(board);
    return is_right && sees_each_place() && has_each_lane() ? 0 : 1;
}
