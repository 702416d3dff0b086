/* The calls of include/tlbridge.h as a table with a row for each pair of widths that the program links. tlbridge_scoreboard.c and
 * tlbridge_dpi.c use it; compile them with a macro for each pair, for example -DTLBRIDGE_8_4. */
#ifndef TLBRIDGE_CALLS_H
#define TLBRIDGE_CALLS_H

#include "tlbridge.h"

/* Expands to `expand(cw, mw)` if the macro of the pair is defined as 1, otherwise to nothing. */
#define TLBRIDGE_IF_LINKED(expand, cw, mw) TLBRIDGE_SELECT(TLBRIDGE_##cw##_##mw, expand)(cw, mw)
#define TLBRIDGE_SELECT(macro, expand) TLBRIDGE_SELECT_BY(macro, expand)
#define TLBRIDGE_SELECT_BY(value, expand) TLBRIDGE_SECOND(TLBRIDGE_PROBE_##value expand, TLBRIDGE_NOTHING, )
#define TLBRIDGE_PROBE_1 unused,
#define TLBRIDGE_SECOND(...) TLBRIDGE_SECOND_OF(__VA_ARGS__)
#define TLBRIDGE_SECOND_OF(first, second, ...) second
#define TLBRIDGE_NOTHING(cw, mw)

#define TLBRIDGE_OF_CLIENT(expand, cw) \
    TLBRIDGE_IF_LINKED(expand, cw, 1) TLBRIDGE_IF_LINKED(expand, cw, 2) TLBRIDGE_IF_LINKED(expand, cw, 4) TLBRIDGE_IF_LINKED(expand, cw, 8) \
    TLBRIDGE_IF_LINKED(expand, cw, 16) TLBRIDGE_IF_LINKED(expand, cw, 32) TLBRIDGE_IF_LINKED(expand, cw, 64) TLBRIDGE_IF_LINKED(expand, cw, 128)
#define TLBRIDGE_OF_EACH_PAIR(expand) \
    TLBRIDGE_OF_CLIENT(expand, 1) TLBRIDGE_OF_CLIENT(expand, 2) TLBRIDGE_OF_CLIENT(expand, 4) TLBRIDGE_OF_CLIENT(expand, 8) \
    TLBRIDGE_OF_CLIENT(expand, 16) TLBRIDGE_OF_CLIENT(expand, 32) TLBRIDGE_OF_CLIENT(expand, 64) TLBRIDGE_OF_CLIENT(expand, 128)

/* A handle of one side. The handles of all pairs have this layout. */
typedef struct {
    void *impl;
    bool is_open;
    uint64_t bridge;
    uint64_t opening;
} tlbridge_side;

#ifndef TLBRIDGE_CHANNELS
#define TLBRIDGE_CHANNELS
enum { TL_A, TL_B, TL_C, TL_D, TL_E, TL_CHANNELS };
#endif

/* The calls of a pair on one channel, then all calls of a pair. */
typedef struct {
    bool (*ready)(tlbridge_side *);
    uint8_t (*offer)(tlbridge_side *, const tl_beat *, const uint8_t *);
    bool (*take)(tlbridge_side *, tl_beat *, uint8_t *);
    uint8_t (*close)(tlbridge_side *);
} tlbridge_channel_calls;

typedef struct {
    unsigned client, manager;
    tlbridge_channel_calls of[TL_CHANNELS];
    uint8_t (*open)(tlbridge_side *, tlbridge_side *, size_t);
    void (*free)(tlbridge_side *, tlbridge_side *);
    size_t (*pump_client)(tlbridge_side *);
    size_t (*pump_manager)(tlbridge_side *);
    size_t (*fetch_client)(tlbridge_side *);
    size_t (*fetch_manager)(tlbridge_side *);
    uint8_t (*meet)(tlbridge_side *, tlbridge_side *, tl_standings *);
    uint8_t (*settle)(tlbridge_side *, tlbridge_side *, tl_standings *);
    void (*text)(uint8_t, tl_text *);
} tlbridge_pair_calls;

/* Both sides of a bridge and the calls of its pair. All zero means never opened. */
typedef struct tlbridge_sides {
    const tlbridge_pair_calls *calls;
    tlbridge_side client, manager;
} tlbridge_sides;

/* Declares the calls of a pair, and defines the same calls over the common handle type. */
#define TLBRIDGE_NAME(cw, mw, call) TLBRIDGE_NAME_OF(cw, mw, call)
#define TLBRIDGE_NAME_OF(cw, mw, call) tlbridge_##call##_##cw##_##mw
#define TLBRIDGE_AS(cw, mw, which, handle) ((TL_CALL(cw, mw, which) *)(handle))
#define TLBRIDGE_CHANNEL_CALLS(cw, mw, x, near, far) \
    static bool TLBRIDGE_NAME(cw, mw, ready_##x)(tlbridge_side *s) { return TL_CALL(cw, mw, ready_##x)(TLBRIDGE_AS(cw, mw, near, s)); } \
    static uint8_t TLBRIDGE_NAME(cw, mw, offer_##x)(tlbridge_side *s, const tl_beat *beat, const uint8_t *lanes) { \
        return TL_CALL(cw, mw, offer_##x)(TLBRIDGE_AS(cw, mw, near, s), beat, lanes); \
    } \
    static bool TLBRIDGE_NAME(cw, mw, take_##x)(tlbridge_side *s, tl_beat *beat, uint8_t *lanes) { \
        return TL_CALL(cw, mw, take_##x)(TLBRIDGE_AS(cw, mw, far, s), beat, lanes); \
    } \
    static uint8_t TLBRIDGE_NAME(cw, mw, close_##x)(tlbridge_side *s) { return TL_CALL(cw, mw, close_##x)(TLBRIDGE_AS(cw, mw, near, s)); }
#define TLBRIDGE_SIDE_CALLS(cw, mw, which) \
    static size_t TLBRIDGE_NAME(cw, mw, pump_##which)(tlbridge_side *s) { return TL_CALL(cw, mw, pump_##which)(TLBRIDGE_AS(cw, mw, which, s)); } \
    static size_t TLBRIDGE_NAME(cw, mw, fetch_##which)(tlbridge_side *s) { return TL_CALL(cw, mw, fetch_##which)(TLBRIDGE_AS(cw, mw, which, s)); }
#define TLBRIDGE_MEETING(cw, mw, call) \
    static uint8_t TLBRIDGE_NAME(cw, mw, call)(tlbridge_side *s, tlbridge_side *t, tl_standings *all) { \
        return TL_CALL(cw, mw, call)(TLBRIDGE_AS(cw, mw, client, s), TLBRIDGE_AS(cw, mw, manager, t), all); \
    }
#define TLBRIDGE_CALLS_OF(cw, mw) \
    TLBRIDGE(cw, mw) \
    TLBRIDGE_CHANNEL_CALLS(cw, mw, a, client, manager) \
    TLBRIDGE_CHANNEL_CALLS(cw, mw, b, manager, client) \
    TLBRIDGE_CHANNEL_CALLS(cw, mw, c, client, manager) \
    TLBRIDGE_CHANNEL_CALLS(cw, mw, d, manager, client) \
    TLBRIDGE_CHANNEL_CALLS(cw, mw, e, client, manager) \
    TLBRIDGE_SIDE_CALLS(cw, mw, client) \
    TLBRIDGE_SIDE_CALLS(cw, mw, manager) \
    TLBRIDGE_MEETING(cw, mw, meet) \
    TLBRIDGE_MEETING(cw, mw, settle) \
    static uint8_t TLBRIDGE_NAME(cw, mw, open)(tlbridge_side *s, tlbridge_side *t, size_t ring) { \
        return TL_CALL(cw, mw, open)(TLBRIDGE_AS(cw, mw, client, s), TLBRIDGE_AS(cw, mw, manager, t), ring, 0); \
    } \
    static void TLBRIDGE_NAME(cw, mw, free)(tlbridge_side *s, tlbridge_side *t) { \
        TL_CALL(cw, mw, free_client)(TLBRIDGE_AS(cw, mw, client, s)); \
        TL_CALL(cw, mw, free_manager)(TLBRIDGE_AS(cw, mw, manager, t)); \
    }
TLBRIDGE_OF_EACH_PAIR(TLBRIDGE_CALLS_OF)

#define TLBRIDGE_CHANNEL_ENTRY(cw, mw, x) \
    {TLBRIDGE_NAME(cw, mw, ready_##x), TLBRIDGE_NAME(cw, mw, offer_##x), TLBRIDGE_NAME(cw, mw, take_##x), TLBRIDGE_NAME(cw, mw, close_##x)}
#define TLBRIDGE_ENTRY(cw, mw) \
    {cw, \
     mw, \
     {TLBRIDGE_CHANNEL_ENTRY(cw, mw, a), TLBRIDGE_CHANNEL_ENTRY(cw, mw, b), TLBRIDGE_CHANNEL_ENTRY(cw, mw, c), TLBRIDGE_CHANNEL_ENTRY(cw, mw, d), TLBRIDGE_CHANNEL_ENTRY(cw, mw, e)}, \
     TLBRIDGE_NAME(cw, mw, open), \
     TLBRIDGE_NAME(cw, mw, free), \
     TLBRIDGE_NAME(cw, mw, pump_client), \
     TLBRIDGE_NAME(cw, mw, pump_manager), \
     TLBRIDGE_NAME(cw, mw, fetch_client), \
     TLBRIDGE_NAME(cw, mw, fetch_manager), \
     TLBRIDGE_NAME(cw, mw, meet), \
     TLBRIDGE_NAME(cw, mw, settle), \
     TL_CALL(cw, mw, status_text)},
static const tlbridge_pair_calls tlbridge_pairs[] = {TLBRIDGE_OF_EACH_PAIR(TLBRIDGE_ENTRY)};
typedef char compile_with_a_macro_for_each_pair_as_TLBRIDGE_8_4[sizeof tlbridge_pairs > 0 ? 1 : -1];

/* Returns the calls of a pair, or NULL if the program does not link it. */
static inline const tlbridge_pair_calls *tlbridge_pair_of(unsigned client, unsigned manager) {
    for (size_t i = 0; i < sizeof tlbridge_pairs / sizeof *tlbridge_pairs; i++)
        if (tlbridge_pairs[i].client == client && tlbridge_pairs[i].manager == manager) return &tlbridge_pairs[i];
    return NULL;
}

/* The client sends A, C and E; the manager sends B and D. */
static inline bool tlbridge_from_client(int channel) {
    return channel % 2 == 0;
}

static inline tlbridge_side *tlbridge_near_side(tlbridge_sides *b, int channel) {
    return tlbridge_from_client(channel) ? &b->client : &b->manager;
}

static inline tlbridge_side *tlbridge_far_side(tlbridge_sides *b, int channel) {
    return tlbridge_from_client(channel) ? &b->manager : &b->client;
}

/* The calls on a channel. Requires: the bridge was opened. */
static inline bool tlbridge_ready_on(tlbridge_sides *b, int channel) {
    return b->calls->of[channel].ready(tlbridge_near_side(b, channel));
}

static inline uint8_t tlbridge_offer_on(tlbridge_sides *b, int channel, const tl_beat *beat, const uint8_t *lanes) {
    return b->calls->of[channel].offer(tlbridge_near_side(b, channel), beat, lanes);
}

static inline bool tlbridge_take_on(tlbridge_sides *b, int channel, tl_beat *beat, uint8_t *lanes) {
    return b->calls->of[channel].take(tlbridge_far_side(b, channel), beat, lanes);
}

static inline uint8_t tlbridge_close_on(tlbridge_sides *b, int channel) {
    return b->calls->of[channel].close(tlbridge_near_side(b, channel));
}

#endif
