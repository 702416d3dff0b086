/* The calls of include/tlbridge.h in plain C, by docs/SPECIFICATION.md: what the scoreboard, the glue and the Python package are tested over
 * in seconds, for each pair of widths that a macro names, as -DTLBRIDGE_8_4. It shares nothing with the proved library, which takes minutes
 * a pair to make; tests/scoreboard/test_*.py compares the two wherever an archive of the pair is there. Not for users: it is slow and not proved.
 *
 * It has whole messages: bytes are gathered by their number, and a far beat is laid out once its last byte has come (sections 3, 4 and 7).
 */
#include "../../sv/tlbridge_calls.h"
#include "protocol.h"
#include <assert.h>
#include <pthread.h>
#include <stdio.h>
#include <stdlib.h>
#include <string.h>

enum { SOURCES = 1 << 16, MOST_BYTES = 1 << 12, INBOX = 128, STAGE = 128 };

/* ---- Messages: section 2 */

static bool carries_data(int x, const tl_beat *beat) {
    return x != TL_E && tl_kinds[x][beat->opcode & 7].has_data;
}

static uint64_t bytes_per_beat(const tl_beat *head, unsigned width) {
    uint64_t bytes = (uint64_t)1 << head->size;
    bytes = bytes < width ? bytes : width;
    assert(bytes > 0);
    return bytes;
}

static uint64_t beats_of_message(int x, const tl_beat *head, unsigned width) {
    return carries_data(x, head) ? ((uint64_t)1 << head->size) / bytes_per_beat(head, width) : 1;
}

/* ---- One channel: sections 7 and 8 */

typedef struct {
    tl_beat beat;
    uint8_t lanes[TL_MAX_LANES];
    bool begins; /* a message */
} far_beat;

typedef struct {
    far_beat *beats;
    size_t room, first, count;
} line;

static far_beat *line_at(line *of, size_t i) {
    return &of->beats[(of->first + i) % of->room];
}

static size_t line_move(line *from, line *to) {
    size_t moved = 0;
    for (; from->count > 0 && to->count < to->room; moved++, from->count--, to->count++) {
        *line_at(to, to->count) = *line_at(from, 0);
        from->first = (from->first + 1) % from->room;
    }
    return moved;
}

typedef struct {
    unsigned near, far; /* widths */
    bool closed;
    tl_beat head;
    uint64_t home, came; /* near beats of the message under way; 0: there is none */
    uint8_t bytes[MOST_BYTES], on[MOST_BYTES], bad[MOST_BYTES];
    line stage, ring, inbox;
    uint64_t sent, taken; /* far beats */
} crossing;

/* What a handle points to. */
typedef struct {
    struct bridge *all;
    int which; /* 0: the client's, 1: the manager's */
} hold;

typedef struct bridge {
    unsigned client, manager; /* widths */
    hold holds[2];
    int holders;
    pthread_mutex_t lock;
    crossing of[TL_CHANNELS];
    bool busy[SOURCES], open[SOURCES];
    uint8_t size[SOURCES];
    uint64_t address[SOURCES];
} bridge;

/* ---- Faults of a beat: sections 6 and 9 */

static bool mask_bit(const tl_beat *beat, unsigned lane) {
    return (lane < 64 ? beat->mask >> lane : beat->mask_high >> (lane - 64)) & 1;
}

static bool mask_fits(int x, const tl_beat *head, const tl_beat *beat, uint64_t home, unsigned width) {
    bool active[TL_MAX_LANES] = {false}, partial = head->opcode == 1;
    if (x > TL_B) return true;
    for (uint64_t i = 0; i < bytes_per_beat(head, width); i++) active[(home + i) % width] = true;
    for (unsigned lane = 0; lane < TL_MAX_LANES; lane++)
        if (partial ? mask_bit(beat, lane) && !active[lane] : mask_bit(beat, lane) != active[lane]) return false;
    return true;
}

static bool same_head(int x, const tl_beat *a, const tl_beat *b) {
    return a->opcode == b->opcode && a->param == b->param && a->size == b->size && a->source == b->source &&
           (x == TL_D ? a->sink == b->sink && !a->denied == !b->denied : a->address == b->address);
}

static uint8_t fault_of_first(const bridge *all, int x, const tl_beat *beat) {
    bool answers = x == TL_D && beat->opcode != 6;
    if (beat->opcode > 7 || tl_kinds[x][beat->opcode].params == 0) return TL_OPCODE;
    if (beat->param >= tl_kinds[x][beat->opcode].params) return TL_PARAM;
    if (beat->size > 12) return TL_SIZE;
    if (x != TL_D && beat->address % ((uint64_t)1 << beat->size) != 0) return TL_UNALIGNED;
    if (!mask_fits(x, beat, beat, beat->address, all->of[x].near)) return TL_MASK;
    if (!carries_data(x, beat) && beat->corrupt) return TL_CORRUPT;
    if (x == TL_A && all->busy[beat->source]) return TL_SOURCE_BUSY;
    if (answers && !all->open[beat->source]) return TL_NO_REQUEST;
    if (answers && all->size[beat->source] != beat->size) return TL_SIZE_MISMATCH;
    return TL_OK;
}

static uint8_t fault_of(const bridge *all, int x, const tl_beat *beat) {
    const crossing *of = &all->of[x];
    if (x == TL_E) return TL_OK;
    if (of->came == 0) return fault_of_first(all, x, beat);
    if (!same_head(x, beat, &of->head)) return TL_HEAD_CHANGED;
    return mask_fits(x, &of->head, beat, of->home, of->near) ? TL_OK : TL_MASK;
}

/* ---- An accepted beat, and the far beats that it makes due */

static void lay_out(crossing *of, int x, uint64_t number) {
    far_beat *made = line_at(&of->stage, of->stage.count++);
    memset(made, 0, sizeof *made);
    made->begins = number == 0;
    if (x == TL_E) {
        made->beat.sink = of->head.sink;
        return;
    }
    made->beat = of->head;
    made->beat.mask = made->beat.mask_high = made->beat.corrupt = 0;
    if (x == TL_D) made->beat.address = 0;
    else made->beat.sink = made->beat.denied = 0;
    made->beat.denied = made->beat.denied != 0;
    memset(made->beat.reserved, 0, sizeof made->beat.reserved);
    bool data = carries_data(x, &of->head);
    uint64_t bytes = bytes_per_beat(&of->head, of->far);
    for (uint64_t i = number * bytes; i < (number + 1) * bytes; i++) {
        unsigned lane = (unsigned)((of->home + i) % of->far);
        if (x <= TL_B && (!data || of->on[i])) tl_mask_add(&made->beat, lane);
        if (!data) continue;
        made->lanes[lane] = of->bytes[i];
        made->beat.corrupt |= of->bad[i];
    }
}

static uint64_t due_after(const crossing *of, int x, uint64_t near_beats) {
    if (!carries_data(x, &of->head)) return near_beats;
    return near_beats * bytes_per_beat(&of->head, of->near) / bytes_per_beat(&of->head, of->far);
}

static void begin(bridge *all, int x, const tl_beat *beat) {
    crossing *of = &all->of[x];
    bool answers = x == TL_D && beat->opcode != 6;
    of->head = *beat;
    of->home = x == TL_D ? answers ? all->address[beat->source] : 0 : beat->address;
    if (x == TL_A) all->busy[beat->source] = true;
    if (answers) all->open[beat->source] = false;
}

static void accept(bridge *all, int x, const tl_beat *beat, const uint8_t *lanes) {
    crossing *of = &all->of[x];
    if (of->came == 0) begin(all, x, beat);
    if (carries_data(x, &of->head)) {
        uint64_t bytes = bytes_per_beat(&of->head, of->near);
        for (uint64_t i = of->came * bytes; i < (of->came + 1) * bytes; i++) {
            unsigned lane = (unsigned)((of->home + i) % of->near);
            of->bytes[i] = lanes[lane];
            of->on[i] = x > TL_B || mask_bit(beat, lane);
            of->bad[i] = beat->corrupt != 0;
        }
    }
    uint64_t before = due_after(of, x, of->came), after = due_after(of, x, ++of->came);
    for (uint64_t number = before; number < after; number++) lay_out(of, x, number);
    if (x == TL_E || of->came == beats_of_message(x, &of->head, of->near)) of->came = 0;
}

static uint8_t offer(bridge *all, int x, const tl_beat *beat, const uint8_t *lanes) {
    crossing *of = &all->of[x];
    if (of->closed || of->stage.count > 0) return TL_NOT_READY;
    uint8_t fault = fault_of(all, x, beat);
    if (fault == TL_OK) accept(all, x, beat, lanes);
    return fault;
}

static bool take(bridge *all, int x, tl_beat *beat, uint8_t *lanes) {
    crossing *of = &all->of[x];
    if (of->inbox.count == 0) return false;
    const far_beat *first = line_at(&of->inbox, 0);
    *beat = first->beat;
    memcpy(lanes, first->lanes, of->far);
    if (first->begins && x == TL_A) {
        all->open[beat->source] = true;
        all->size[beat->source] = beat->size;
        all->address[beat->source] = beat->address;
    }
    if (first->begins && x == TL_D && beat->opcode != 6) all->busy[beat->source] = false;
    of->inbox.first = (of->inbox.first + 1) % of->inbox.room;
    of->inbox.count--;
    of->taken++;
    return true;
}

/* ---- Both sides */

static bool is_sent_by(int which, int x) {
    return tlbridge_from_client(x) == (which == 0);
}

static size_t pump(bridge *all, int which) {
    size_t moved = 0;
    for (int x = 0; x < TL_CHANNELS; x++)
        if (is_sent_by(which, x)) {
            size_t sent = line_move(&all->of[x].stage, &all->of[x].ring);
            all->of[x].sent += sent;
            moved += sent;
        }
    return moved;
}

static size_t fetch(bridge *all, int which) {
    size_t moved = 0;
    for (int x = 0; x < TL_CHANNELS; x++)
        if (!is_sent_by(which, x)) moved += line_move(&all->of[x].ring, &all->of[x].inbox);
    return moved;
}

static tl_standings standings_of(const bridge *all) {
    tl_counts counts[TL_CHANNELS];
    for (int x = 0; x < TL_CHANNELS; x++) counts[x] = (tl_counts){all->of[x].stage.count, all->of[x].ring.count, all->of[x].inbox.count};
    return (tl_standings){counts[TL_A], counts[TL_B], counts[TL_C], counts[TL_D], counts[TL_E]};
}

/* The numbers of beats that a side has sent and that were taken from it. They are no receipt. */
static tl_totals totals_of(const bridge *all, int which, uint64_t number, uint64_t opening) {
    uint64_t beats[TL_CHANNELS];
    for (int x = 0; x < TL_CHANNELS; x++) beats[x] = is_sent_by(which, x) ? all->of[x].sent : all->of[x].taken;
    return (tl_totals){number, opening, TL_NO_RECEIPT, beats[TL_A], beats[TL_B], beats[TL_C], beats[TL_D], beats[TL_E]};
}

static uint8_t finish(const bridge *all, int which, uint64_t number, uint64_t opening, tl_totals *receipt) {
    for (int x = 0; x < TL_CHANNELS; x++)
        if (is_sent_by(which, x) && (!all->of[x].closed || all->of[x].stage.count > 0)) return TL_NOT_SENT;
    *receipt = totals_of(all, which, number, opening);
    receipt->finished = which == 0 ? TL_CLIENT_FINISHED : TL_MANAGER_FINISHED;
    return TL_OK;
}

static uint8_t drained(const bridge *all, int which, uint64_t number, uint64_t opening, const tl_totals *receipt) {
    tl_totals got = totals_of(all, which, number, opening);
    bool as_many = which == 0 ? got.b == receipt->b && got.d == receipt->d : got.a == receipt->a && got.c == receipt->c && got.e == receipt->e;
    if (receipt->finished != (which == 0 ? TL_MANAGER_FINISHED : TL_CLIENT_FINISHED)) return TL_WRONG_RECEIPT;
    if (receipt->bridge != number) return TL_BRIDGE_MISMATCH;
    if (receipt->opening != opening) return TL_WRONG_RECEIPT;
    return as_many ? TL_OK : TL_NOT_TAKEN;
}

static void free_all(bridge *all) {
    if (all == NULL) return;
    for (int x = 0; x < TL_CHANNELS; x++) {
        free(all->of[x].stage.beats);
        free(all->of[x].ring.beats);
        free(all->of[x].inbox.beats);
    }
    free(all);
}

static bool make_line(line *of, size_t room) {
    *of = (line){malloc(room * sizeof *of->beats), room, 0, 0};
    return of->beats != NULL;
}

static bridge *make(unsigned client, unsigned manager, size_t ring) {
    bridge *all = calloc(1, sizeof *all);
    if (all == NULL) return NULL;
    pthread_mutex_init(&all->lock, NULL);
    all->client = client;
    all->manager = manager;
    for (int which = 0; which < 2; which++) all->holds[which] = (hold){all, which};
    all->holders = 2;
    bool made = true;
    for (int x = 0; x < TL_CHANNELS; x++) {
        crossing *of = &all->of[x];
        of->near = tlbridge_from_client(x) ? client : manager;
        of->far = tlbridge_from_client(x) ? manager : client;
        made = made && make_line(&of->stage, STAGE) && make_line(&of->ring, ring) && make_line(&of->inbox, INBOX);
    }
    if (made) return all;
    free_all(all);
    return NULL;
}

/* The bridge of a handle. The program ends if it is not of this side and of this pair of widths: the library would misread its memory. */
static bridge *held_by(void *impl, int which, unsigned client, unsigned manager) {
    const hold *held = impl;
    if (held->which == which && held->all->client == client && held->all->manager == manager) return held->all;
    (void)fprintf(stderr, "plain_bridge: a handle of another side, or of another pair, than %d of %u:%u\n", which, client, manager);
    abort();
}

static void release(void **impl, bool *live, int which, unsigned client, unsigned manager) {
    bridge *all = *impl == NULL ? NULL : held_by(*impl, which, client, manager);
    *impl = NULL;
    *live = false;
    if (all == NULL) return;
    pthread_mutex_lock(&all->lock);
    bool last = --all->holders == 0;
    pthread_mutex_unlock(&all->lock);
    if (last) free_all(all);
}

/* ---- Answers */

static const struct {
    uint8_t number;
    const char *name, *sentence;
} answers[] = {
#define SAYS(number, name, sentence) {number, name, sentence},
#include "statuses.h"
};

static void status_text(uint8_t answer, tl_text *text) {
    memset(text, 0, sizeof *text);
    for (size_t i = 0; i < sizeof answers / sizeof *answers; i++)
        if (answers[i].number == answer) {
            (void)snprintf(text->name, sizeof text->name, "%s", answers[i].name);
            (void)snprintf(text->sentence, sizeof text->sentence, "%s", answers[i].sentence);
        }
}

/* ---- The calls of each pair */

#define SIDE_OF_client 0
#define SIDE_OF_manager 1
#define LOCKED(cw, mw, which, result, expression) \
    if (!handle->is_open) return 0; \
    bridge *all = held_by(handle->impl, SIDE_OF_##which, cw, mw); \
    pthread_mutex_lock(&all->lock); \
    result value = (result)(expression); \
    pthread_mutex_unlock(&all->lock); \
    return value;
#define CHANNEL(cw, mw, x, channel, sender, near_width, taker, far_width) \
    bool TL_CALL(cw, mw, ready_##x)(TL_CALL(cw, mw, sender) *handle) { \
        LOCKED(cw, mw, sender, bool, !all->of[channel].closed && all->of[channel].stage.count == 0) \
    } \
    uint8_t TL_CALL(cw, mw, offer_##x)(TL_CALL(cw, mw, sender) *handle, const tl_beat *beat, const uint8_t lanes[near_width]) { \
        if (!handle->is_open) return TL_NOT_OPEN; \
        LOCKED(cw, mw, sender, uint8_t, offer(all, channel, beat, lanes)) \
    } \
    bool TL_CALL(cw, mw, take_##x)(TL_CALL(cw, mw, taker) *handle, tl_beat *beat, uint8_t lanes[far_width]) { \
        LOCKED(cw, mw, taker, bool, take(all, channel, beat, lanes)) \
    } \
    size_t TL_CALL(cw, mw, take_all_##x)(TL_CALL(cw, mw, taker) *handle, TL_CALL(cw, mw, taker##_beat) *beats, size_t room) { \
        size_t count = 0; \
        while (count < room && TL_CALL(cw, mw, take_##x)(handle, &beats[count].beat, beats[count].lanes)) count++; \
        return count; \
    } \
    uint8_t TL_CALL(cw, mw, close_##x)(TL_CALL(cw, mw, sender) *handle) { \
        if (!handle->is_open) return TL_NOT_OPEN; \
        LOCKED(cw, mw, sender, uint8_t, all->of[channel].came > 0 ? TL_MID_BURST : (all->of[channel].closed = true, TL_OK)) \
    }
#define PLAIN_SIDE(cw, mw, which, number) \
    void TL_CALL(cw, mw, free_##which)(TL_CALL(cw, mw, which) *handle) { \
        release(&handle->impl, &handle->is_open, number, cw, mw); \
        handle->bridge = 0; \
    } \
    size_t TL_CALL(cw, mw, pump_##which)(TL_CALL(cw, mw, which) *handle) { LOCKED(cw, mw, which, size_t, pump(all, number)) } \
    size_t TL_CALL(cw, mw, fetch_##which)(TL_CALL(cw, mw, which) *handle) { LOCKED(cw, mw, which, size_t, fetch(all, number)) } \
    uint8_t TL_CALL(cw, mw, count_##which)(TL_CALL(cw, mw, which) *handle, tl_totals *totals) { \
        if (!handle->is_open) return TL_NOT_OPEN; \
        LOCKED(cw, mw, which, uint8_t, (*totals = totals_of(all, number, handle->bridge, handle->opening), TL_OK)) \
    } \
    uint8_t TL_CALL(cw, mw, finish_##which)(TL_CALL(cw, mw, which) *handle, tl_totals *receipt) { \
        if (!handle->is_open) return TL_NOT_OPEN; \
        LOCKED(cw, mw, which, uint8_t, finish(all, number, handle->bridge, handle->opening, receipt)) \
    } \
    uint8_t TL_CALL(cw, mw, drained_##which)(TL_CALL(cw, mw, which) *handle, const tl_totals *receipt) { \
        if (!handle->is_open) return TL_NOT_OPEN; \
        LOCKED(cw, mw, which, uint8_t, drained(all, number, handle->bridge, handle->opening, receipt)) \
    }
#define PLAIN_MEETING(cw, mw, name, settles) \
    uint8_t TL_CALL(cw, mw, name)(TL_CALL(cw, mw, client) *client, TL_CALL(cw, mw, manager) *manager, tl_standings *standings) { \
        if (!client->is_open || !manager->is_open) return TL_NOT_OPEN; \
        if (client->bridge != manager->bridge || client->opening != manager->opening) return TL_BRIDGE_MISMATCH; \
        bridge *all = held_by(client->impl, 0, cw, mw); \
        if (held_by(manager->impl, 1, cw, mw) != all) return TL_BRIDGE_MISMATCH; \
        while ((settles) && pump(all, 0) + pump(all, 1) + fetch(all, 0) + fetch(all, 1) > 0) {} \
        *standings = standings_of(all); \
        return TL_OK; \
    }
#define PLAIN(cw, mw) \
    CHANNEL(cw, mw, a, TL_A, client, cw, manager, mw) \
    CHANNEL(cw, mw, b, TL_B, manager, mw, client, cw) \
    CHANNEL(cw, mw, c, TL_C, client, cw, manager, mw) \
    CHANNEL(cw, mw, d, TL_D, manager, mw, client, cw) \
    CHANNEL(cw, mw, e, TL_E, client, cw, manager, mw) \
    PLAIN_SIDE(cw, mw, client, 0) \
    PLAIN_SIDE(cw, mw, manager, 1) \
    PLAIN_MEETING(cw, mw, meet, false) \
    PLAIN_MEETING(cw, mw, settle, true) \
    uint8_t TL_CALL(cw, mw, open)(TL_CALL(cw, mw, client) *client, TL_CALL(cw, mw, manager) *manager, size_t ring, uint64_t number) { \
        TL_CALL(cw, mw, free_client)(client); \
        TL_CALL(cw, mw, free_manager)(manager); \
        if (ring < 1 || ring > TL_MAX_RING) return TL_RING_SIZE; \
        bridge *all = make(cw, mw, ring); \
        if (all == NULL) return TL_OUT_OF_MEMORY; \
        client->impl = &all->holds[0]; \
        manager->impl = &all->holds[1]; \
        client->is_open = manager->is_open = true; \
        client->bridge = manager->bridge = number; \
        client->opening = manager->opening = 1 + (client->opening < manager->opening ? manager->opening : client->opening); \
        return TL_OK; \
    } \
    void TL_CALL(cw, mw, status_text)(uint8_t answer, tl_text *text) { status_text(answer, text); } \
    uint32_t TL_CALL(cw, mw, version)(void) { return TL_VERSION; }
TLBRIDGE_OF_EACH_PAIR(PLAIN)

/* The calls of the trace library that the Python package looks up. No trace is answered here: each is out of memory. */
void tl_status_text(uint8_t answer, tl_text *text) {
    status_text(answer, text);
}

uint8_t tl_answer_trace(const uint8_t *text, size_t length, uint8_t check, tl_answer *answer) {
    (void)text, (void)length, (void)check, (void)answer;
    return TL_OUT_OF_MEMORY;
}

void tl_answer_free(tl_answer *answer) {
    (void)answer;
}
