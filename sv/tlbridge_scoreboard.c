/* The scoreboard of include/tlbridge_scoreboard.h, and the functions that sv/tlbridge_scoreboard.sv imports. `make install` compiles it into
 * the library, with a macro for each pair of widths of the library, for example -DTLBRIDGE_8_4. */
#include "tlbridge_board.h"
#include "tlbridge_calls.h"
#include <inttypes.h>
#include <stdio.h>
#include <stdlib.h>
#include <string.h>

#define PAIR_NAME(cw, mw) " " #cw ":" #mw
static const char pair_names[] = TLBRIDGE_OF_EACH_PAIR(PAIR_NAME);

const char *tl_scoreboard_pairs(void) {
    return pair_names + 1;
}

/* ---- Comparison */

static void say_number(board_line *line, const char *field, unsigned digits, uint64_t got, uint64_t due) {
    if (got != due) tl_board_say(line, "; %s got %0*" PRIx64 ", expected %0*" PRIx64, field, (int)digits, got, (int)digits, due);
}

static void say_mask(board_line *line, const tl_beat *got, const tl_beat *due, unsigned width) {
    if (got->mask == due->mask && got->mask_high == due->mask_high) return;
    const tl_beat *both[] = {got, due};
    for (int i = 0; i < 2; i++) {
        tl_board_say(line, i == 0 ? "; mask got " : ", expected ");
        if (width > 64) tl_board_say(line, "%016" PRIx64, both[i]->mask_high);
        tl_board_say(line, "%0*" PRIx64, (int)((width > 64 ? 64 : width) + 3) / 4, both[i]->mask);
    }
}

/* Adds the data, highest lane first, with `..` for lanes that are not compared. */
static void say_lanes(board_line *line, const uint8_t *lanes, const bool *compared, unsigned width) {
    for (unsigned lane = width; lane-- > 0;) {
        if (compared[lane]) tl_board_say(line, "%02x", lanes[lane]);
        else tl_board_say(line, "..");
    }
}

static bool is_masked(const tl_scoreboard *board, int channel, const tl_beat *due) {
    return channel <= TL_B && due->opcode == PUT_PARTIAL_DATA && !(board->flags & TL_COMPARE_UNMASKED);
}

static void compared_lanes(const tl_scoreboard *board, int channel, const tl_beat *due, uint64_t home, bool *compared) {
    unsigned width = tl_board_width(board, !tl_board_near_link(channel));
    bool masked = is_masked(board, channel, due);
    for (unsigned lane = 0; lane < width; lane++)
        compared[lane] = tl_board_carries(channel, due) && tl_board_is_active(lane, home, due->size, width) && (!masked || tl_mask_has(due, lane));
}

/* Returns the address that decides the lanes of an expected beat's bytes. A source has no later request while the one beat of a short
 * response is expected, and a longer response fills all lanes. */
static uint64_t home_of(const tl_scoreboard *board, int channel, const tl_beat *due) {
    return channel == TL_D ? board->homes[due->source] : due->address;
}

/* Returns whether the compared lanes of two far beats have the same bytes. */
static bool has_same_data(const tl_scoreboard *board, int channel, const uint8_t *got_lanes, const tl_beat *due, const uint8_t *due_lanes) {
    if (!tl_board_carries(channel, due)) return true;
    unsigned width = tl_board_width(board, !tl_board_near_link(channel)), first = 0, count = width;
    if (due->size <= MOST_SIZE && (1U << due->size) < width) {
        count = 1U << due->size;
        first = (unsigned)(home_of(board, channel, due) & (width - 1) & ~(uint64_t)(count - 1));
    }
    if (memcmp(got_lanes + first, due_lanes + first, count) == 0) return true;
    if (!is_masked(board, channel, due)) return false;
    for (unsigned lane = first; lane < first + count; lane++)
        if (tl_mask_has(due, lane) && got_lanes[lane] != due_lanes[lane]) return false;
    return true;
}

static bool has_same_fields(int channel, const tl_beat *got, const tl_beat *due) {
    if (!tl_board_same_head(channel, got, due)) return false;
    if (channel <= TL_B && (got->mask != due->mask || got->mask_high != due->mask_high)) return false;
    return channel == TL_E || (got->corrupt != 0) == (due->corrupt != 0);
}

/* Compares a far beat with the expected one, and reports each field that differs. */
static void compare(tl_scoreboard *board, int channel, const board_entry *came, const tl_beat *due, const uint8_t *due_lanes) {
    const tl_beat *got = &came->beat;
    bool is_same = has_same_data(board, channel, came->lanes, due, due_lanes);
    if (is_same && has_same_fields(channel, got, due)) return;
    unsigned width = tl_board_width(board, !tl_board_near_link(channel));
    board_line line = {.length = 0};
    tl_board_say(&line, "far %c beat %" PRIu64, 'A' + channel, came->number);
    if (channel != TL_E) {
        say_number(&line, "opcode", 1, got->opcode, due->opcode);
        say_number(&line, "param", 1, got->param, due->param);
        say_number(&line, "size", 1, got->size, due->size);
        say_number(&line, "source", 4, got->source, due->source);
    }
    if (channel >= TL_D) say_number(&line, "sink", 4, got->sink, due->sink);
    if (channel <= TL_C) say_number(&line, "address", 16, got->address, due->address);
    if (channel <= TL_B) say_mask(&line, got, due, width);
    if (channel == TL_D) say_number(&line, "denied", 1, got->denied != 0, due->denied != 0);
    if (channel != TL_E) say_number(&line, "corrupt", 1, got->corrupt != 0, due->corrupt != 0);
    if (!is_same) {
        bool compared[TL_MAX_LANES] = {false};
        compared_lanes(board, channel, due, home_of(board, channel, due), compared);
        tl_board_say(&line, "; data got ");
        say_lanes(&line, came->lanes, compared, width);
        tl_board_say(&line, ", expected ");
        say_lanes(&line, due_lanes, compared, width);
    }
    tl_board_differs(board, channel, came->time, line.text);
}

/* ---- How the beats go through the bridge */

/* Pumps and fetches until nothing moves, and notes whether beats are left in a stage or a ring, because an inbox is full. */
static void settle(tl_scoreboard *board) {
    tl_standings all;
    board->is_left = false;
    if (board->bridge->calls->settle(&board->bridge->client, &board->bridge->manager, &all) != TL_OK) return;
    const tl_counts counts[TL_CHANNELS] = {all.a, all.b, all.c, all.d, all.e};
    for (int channel = 0; channel < TL_CHANNELS; channel++) board->is_left |= counts[channel].staged + counts[channel].in_ring > 0;
}

/* Returns whether the bridge takes a beat of a channel. It is settled only if it cannot otherwise, since that takes most of the time. */
static bool is_ready(tl_scoreboard *board, int channel) {
    if (tlbridge_ready_on(board->bridge, channel)) return true;
    if (!board->is_left) return false;
    settle(board);
    return tlbridge_ready_on(board->bridge, channel);
}

/* Takes the next far beat of a channel, and settles the bridge if there is none yet. Returns whether there was one. */
static bool take(tl_scoreboard *board, int channel, tl_beat *beat, uint8_t *lanes) {
    if (tlbridge_take_on(board->bridge, channel, beat, lanes)) return true;
    if (!board->is_left) return false;
    settle(board);
    return tlbridge_take_on(board->bridge, channel, beat, lanes);
}

static void expect(tl_scoreboard *board, int channel, board_expected more) {
    board_expectations *due = &board->due[channel];
    if (due->count == due->capacity) {
        board_expected *entries = tl_board_grown(due->entries, sizeof *entries, &due->capacity, due->first, due->count);
        if (entries == NULL) {
            board->no_memory = board->is_dead = true;
            return;
        }
        due->entries = entries;
        due->first = 0;
    }
    due->entries[(due->first + due->count++) & (due->capacity - 1)] = more;
}

static board_expected *next_expected(tl_scoreboard *board, int channel) {
    board_expectations *due = &board->due[channel];
    return due->count == 0 ? NULL : &due->entries[due->first];
}

static void drop_expected(tl_scoreboard *board, int channel) {
    board_expectations *due = &board->due[channel];
    due->first = (due->first + 1) & (due->capacity - 1);
    due->count--;
}

/* Returns the number of far beats of a message that are expected after `beats` of its near beats. */
static uint32_t due_after(const tl_scoreboard *board, int channel, const tl_beat *head, uint32_t beats) {
    if (!tl_board_carries(channel, head)) return beats;
    unsigned size = head->size & 15, near = board->powers[tl_board_near_link(channel)], far = board->powers[!tl_board_near_link(channel)];
    return beats << (size < near ? size : near) >> (size < far ? size : far);
}

/* Notes the head of a message whose first beat the bridge accepted. */
static void begin_message(tl_scoreboard *board, int channel, const tl_beat *beat, const tl_beat *refused) {
    board_message *message = &board->messages[channel];
    message->head = *beat;
    message->is_mended = refused != NULL && !tl_board_same_head(channel, beat, refused);
    if (refused == NULL) message->is_said = false;
    else message->original = *refused;
    if (channel != TL_A) return;
    board->homes[beat->source] = beat->address;
    board->sizes[beat->source] = beat->size;
}

/* Offers a beat to the bridge, and notes the far beats to expect if it is accepted. Returns the bridge's status. `refused` is the refused
 * beat that this one replaces, or NULL. */
static uint8_t offer_beat(tl_scoreboard *board, int channel, const tl_beat *beat, const uint8_t *lanes, const tl_beat *refused) {
    board_message *message = &board->messages[channel];
    uint8_t answer = tlbridge_offer_on(board->bridge, channel, beat, lanes);
    if (answer != TL_OK) return answer;
    board->is_left = true;
    if (message->came == 0) begin_message(board, channel, beat, refused);
    if (refused != NULL) {
        message->is_spoilt = true;
        message->refused = *refused;
    }
    uint32_t before = due_after(board, channel, &message->head, message->came++);
    uint32_t made = due_after(board, channel, &message->head, message->came) - before;
    for (uint32_t i = 0; i < made; i++) expect(board, channel, (board_expected){true, !message->is_spoilt, message->is_spoilt, message->refused, message->head});
    if (made > 0) message->is_spoilt = false;
    if (message->came == tl_board_beats(channel, &message->head, tl_board_width(board, tl_board_near_link(channel)))) message->came = 0;
    return TL_OK;
}

static void lawful_mask(const tl_scoreboard *board, int channel, const tl_beat *head, tl_beat *beat) {
    unsigned width = tl_board_width(board, tl_board_near_link(channel));
    tl_beat lawful = *beat;
    lawful.mask = lawful.mask_high = 0;
    for (unsigned lane = 0; lane < width; lane++)
        if (tl_board_is_active(lane, head->address, head->size, width) && (head->opcode != PUT_PARTIAL_DATA || tl_mask_has(beat, lane))) tl_mask_add(&lawful, lane);
    *beat = lawful;
}

static void take_head(tl_beat *beat, const tl_beat *head) {
    tl_beat taken = *head;
    taken.mask = beat->mask;
    taken.mask_high = beat->mask_high;
    taken.corrupt = beat->corrupt;
    *beat = taken;
}

/* Corrects the field of a beat that has this fault. Returns false if that would change the number of beats. */
static bool mend(const tl_scoreboard *board, int channel, tl_beat *beat, uint8_t fault) {
    const board_message *message = &board->messages[channel];
    switch (fault) {
    case TL_HEAD_CHANGED: take_head(beat, &message->head); return true;
    case TL_PARAM: beat->param = 0; return true;
    case TL_UNALIGNED: beat->address &= ~(((uint64_t)1 << beat->size) - 1); return true;
    case TL_MASK: lawful_mask(board, channel, message->came > 0 ? &message->head : beat, beat); return true;
    case TL_CORRUPT: beat->corrupt = 0; return true;
    default: return false;
    }
}

/* Skips the message that a near beat begins, and its far beats. */
static void leave_out(tl_scoreboard *board, int channel, const board_entry *near) {
    board_message *message = &board->messages[channel];
    bool counts = tl_board_has_count(channel, &near->beat);
    uint32_t far = counts ? tl_board_beats(channel, &near->beat, tl_board_width(board, !tl_board_near_link(channel))) : UINT32_MAX;
    expect(board, channel, (board_expected){false, false, far, near->beat, near->beat});
    message->refused = near->beat;
    message->skip = counts ? tl_board_beats(channel, &near->beat, tl_board_width(board, tl_board_near_link(channel))) - 1 : UINT32_MAX;
}

/* Skips a message that cannot be corrected. A request or a response goes through the bridge as another one without data, so that the bridge
 * has the same outstanding requests as the two links. */
static void pass_over(tl_scoreboard *board, int channel, const board_entry *near) {
    static const uint8_t no_lanes[TL_MAX_LANES];
    tl_beat other = {.source = near->beat.source, .opcode = GET, .size = near->beat.size <= MOST_SIZE ? near->beat.size : MOST_SIZE};
    if (channel == TL_A) {
        other.address = near->beat.address & ~(((uint64_t)1 << other.size) - 1);
        other.mask = other.mask_high = UINT64_MAX;
        lawful_mask(board, channel, &other, &other);
    } else if (channel == TL_D) {
        other.opcode = ACCESS_ACK;
        other.size = board->sizes[other.source];
    }
    bool is_other = channel == TL_A || (channel == TL_D && near->beat.opcode != RELEASE_ACK);
    if (is_other) offer_beat(board, channel, &other, no_lanes, &near->beat);
    leave_out(board, channel, near);
}

static void refused(tl_scoreboard *board, int channel, const board_entry *near, uint8_t answer) {
    /* the response to a request that was refused may be as wrong as its request */
    bool is_answer = channel == TL_D && board->refused[near->beat.source];
    board_message *message = &board->messages[channel];
    if ((message->is_said && message->came > 0) || message->said == near->number + 1 || is_answer) return;
    message->is_said = true;
    message->said = near->number + 1;
    board_line line = {.length = 0};
    unsigned width = tl_board_width(board, tl_board_near_link(channel));
    tl_board_say(&line, "near %c beat %" PRIu64 ": ", 'A' + channel, near->number);
    tl_board_say_head(&line, channel, &near->beat);
    if (answer == TL_PARAM) tl_board_say(&line, ", param %u", near->beat.param);
    if (answer == TL_MASK) {
        tl_board_say(&line, ", mask ");
        if (width > 64) tl_board_say(&line, "%016" PRIx64, near->beat.mask_high);
        tl_board_say(&line, "%0*" PRIx64, (int)((width > 64 ? 64 : width) + 3) / 4, near->beat.mask);
    }
    tl_board_say(&line, ": refused: ");
    tl_board_say_fault(&line, board, answer);
    tl_board_say(&line, "; its far beats are not judged");
    tl_board_differs(board, channel, near->time, line.text);
    if (channel == TL_A && message->came == 0) board->refused[near->beat.source] = true;
}

/* The most corrections of one beat: each of the faults that `mend` knows occurs once, and some uncover another. */
enum { MENDS = 8 };

/* Recovers after a near beat that the bridge refused permanently. If the beat can be corrected, the corrected one takes its place. A truncated
 * burst is filled up. A message that cannot be corrected is skipped. */
static void recover(tl_scoreboard *board, int channel, board_entry *near, uint8_t answer) {
    board_message *message = &board->messages[channel];
    tl_beat beat = near->beat;
    refused(board, channel, near, answer);
    if (answer == TL_HEAD_CHANGED && !tl_board_is_alike(channel, &beat, &message->head)) {
        message->fill = tl_board_beats(channel, &message->head, tl_board_width(board, tl_board_near_link(channel))) - message->came;
        return;
    }
    for (int tries = 0; tries < MENDS && mend(board, channel, &beat, answer); tries++) {
        answer = offer_beat(board, channel, &beat, near->lanes, &near->beat);
        if (answer == TL_OK) break;
    }
    if (answer == TL_SOURCE_BUSY || answer == TL_NO_REQUEST) {
        near->was_refused = true;
        near->original = near->beat;
        near->beat = beat;
        return;
    }
    if (answer != TL_OK) pass_over(board, channel, near);
    tl_board_queue_drop(&board->near[channel]);
}

/* Offers one beat for the rest of a truncated burst. Returns whether there was one to offer and the bridge was ready. */
static bool fill_up(tl_scoreboard *board, int channel) {
    board_message *message = &board->messages[channel];
    static const uint8_t no_lanes[TL_MAX_LANES];
    if (message->fill == 0 || !is_ready(board, channel)) return false;
    tl_beat filler = message->head, head = message->head;
    filler.mask = filler.mask_high = UINT64_MAX;
    if (channel <= TL_B) lawful_mask(board, channel, &head, &filler);
    message->fill--;
    offer_beat(board, channel, &filler, no_lanes, &head);
    return true;
}

/* Skips one near beat of a refused message. Returns whether there was one. */
static bool skip(tl_scoreboard *board, int channel) {
    board_queue *near = &board->near[channel];
    board_message *message = &board->messages[channel];
    if (message->skip == 0 || near->count == 0) return false;
    if (!tl_board_same_head(channel, &tl_board_queue_front(near)->beat, &message->refused)) {
        message->skip = 0;
        return false;
    }
    message->skip--;
    tl_board_queue_drop(near);
    return true;
}

/* Offers the first waiting near beat, with the corrected head if the message's head was corrected. Returns the bridge's status. */
static uint8_t offer_front(tl_scoreboard *board, int channel, const board_entry *front) {
    const board_message *message = &board->messages[channel];
    if (message->came == 0 || !message->is_mended || !tl_board_same_head(channel, &front->beat, &message->original))
        return offer_beat(board, channel, &front->beat, front->lanes, front->was_refused ? &front->original : NULL);
    tl_beat mended = front->beat;
    take_head(&mended, &message->head);
    return offer_beat(board, channel, &mended, front->lanes, &front->beat);
}

/* Offers the waiting near beats of a channel until one has to wait. Returns whether any was used. */
static bool offer(tl_scoreboard *board, int channel) {
    board_queue *near = &board->near[channel];
    bool moved = false;
    while (!board->is_dead && (near->count > 0 || board->messages[channel].fill > 0)) {
        if (fill_up(board, channel) || skip(board, channel)) {
            moved = true;
            continue;
        }
        if (near->count == 0 || board->messages[channel].fill > 0 || !is_ready(board, channel)) break;
        board_entry *front = tl_board_queue_front(near);
        uint8_t answer = offer_front(board, channel, front);
        if (answer == TL_SOURCE_BUSY || answer == TL_NO_REQUEST) break;
        if (answer == TL_OK) tl_board_queue_drop(near);
        else recover(board, channel, front, answer);
        moved = true;
    }
    return moved;
}

/* Returns whether a far beat has the head of the second expected beat. */
static bool is_due_next(const tl_scoreboard *board, int channel, const tl_beat *came) {
    const board_expectations *due = &board->due[channel];
    return due->count > 1 && tl_board_same_head(channel, came, &due->entries[(due->first + 1) & (due->capacity - 1)].mended);
}

/* Skips the far beats of a refused near beat: those with its head, or with the head of the corrected beat. Returns whether that is finished. */
static bool is_passed_over(tl_scoreboard *board, int channel, board_expected *next) {
    board_queue *far = &board->far[channel];
    tl_beat due;
    uint8_t lanes[TL_MAX_LANES];
    if (next->is_due && !take(board, channel, &due, lanes)) return false;
    next->is_due = false;
    for (; next->most > 0 && far->count > 0; next->most--, tl_board_queue_drop(far)) {
        const tl_beat *came = &tl_board_queue_front(far)->beat;
        bool is_same = tl_board_same_head(channel, came, &next->refused) || tl_board_same_head(channel, came, &next->mended);
        if (!is_same && (!tl_board_is_alike(channel, came, &next->refused) || is_due_next(board, channel, came))) break;
    }
    return next->most == 0 || far->count > 0;
}

/* Compares the far beats of a channel with the expected ones, as far as there are both. Returns whether any was used. */
static bool judge(tl_scoreboard *board, int channel) {
    board_queue *far = &board->far[channel];
    bool moved = false;
    tl_beat due;
    uint8_t lanes[TL_MAX_LANES];
    for (board_expected *next; (next = next_expected(board, channel)) != NULL; moved = true) {
        if (!next->is_judged) {
            if (!is_passed_over(board, channel, next)) break;
        } else {
            if (far->count == 0 || !take(board, channel, &due, lanes)) break;
            compare(board, channel, tl_board_queue_front(far), &due, lanes);
            tl_board_queue_drop(far);
        }
        drop_expected(board, channel);
    }
    return moved;
}

/* Passes the waiting beats through the bridge as far as they go. */
static void advance(tl_scoreboard *board) {
    for (bool moved = !board->is_dead; moved;) {
        moved = false;
        for (int channel = 0; channel < TL_CHANNELS; channel++) moved |= offer(board, channel);
        for (int channel = 0; channel < TL_CHANNELS; channel++) moved |= judge(board, channel);
    }
}

/* Judges a beat that a link accepted. */
static void pass(tl_scoreboard *board, int link, int channel, uint64_t time, const tl_beat *beat, const uint8_t *lanes) {
    if (time != board->now) tl_board_end_cycle(board);
    board->now = time;
    board_queue *queue = link == tl_board_near_link(channel) ? &board->near[channel] : &board->far[channel];
    board_entry *came = tl_board_queue_add(queue, time, beat, lanes, tl_board_width(board, link));
    if (came == NULL) {
        board->no_memory = true;
        return;
    }
    tl_board_view_beat(board, link, channel, came);
    advance(board);
}

void tl_scoreboard_beat(tl_scoreboard *board, int link, char letter, uint64_t time, const tl_beat *beat, const uint8_t *lanes) {
    int channel = letter - 'A';
    if (board == NULL || link < 0 || link > 1 || channel < 0 || channel >= TL_CHANNELS || board->ended || board->in_reset[link]) return;
    board->beats[link]++;
    if (!board->in_reset[!link] || board->was_reset[link]) {
        pass(board, link, channel, time, beat, lanes);
        return;
    }
    board_entry *kept = tl_board_queue_add(&board->held, time, beat, lanes, tl_board_width(board, link));
    if (kept == NULL) board->no_memory = true;
    else kept->channel = channel;
}

uint64_t tl_scoreboard_beats(const tl_scoreboard *board) {
    return board == NULL ? 0 : board->beats[0] + board->beats[1];
}

/* ---- Resets */

static void clear_queue(board_queue *queue) {
    queue->first = queue->count = 0;
    queue->came = 0;
}

/* Returns the number of beats whose counterpart on the other link did not come yet. */
static size_t in_flight(const tl_scoreboard *board) {
    size_t count = 0;
    for (int channel = 0; channel < TL_CHANNELS; channel++) count += board->near[channel].count + board->far[channel].count + board->due[channel].count;
    return count;
}

/* Starts again as after open. Counts and messages are kept. */
static void begin_anew(tl_scoreboard *board) {
    for (int channel = 0; channel < TL_CHANNELS; channel++) {
        clear_queue(&board->near[channel]);
        clear_queue(&board->far[channel]);
        board->due[channel].first = board->due[channel].count = 0;
        board->messages[channel] = (board_message){.came = 0};
    }
    clear_queue(&board->held);
    board->is_left = false;
    memset(board->homes, 0, SOURCES * sizeof *board->homes);
    memset(board->refused, 0, SOURCES * sizeof *board->refused);
    for (int link = 0; link < 2; link++) {
        board->suspects[link].there = false;
        memset(board->views[link].left, 0, sizeof board->views[link].left);
        memset(board->views[link].open, 0, SOURCES);
    }
    if (board->bridge->calls->open(&board->bridge->client, &board->bridge->manager, TL_MAX_RING) != TL_OK) board->no_memory = board->is_dead = true;
}

/* Passes on the beats that a link accepted while only the other link was in reset. */
static void pass_held(tl_scoreboard *board, int link) {
    for (board_entry *kept; (kept = tl_board_queue_front(&board->held)) != NULL;) {
        board_entry copy = *kept;
        tl_board_queue_drop(&board->held);
        pass(board, link, copy.channel, copy.time, &copy.beat, copy.lanes);
    }
}

void tl_scoreboard_reset(tl_scoreboard *board, int link, bool asserted, uint64_t time) {
    if (board == NULL || link < 0 || link > 1 || board->ended || asserted == board->in_reset[link]) return;
    board->in_reset[link] = asserted;
    if (!asserted) {
        if (board->in_reset[!link]) return;
        int other = board->was_reset[0] ? 1 : 0;
        bool is_one = board->was_reset[0] != board->was_reset[1];
        board->was_reset[0] = board->was_reset[1] = false;
        if (is_one) pass_held(board, other);
        return;
    }
    if (!board->was_reset[0] && !board->was_reset[1] && tl_scoreboard_beats(board) > 0) {
        board_line line = {.length = 0};
        tl_board_end_cycle(board);
        tl_board_say(&line, "reset of the %s's link: %zu beats in flight on both links are not judged", link == TL_CLIENT_LINK ? "client" : "manager", in_flight(board));
        tl_board_add_line(board, time, line.text);
    }
    board->was_reset[link] = true;
    begin_anew(board);
}

/* ---- The end */

static void not_come(tl_scoreboard *board, int channel) {
    tl_beat due, first = {0};
    uint8_t lanes[TL_MAX_LANES];
    uint64_t count = 0;
    for (board_expected *next; (next = next_expected(board, channel)) != NULL; drop_expected(board, channel)) {
        if (next->is_due && !take(board, channel, &due, lanes)) break;
        if (next->is_judged && count++ == 0) first = due;
    }
    if (count == 0) return;
    board_line line = {.length = 0};
    tl_board_say(&line, "far %c beat %" PRIu64 ": ", 'A' + channel, board->far[channel].came);
    tl_board_say_head(&line, channel, &first);
    tl_board_say(&line, ": expected but missing");
    if (count > 1) tl_board_say(&line, "; %" PRIu64 " more are missing", count - 1);
    tl_board_differs(board, channel, board->now, line.text);
}

static void not_due(tl_scoreboard *board, int channel) {
    board_queue *far = &board->far[channel];
    if (far->count == 0) return;
    board_entry *front = tl_board_queue_front(far);
    board_line line = {.length = 0};
    tl_board_say(&line, "far %c beat %" PRIu64 ": ", 'A' + channel, front->number);
    tl_board_say_head(&line, channel, &front->beat);
    tl_board_say(&line, ": unexpected");
    if (far->count > 1) tl_board_say(&line, "; %zu more are unexpected", far->count - 1);
    tl_board_differs(board, channel, front->time, line.text);
}

/* Reports the first near beat that the bridge has not accepted at the end. */
static void waits(tl_scoreboard *board, int channel) {
    board_queue *near = &board->near[channel];
    board_entry *front = tl_board_queue_front(near);
    board_line line = {.length = 0};
    tl_board_say(&line, "near %c beat %" PRIu64 ": ", 'A' + channel, front->number);
    tl_board_say_head(&line, channel, &front->beat);
    tl_board_say(&line, ": waits: ");
    tl_board_say_fault(&line, board, tlbridge_offer_on(board->bridge, channel, &front->beat, front->lanes));
    if (near->count > 1) tl_board_say(&line, "; %zu more wait after it", near->count - 1);
    tl_board_differs(board, channel, front->time, line.text);
}

/* Skips each message that the bridge has not accepted, so that the messages after it are judged. */
static void pass_over_waiting(tl_scoreboard *board) {
    for (int channel = 0; channel < TL_CHANNELS && !board->is_dead;) {
        board_queue *near = &board->near[channel];
        if (near->count == 0 || board->messages[channel].fill > 0) {
            channel++;
            continue;
        }
        waits(board, channel);
        leave_out(board, channel, tl_board_queue_front(near));
        tl_board_queue_drop(near);
        advance(board);
        channel = 0;
    }
}

static void is_cut(tl_scoreboard *board, int channel) {
    if (board->is_dead || board->near[channel].count != 0) return;
    if (tlbridge_close_on(board->bridge, channel) != TL_MID_BURST) return;
    board_line line = {.length = 0};
    tl_board_say(&line, "near %c: the last message is incomplete", 'A' + channel);
    tl_board_differs(board, channel, board->now, line.text);
}

static void open_requests(tl_scoreboard *board) {
    const board_view *view = &board->views[TL_CLIENT_LINK];
    unsigned count = 0;
    for (unsigned source = 0; source < SOURCES; source++) {
        if (view->open[source] <= 0 || board->refused[source] || ++count > MOST_LINES) continue;
        board_line line = {.length = 0};
        tl_board_say(&line, "outstanding: near A beat %" PRIu64 ", source %04x, has no response", view->number[source], source);
        tl_board_add_line(board, view->time[source], line.text);
    }
    if (count <= MOST_LINES) return;
    board_line line = {.length = 0};
    tl_board_say(&line, "outstanding: %u more requests have no response", count - MOST_LINES);
    tl_board_add_line(board, board->now, line.text);
}

/* Returns whether no beat came, although some should have. */
static bool is_vacuous(const tl_scoreboard *board) {
    return tl_scoreboard_beats(board) == 0 && !(board->flags & TL_ALLOW_NO_BEATS);
}

uint64_t tl_scoreboard_finish(tl_scoreboard *board) {
    if (board == NULL) return 0;
    if (!board->ended) {
        tl_board_end_cycle(board);
        pass_over_waiting(board);
        for (int channel = 0; channel < TL_CHANNELS; channel++) {
            not_due(board, channel);
            is_cut(board, channel);
        }
        for (int channel = 0; channel < TL_CHANNELS; channel++) not_come(board, channel);
        open_requests(board);
        if (is_vacuous(board)) tl_board_add_line(board, board->now, "no beat was accepted on either link, so nothing was compared");
        if (board->no_memory) tl_board_add_line(board, board->now, "out of memory: some beats or messages are missing from this report");
        board->ended = true;
    }
    return tl_scoreboard_differences(board);
}

uint64_t tl_scoreboard_differences(const tl_scoreboard *board) {
    uint64_t sum = 0;
    if (board == NULL) return 0;
    for (int channel = 0; channel < TL_CHANNELS; channel++) sum += board->differ[channel];
    return sum + board->no_memory + (board->ended && is_vacuous(board));
}

const char *tl_scoreboard_next_message(tl_scoreboard *board, uint64_t *time) {
    if (board == NULL || board->text_read == board->text_bytes) return NULL;
    const char *line = board->text + board->text_read;
    memcpy(time, line, sizeof *time);
    line += sizeof *time;
    board->text_read += sizeof *time + strlen(line) + 1;
    return line;
}

/* ---- Opening and freeing */

static bool make_parts(tl_scoreboard *board) {
    board->homes = calloc(SOURCES, sizeof *board->homes);
    board->sizes = calloc(SOURCES, sizeof *board->sizes);
    board->refused = calloc(SOURCES, sizeof *board->refused);
    bool made = board->homes != NULL && board->sizes != NULL && board->refused != NULL && board->bridge->calls->open(&board->bridge->client, &board->bridge->manager, TL_MAX_RING) == TL_OK;
    for (int link = 0; link < 2; link++) {
        board_view *view = &board->views[link];
        view->open = calloc(SOURCES, 1);
        view->number = calloc(SOURCES, sizeof *view->number);
        view->time = calloc(SOURCES, sizeof *view->time);
        made = made && view->open != NULL && view->number != NULL && view->time != NULL;
    }
    return made;
}

tl_scoreboard *tl_scoreboard_open(unsigned client, unsigned manager, unsigned flags) {
    const tlbridge_pair_calls *calls = tlbridge_pair_of(client, manager);
    if (calls == NULL) return NULL;
    tl_scoreboard *board = calloc(1, sizeof *board);
    if (board == NULL) return NULL;
    board->bridge = calloc(1, sizeof *board->bridge);
    board->widths[TL_CLIENT_LINK] = client;
    board->widths[TL_MANAGER_LINK] = manager;
    for (int link = 0; link < 2; link++)
        while (1U << board->powers[link] < board->widths[link]) board->powers[link]++;
    board->status_text = calls->text;
    board->flags = flags;
    if (board->bridge != NULL) board->bridge->calls = calls;
    if (board->bridge != NULL && make_parts(board)) return board;
    tl_scoreboard_free(board);
    return NULL;
}

void tl_scoreboard_free(tl_scoreboard *board) {
    if (board == NULL) return;
    if (!board->ended && tl_scoreboard_beats(board) > 0)
        (void)fprintf(stderr, "tlbridge scoreboard: freed without tl_scoreboard_finish, so missing beats were not reported: %" PRIu64 " differences in %" PRIu64
                " beats so far\n", tl_scoreboard_differences(board), tl_scoreboard_beats(board));
    if (board->bridge != NULL) board->bridge->calls->free(&board->bridge->client, &board->bridge->manager);
    free(board->bridge);
    free(board->homes);
    free(board->sizes);
    free(board->refused);
    free(board->held.entries);
    for (int link = 0; link < 2; link++) {
        free(board->views[link].open);
        free(board->views[link].number);
        free(board->views[link].time);
    }
    for (int channel = 0; channel < TL_CHANNELS; channel++) {
        free(board->near[channel].entries);
        free(board->far[channel].entries);
        free(board->due[channel].entries);
    }
    free(board->text);
    free(board);
}

/* ---- For SystemVerilog, over DPI-C. A mask has one bit for each lane and data eight, in words of 32 bits, lane 0 lowest. A time is a real,
 * which each simulator prints in its own format; the scoreboard keeps its bits. */

void *tlbridge_scoreboard_open(uint32_t client, uint32_t manager, uint8_t flags) {
    return tl_scoreboard_open(client, manager, flags);
}

void tlbridge_scoreboard_free(void *board) {
    tl_scoreboard_free(board);
}

const char *tlbridge_scoreboard_pairs(void) {
    return tl_scoreboard_pairs();
}

static uint64_t bits_of(double time) {
    uint64_t bits;
    memcpy(&bits, &time, sizeof bits);
    return bits;
}

void tlbridge_scoreboard_beat(void *board, uint8_t link, uint8_t channel, double time, uint8_t opcode, uint8_t param, uint8_t size, uint16_t source,
                         uint16_t sink, uint64_t address, uint8_t denied, uint8_t corrupt, const uint32_t *mask, const uint32_t *data) {
    tl_beat beat = {0};
    uint8_t lanes[TL_MAX_LANES];
    beat.address = address;
    beat.mask = mask[0] | (uint64_t)mask[1] << 32;
    beat.source = source;
    beat.sink = sink;
    beat.opcode = opcode;
    beat.param = param;
    beat.size = size;
    beat.denied = denied;
    beat.corrupt = corrupt;
    beat.mask_high = mask[2] | (uint64_t)mask[3] << 32;
    for (int lane = 0; lane < TL_MAX_LANES; lane++) lanes[lane] = (uint8_t)(data[lane / 4] >> (8 * (lane % 4)));
    tl_scoreboard_beat(board, link, (char)channel, bits_of(time), &beat, lanes);
}

const char *tlbridge_scoreboard_next_message(void *board, double *time) {
    uint64_t bits = 0;
    const char *line = tl_scoreboard_next_message(board, &bits);
    memcpy(time, &bits, sizeof bits);
    return line == NULL ? "" : line;
}

void tlbridge_scoreboard_reset(void *board, uint8_t link, uint8_t asserted, double time) {
    tl_scoreboard_reset(board, link, asserted != 0, bits_of(time));
}

uint64_t tlbridge_scoreboard_beats(void *board) {
    return tl_scoreboard_beats(board);
}

uint64_t tlbridge_scoreboard_differences(void *board) {
    return tl_scoreboard_differences(board);
}

uint64_t tlbridge_scoreboard_finish(void *board) {
    return tl_scoreboard_finish(board);
}
