/* The heads of beats, and the rules of one link: sources that are used too early, and responses without a request. */
#include "tlbridge_board.h"
#include <inttypes.h>

/* ---- Heads */

uint32_t tl_board_beats(int channel, const tl_beat *beat, unsigned width) {
    uint32_t bytes = (uint32_t)1 << (beat->size & 15);
    return tl_board_carries(channel, beat) && bytes > width ? bytes / width : 1;
}

/* Returns the number of fields in which two heads differ. */
static int differing(int channel, const tl_beat *one, const tl_beat *other) {
    if (channel == TL_E) return one->sink != other->sink;
    int count = (one->opcode != other->opcode) + (one->param != other->param) + (one->size != other->size) + (one->source != other->source);
    if (channel == TL_D) return count + (one->sink != other->sink) + (!one->denied != !other->denied);
    return count + (one->address != other->address);
}

bool tl_board_same_head(int channel, const tl_beat *one, const tl_beat *other) {
    return differing(channel, one, other) == 0;
}

/* At most one field differs, or, on A and D, they have
 * the same source, which has no other message under way. */
bool tl_board_is_alike(int channel, const tl_beat *one, const tl_beat *other) {
    return differing(channel, one, other) <= 1 || ((channel == TL_A || channel == TL_D) && one->source == other->source);
}

bool tl_board_has_count(int channel, const tl_beat *head) {
    bool is_message = channel == TL_C ? head->opcode != 3 : channel != TL_D || (head->opcode != 3 && head->opcode != 7);
    return is_message && head->opcode < 8 && head->size <= MOST_SIZE;
}

bool tl_board_is_active(unsigned lane, uint64_t home, unsigned size, unsigned width) {
    return ((lane ^ home) & (width - 1)) >> size == 0;
}

/* ---- Rules of one link */

void tl_board_end_cycle(tl_scoreboard *board) {
    for (int link = 0; link < 2; link++) {
        board_suspect *seen = &board->suspects[link];
        if (!seen->there) continue;
        seen->there = false;
        int channel = link == TL_CLIENT_LINK ? TL_A : TL_D;
        int8_t open = board->views[link].open[seen->source];
        if (channel == TL_A ? open <= 1 : open >= 0) continue;
        board_line line = {.length = 0};
        tl_board_say(&line, "near %c beat %" PRIu64 ": source %04x: ", 'A' + channel, seen->number, seen->source);
        tl_board_say_fault(&line, board, channel == TL_A ? TL_SOURCE_BUSY : TL_NO_REQUEST);
        tl_board_differs(board, channel, seen->time, line.text);
    }
}

void tl_board_view_beat(tl_scoreboard *board, int link, int channel, const board_entry *came) {
    board_view *view = &board->views[link];
    uint32_t *left = &view->left[channel];
    if (channel != TL_A && channel != TL_D) return;
    const tl_beat *head = &view->heads[channel];
    bool continues = tl_board_has_count(channel, head) ? tl_board_is_alike(channel, &came->beat, head) : tl_board_same_head(channel, &came->beat, head);
    bool begins = *left == 0 || !continues;
    if (begins) {
        *left = tl_board_has_count(channel, &came->beat) ? tl_board_beats(channel, &came->beat, tl_board_width(board, link)) : UINT32_MAX;
        view->heads[channel] = came->beat;
    }
    --*left;
    tl_id source = came->beat.source;
    if (!begins || (channel == TL_D && came->beat.opcode == RELEASE_ACK)) return;
    if (channel == TL_A && view->open[source] < INT8_MAX) view->open[source]++;
    if (channel == TL_D && view->open[source] > INT8_MIN) view->open[source]--;
    if (channel == TL_A) {
        if (link == TL_CLIENT_LINK) board->refused[source] = false;
        view->number[source] = came->number;
        view->time[source] = came->time;
    }
    if (link == tl_board_near_link(channel)) board->suspects[link] = (board_suspect){true, source, came->time, came->number};
}
