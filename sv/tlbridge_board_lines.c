/* The queues of beats, and the lines of the report. */
#include "tlbridge_board.h"
#include <inttypes.h>
#include <stdarg.h>
#include <stdio.h>
#include <stdlib.h>
#include <string.h>

/* ---- Queues */

board_entry *tl_board_queue_front(board_queue *queue) {
    return queue->count == 0 ? NULL : &queue->entries[queue->first];
}

void tl_board_queue_drop(board_queue *queue) {
    queue->first = (queue->first + 1) & (queue->capacity - 1);
    queue->count--;
}

void *tl_board_grown(void *entries, size_t size, size_t *capacity, size_t first, size_t count) {
    size_t more = *capacity == 0 ? 64 : 2 * *capacity;
    char *copy = malloc(more * size);
    if (copy == NULL) return NULL;
    for (size_t i = 0; i < count; i++) memcpy(copy + i * size, (const char *)entries + ((first + i) & (*capacity - 1)) * size, size);
    free(entries);
    *capacity = more;
    return copy;
}

static bool queue_grow(board_queue *queue) {
    board_entry *entries = tl_board_grown(queue->entries, sizeof *entries, &queue->capacity, queue->first, queue->count);
    if (entries == NULL) return false;
    queue->entries = entries;
    queue->first = 0;
    return true;
}

board_entry *tl_board_queue_add(board_queue *queue, uint64_t time, const tl_beat *beat, const uint8_t *lanes, unsigned width) {
    if (queue->count == queue->capacity && !queue_grow(queue)) return NULL;
    board_entry *added = &queue->entries[(queue->first + queue->count) & (queue->capacity - 1)];
    queue->count++;
    added->beat = *beat;
    added->time = time;
    added->channel = 0;
    added->was_refused = false;
    added->number = queue->came++;
    if (lanes == NULL) memset(added->lanes, 0, width);
    else memcpy(added->lanes, lanes, width);
    return added;
}

/* ---- Lines */

void tl_board_add_line(tl_scoreboard *board, uint64_t time, const char *line) {
    size_t bytes = sizeof time + strlen(line) + 1;
    if (board->text_read == board->text_bytes) board->text_read = board->text_bytes = 0;
    if (board->text_bytes + bytes > board->text_room) {
        size_t room = 2 * (board->text_bytes + bytes);
        char *text = realloc(board->text, room);
        if (text == NULL) {
            board->no_memory = true;
            return;
        }
        board->text = text;
        board->text_room = room;
    }
    memcpy(board->text + board->text_bytes, &time, sizeof time);
    memcpy(board->text + board->text_bytes + sizeof time, line, bytes - sizeof time);
    board->text_bytes += bytes;
}

void tl_board_differs(tl_scoreboard *board, int channel, uint64_t time, const char *line) {
    board->differ[channel]++;
    if (board->differ[channel] <= MOST_LINES) tl_board_add_line(board, time, line);
    if (board->differ[channel] == MOST_LINES) {
        char more[64];
        (void)snprintf(more, sizeof more, "further differences on %c are only counted", 'A' + channel);
        tl_board_add_line(board, time, more);
    }
}

void tl_board_say(board_line *line, const char *format, ...) {
    va_list arguments;
    va_start(arguments, format);
    int more = vsnprintf(line->text + line->length, LINE_BYTES - line->length, format, arguments);
    va_end(arguments);
    if (more > 0) line->length += (size_t)more;
    if (line->length >= LINE_BYTES) line->length = LINE_BYTES - 1;
}

void tl_board_say_head(board_line *line, int channel, const tl_beat *beat) {
    if (channel == TL_E) {
        tl_board_say(line, "sink %04x", beat->sink);
        return;
    }
    tl_board_say(line, "opcode %u, size %u, source %04x", beat->opcode, beat->size, beat->source);
    if (channel == TL_D) tl_board_say(line, ", sink %04x", beat->sink);
    else tl_board_say(line, ", address %" PRIx64, beat->address);
}

void tl_board_say_fault(board_line *line, const tl_scoreboard *board, uint8_t status) {
    tl_text text = {.name = {0}};
    board->status_text(status, &text);
    tl_board_say(line, "%u %s: %s", status, text.name, text.sentence);
}
