/* A scoreboard that runs out of memory at each point: each allocation fails in turn, and then each one from there on. No call may crash, a board that could
 * not note a beat or a line has a difference, also over lawful traffic, and says so at its end, and all memory is given back. Link with --wrap=malloc, calloc, realloc, free. */
#include "tlbridge_scoreboard.h"
#include <stdio.h>
#include <stdlib.h>
#include <string.h>

void *__real_malloc(size_t);
void *__real_calloc(size_t, size_t);
void *__real_realloc(void *, size_t);
void __real_free(void *);

static long asked, refused_from, refused_to, held;
static size_t largest; /* block that grew */
static bool is_said;   /* a line says that memory ran out */

static bool is_refused(void) {
    asked++;
    return asked >= refused_from && asked < refused_to;
}

static void *counted(void *block) {
    held += block != NULL;
    return block;
}

void *__wrap_malloc(size_t bytes) {
    return is_refused() ? NULL : counted(__real_malloc(bytes));
}

void *__wrap_calloc(size_t count, size_t bytes) {
    return is_refused() ? NULL : counted(__real_calloc(count, bytes));
}

void *__wrap_realloc(void *block, size_t bytes) {
    if (is_refused()) return NULL;
    if (bytes > largest) largest = bytes;
    return block == NULL ? counted(__real_malloc(bytes)) : __real_realloc(block, bytes);
}

void __wrap_free(void *block) {
    held -= block != NULL;
    __real_free(block);
}

static unsigned read_lines(tl_scoreboard *board) {
    uint64_t at;
    unsigned count = 0;
    for (const char *line; (line = tl_scoreboard_next_message(board, &at)) != NULL; count++)
        if (strlen(line) == 0) abort();
        else if (strcmp(line, "out of memory: some beats or messages are missing from this report") == 0) is_said = true;
    return count;
}

/* Hundreds of beats, far ones first, some of them wrong unless the traffic is lawful; a refused one; a reset of one link with beats of the other; and an end. */
static void beats(tl_scoreboard *board, bool is_lawful) {
    uint8_t lanes[TL_MAX_LANES] = {0};
    for (unsigned i = 0; i < 300; i++) {
        tl_beat ack = {.sink = (tl_id)i};
        tl_scoreboard_beat(board, TL_MANAGER_LINK, 'E', i, &ack, NULL);
    }
    for (unsigned i = 0; i < 300; i++) {
        tl_beat ack = {.sink = (tl_id)(i % 30 == 0 && !is_lawful ? i + 1 : i)};
        tl_scoreboard_beat(board, TL_CLIENT_LINK, 'E', 1000 + i, &ack, NULL);
    }
    for (unsigned i = 0; i < 100; i++) {
        tl_beat release = {.opcode = 7, .size = 5, .source = 3, .address = i == 50 && !is_lawful ? 1 : 32 * (uint64_t)i};
        for (int k = 0; k < 4; k++) tl_scoreboard_beat(board, TL_CLIENT_LINK, 'C', 2000 + i, &release, lanes);
    }
    read_lines(board);
    tl_scoreboard_reset(board, TL_MANAGER_LINK, true, 3000);
    for (unsigned i = 0; i < 80; i++) {
        tl_beat get = {.opcode = 4, .size = 2, .source = (tl_id)i, .address = 8, .mask = 0xf};
        tl_scoreboard_beat(board, TL_CLIENT_LINK, 'A', 3000 + i, &get, lanes);
    }
    tl_scoreboard_reset(board, TL_MANAGER_LINK, false, 4000);
    for (unsigned i = 0; i < 80 && is_lawful; i++) {
        tl_beat get = {.opcode = 4, .size = 2, .source = (tl_id)i, .address = 8, .mask = 0xf};
        tl_scoreboard_beat(board, TL_MANAGER_LINK, 'A', 5000 + i, &get, lanes);
    }
}

/* Whether the board could be opened; `count` says how many differences it has at its end. */
static bool run(uint64_t *count, bool is_lawful) {
    tl_scoreboard *board = tl_scoreboard_open(8, 4, 0);
    is_said = false;
    if (board == NULL) return false;
    beats(board, is_lawful);
    *count = tl_scoreboard_finish(board);
    read_lines(board);
    tl_scoreboard_free(board);
    return true;
}

/* Whether lines that are read at once take no more room than a few of them, however many there are. */
static bool gives_room_back(void) {
    const tl_beat ack = {.sink = 1};
    tl_scoreboard *board = tl_scoreboard_open(8, 4, 0);
    unsigned lines = 0;
    largest = 0;
    for (unsigned i = 0; i < 200; i++) {
        tl_scoreboard_beat(board, TL_CLIENT_LINK, 'E', 3 * (uint64_t)i, &ack, NULL);
        tl_scoreboard_reset(board, TL_CLIENT_LINK, true, 3 * (uint64_t)i + 1);
        tl_scoreboard_reset(board, TL_CLIENT_LINK, false, 3 * (uint64_t)i + 2);
        lines += read_lines(board);
    }
    tl_scoreboard_finish(board);
    tl_scoreboard_free(board);
    return lines == 200 && largest < 1000;
}

/* Refuses each allocation of a run in turn. Returns the number of runs that were not as they have to be. */
static unsigned refuse_each(bool is_lawful, unsigned *passed, unsigned *opened) {
    uint64_t all = 0, some = 0;
    unsigned failed = 0;
    asked = held = refused_from = refused_to = 0;
    if (!run(&all, is_lawful) || held != 0 || is_said || is_lawful != (all == 0)) return printf("%ld blocks held without a refusal, %llu differences\n", held, (unsigned long long)all), 1;
    long allocations = asked;
    for (int from_then_on = 0; from_then_on < 2; from_then_on++)
        for (long i = 1; i <= allocations; i++) {
            asked = held = 0;
            some = 0;
            refused_from = i;
            refused_to = from_then_on ? allocations + 1000 : i + 1;
            bool is_open = run(&some, is_lawful), is_right = held == 0 && (!is_open || (some > 0 && (is_said || from_then_on)));
            *opened += is_open;
            *passed += is_right;
            failed += !is_right;
            if (!is_right) printf("allocation %ld refused: %ld blocks held, %llu differences\n", i, held, (unsigned long long)some);
        }
    refused_from = refused_to = 0;
    return failed;
}

int main(void) {
    unsigned passed = 0, opened = 0, failed = refuse_each(false, &passed, &opened) + refuse_each(true, &passed, &opened);
    if (!gives_room_back()) return printf("the room of lines that were read grew to %zu bytes\n", largest), 1;
    printf("%u passed, %u failed, %u of them opened\n", passed, failed, opened);
    return failed > 0 || opened == 0;
}
