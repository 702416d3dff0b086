/* Times the scoreboard, and the calls of the library alone, on beats that bench/scoreboard wrote. Prints the nanoseconds of processor time
 * for each beat of both.
 *
 *     PROGRAM FILE CLIENT MANAGER PASSES
 */
#include "tlbridge_calls.h"
#include "tlbridge_scoreboard.h"
#include <stdio.h>
#include <stdlib.h>
#include <string.h>
#include <time.h>

typedef struct {
    tl_beat beat;
    uint8_t link, channel, lanes[TL_MAX_LANES];
} record;

static double now(void) {
    struct timespec at;
    clock_gettime(CLOCK_PROCESS_CPUTIME_ID, &at);
    return 1e9 * (double)at.tv_sec + (double)at.tv_nsec;
}

static record *read_records(const char *path, size_t *count) {
    FILE *file = fopen(path, "rb");
    if (file == NULL || fseek(file, 0, SEEK_END) != 0) exit(3);
    *count = (size_t)ftell(file) / sizeof(record);
    if (fseek(file, 0, SEEK_SET) != 0) exit(3);
    record *records = malloc(*count * sizeof *records);
    if (records == NULL || fread(records, sizeof *records, *count, file) != *count) exit(3);
    (void)fclose(file);
    return records;
}

/* Passes all beats to a scoreboard. Returns the number of differences. */
static uint64_t judge(const record *records, size_t count, unsigned client, unsigned manager) {
    tl_scoreboard *board = tl_scoreboard_open(client, manager, 0);
    for (size_t i = 0; i < count; i++) tl_scoreboard_beat(board, records[i].link, (char)('A' + records[i].channel), 10 * i, &records[i].beat, records[i].lanes);
    uint64_t differences = tl_scoreboard_finish(board);
    tl_scoreboard_free(board);
    return differences;
}

/* Offers each near beat, moves it, and takes each far beat. Returns the number of calls that failed. */
static uint64_t pass(const record *records, size_t count, tlbridge_sides *bridge) {
    uint64_t failures = 0;
    tl_standings all;
    tl_beat beat;
    uint8_t lanes[TL_MAX_LANES];
    for (size_t i = 0; i < count; i++) {
        int channel = records[i].channel;
        if (tlbridge_from_client(channel) == (records[i].link == TL_CLIENT_LINK)) {
            failures += tlbridge_offer_on(bridge, channel, &records[i].beat, records[i].lanes) != TL_OK;
            bridge->calls->settle(&bridge->client, &bridge->manager, &all);
        } else {
            failures += !tlbridge_take_on(bridge, channel, &beat, lanes);
        }
    }
    return failures;
}

int main(int count_of_words, char **words) {
    if (count_of_words != 5) return 2;
    size_t count;
    record *records = read_records(words[1], &count);
    unsigned client = (unsigned)strtoul(words[2], NULL, 10), manager = (unsigned)strtoul(words[3], NULL, 10);
    double best_board = 1e18, best_direct = 1e18;
    for (long i = strtol(words[4], NULL, 10); i > 0; i--) {
        double begun = now();
        if (judge(records, count, client, manager) != 0) return 1;
        double spent = now() - begun;
        if (spent < best_board) best_board = spent;
        tlbridge_sides bridge = {.calls = tlbridge_pair_of(client, manager)};
        if (bridge.calls == NULL || bridge.calls->open(&bridge.client, &bridge.manager, TL_MAX_RING) != TL_OK) return 4;
        begun = now();
        if (pass(records, count, &bridge) != 0) return 1;
        spent = now() - begun;
        if (spent < best_direct) best_direct = spent;
        bridge.calls->free(&bridge.client, &bridge.manager);
    }
    printf("%u:%u, %zu beats on both links: scoreboard %.0f ns, library alone %.0f ns\n", client, manager, count, best_board / (double)count,
           best_direct / (double)count);
    free(records);
    return 0;
}
