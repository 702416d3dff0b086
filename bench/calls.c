/* Times the calls of the C library for one pair of widths, by the processor's time: bench/calls makes and runs it. */
#include "tlbridge.h"
#include <stdio.h>
#include <stdlib.h>
#include <time.h>

TLBRIDGE(8, 4)

enum { BEATS = 1000000, ROUNDS = 9, RING = 16 };

static tl_8_4_client client;
static tl_8_4_manager manager;
static tl_standings standings;
static tl_beat got;
static uint8_t near[8], far[4];

static double seconds(void) {
    struct timespec now;
    clock_gettime(CLOCK_PROCESS_CPUTIME_ID, &now);
    return (double)now.tv_sec + 1e-9 * (double)now.tv_nsec;
}

static void expect(bool is_so) {
    if (!is_so) {
        (void)fputs("a call has another result\n", stderr);
        exit(1);
    }
}

/* ReleaseData of 4,096 bytes, beat by beat: an offer, a pump, a fetch and two takes. Returns the number of near beats. */
static int releases(void) {
    tl_beat release = {.opcode = 7, .size = 12};
    for (int i = 0; i < BEATS / 512 * 512; i++) {
        expect(tl_8_4_offer_c(&client, &release, near) == TL_OK);
        tl_8_4_pump_client(&client);
        tl_8_4_fetch_manager(&manager);
        for (int half = 0; half < 2; half++) expect(tl_8_4_take_c(&manager, &got, far));
    }
    return BEATS / 512 * 512;
}

/* Gets and their responses: two beats, two settles and two takes. */
static int reads(void) {
    for (int i = 0; i < BEATS / 2; i++) {
        tl_beat get = {.mask = 0x0f, .source = (tl_id)(i & 0xff), .opcode = 4, .size = 2};
        tl_beat data = {.source = get.source, .opcode = 1, .size = 2};
        expect(tl_8_4_offer_a(&client, &get, near) == TL_OK && tl_8_4_settle(&client, &manager, &standings) == TL_OK);
        expect(tl_8_4_take_a(&manager, &got, far) && tl_8_4_offer_d(&manager, &data, far) == TL_OK);
        expect(tl_8_4_settle(&client, &manager, &standings) == TL_OK && tl_8_4_take_d(&client, &got, near));
    }
    return BEATS / 2 * 2;
}

/* The same without settle: pump and fetch of each side. */
static int reads_by_hand(void) {
    for (int i = 0; i < BEATS / 2; i++) {
        tl_beat get = {.mask = 0x0f, .source = (tl_id)(i & 0xff), .opcode = 4, .size = 2};
        tl_beat data = {.source = get.source, .opcode = 1, .size = 2};
        expect(tl_8_4_offer_a(&client, &get, near) == TL_OK);
        tl_8_4_pump_client(&client);
        tl_8_4_fetch_manager(&manager);
        expect(tl_8_4_take_a(&manager, &got, far) && tl_8_4_offer_d(&manager, &data, far) == TL_OK);
        tl_8_4_pump_manager(&manager);
        tl_8_4_fetch_client(&client);
        expect(tl_8_4_take_d(&client, &got, near));
    }
    return BEATS / 2 * 2;
}

static void time_calls(const char *name, int (*calls)(void)) {
    double best = 1e9;
    int beats = 0;
    for (int round = 0; round < ROUNDS; round++) {
        expect(tl_8_4_open(&client, &manager, RING, 0) == TL_OK);
        double begin = seconds();
        beats = calls();
        double took = seconds() - begin;
        if (took < best) best = took;
    }
    printf("%-44s %6.0f ns\n", name, 1e9 * best / beats);
}

int main(void) {
    printf("processor time for each near beat, 8 to 4, the best of %d rounds\n", ROUNDS);
    time_calls("C: offer, pump, fetch, two takes", releases);
    time_calls("A and D: offer, pump, fetch, take", reads_by_hand);
    time_calls("A and D: offer, settle, take", reads);
    tl_8_4_free_client(&client);
    tl_8_4_free_manager(&manager);
    return 0;
}
