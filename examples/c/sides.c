/* A Get of 16 bytes and its answer between two threads: a client of 8 lanes in one, a manager of 4 in the other. */
#include "tlbridge.h"
#include <pthread.h>
#include <stdio.h>
#if defined(TLBRIDGE_PAIRS_ARE_KNOWN) && !defined(TLBRIDGE_8_4)
#error "the library has no pair 8:4, which this example needs: make install PAIRS=8:4"
#endif
TLBRIDGE(8, 4)

/* The manager's side, and its receipt once it has sent everything. */
typedef struct {
    tl_8_4_manager side;
    tl_totals receipt;
} managing;

/* The manager's thread: takes the request, answers it with four beats, and leaves a receipt. */
static void *manage(void *argument) {
    managing *at = (managing *)argument;
    tl_beat get;
    uint8_t lanes[4];
    while (!tl_8_4_take_a(&at->side, &get, lanes)) tl_8_4_fetch_manager(&at->side);
    tl_beat answer = {.source = get.source, .opcode = 1, .size = get.size};
    for (int beat = 0; beat < 4; beat++) {
        for (int i = 0; i < 4; i++) lanes[i] = (uint8_t)(4 * beat + i);
        while (tl_8_4_offer_d(&at->side, &answer, lanes) == TL_NOT_READY) tl_8_4_pump_manager(&at->side);
    }
    if (tl_8_4_close_b(&at->side) != TL_OK || tl_8_4_close_d(&at->side) != TL_OK) return NULL;
    while (tl_8_4_finish_manager(&at->side, &at->receipt) == TL_NOT_SENT) tl_8_4_pump_manager(&at->side);
    return NULL;
}

int main(void) {
    tl_8_4_client client = {0};
    managing manager = {0};
    pthread_t thread;
    if (tl_8_4_open(&client, &manager.side, 16, 0) != TL_OK || pthread_create(&thread, NULL, manage, &manager) != 0) return 1;
    tl_beat get = {.address = 0x80, .mask = 0xff, .source = 0x107, .opcode = 4, .size = 4}, data;
    uint8_t lanes[8] = {0};
    if (tl_8_4_offer_a(&client, &get, lanes) != TL_OK) return 1;
    while (tl_8_4_pump_client(&client) == 0) {}
    for (int beat = 0; beat < 2; beat++) {
        while (!tl_8_4_take_d(&client, &data, lanes)) tl_8_4_fetch_client(&client);
        printf("source %x data ", data.source);
        for (int i = 7; i >= 0; i--) printf("%02x", lanes[i]);
        printf("\n");
    }
    if (pthread_join(thread, NULL) != 0) return 1;

    /* the receipt says how many beats the manager's side has sent */
    tl_totals taken;
    if (tl_8_4_count_client(&client, &taken) != TL_OK) return 1;
    printf("taken on D: %d of %d beats\n", (int)taken.d, (int)manager.receipt.d);
    printf("all was taken: %s\n", tl_8_4_drained_client(&client, &manager.receipt) == TL_OK ? "yes" : "no");
    tl_8_4_free_client(&client);
    tl_8_4_free_manager(&manager.side);
    return 0;
}
