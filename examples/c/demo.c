/* A PutFullData of 16 bytes from a client of 8 lanes to a manager of 4, and its response. */
#include "tlbridge.h"
#include <inttypes.h>
#include <stdio.h>
#if defined(TLBRIDGE_PAIRS_ARE_KNOWN) && !defined(TLBRIDGE_8_4)
#error "the library has no pair 8:4, which this example needs: make install PAIRS=8:4"
#endif
TLBRIDGE(8, 4)

int main(void) {
    uint8_t near[8], far[4];
    tl_standings waiting;
    tl_8_4_client client = {0};
    tl_8_4_manager manager = {0};
    if (tl_8_4_open(&client, &manager, 16, 0) != TL_OK) return 1;
    tl_beat put = {.address = 0x80, .mask = 0xff, .source = 7, .opcode = 0, .size = 4}, got;
    for (int beat = 0; beat < 2; beat++) {
        for (int i = 0; i < 8; i++) near[i] = (uint8_t)(8 * beat + i);
        if (tl_8_4_offer_a(&client, &put, near) != TL_OK || tl_8_4_settle(&client, &manager, &waiting) != TL_OK) return 1;
        while (tl_8_4_take_a(&manager, &got, far))
            printf("address %" PRIx64 " mask %" PRIx64 " data %02x%02x%02x%02x\n", got.address, got.mask, far[3], far[2], far[1], far[0]);
    }
    tl_text text;
    uint8_t fault = tl_8_4_offer_a(&client, &put, near);
    tl_8_4_status_text(fault, &text);
    printf("the same source again: %d %s: %s\n", fault, text.name, text.sentence);

    /* the response; then nothing may be left anywhere */
    tl_beat ack = {.source = 7, .opcode = 0, .size = 4};
    if (tl_8_4_offer_d(&manager, &ack, far) != TL_OK || tl_8_4_settle(&client, &manager, &waiting) != TL_OK) return 1;
    if (tl_8_4_take_d(&client, &got, near)) printf("the client gets AccessAck of source %d\n", got.source);
    if (tl_8_4_settle(&client, &manager, &waiting) != TL_OK) return 1;
    printf("all beats were taken: %s\n", tl_drained(&waiting) ? "yes" : "no");
    tl_8_4_free_client(&client);
    tl_8_4_free_manager(&manager);
    return 0;
}
