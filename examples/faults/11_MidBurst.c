/* A caller closes channel A after the first of two beats of a burst: refused, and A stays open for the second.
 *
 *     tools/make-library 8 4
 *     cc -Iinclude examples/faults/11_MidBurst.c out/libtlbridge_8_4.a && ./a.out
 */
#include "tlbridge.h"
#include <stdio.h>
TLBRIDGE(8, 4)

int main(void) {
    tl_8_4_client client = {0};
    tl_8_4_manager manager = {0};
    if (tl_8_4_open(&client, &manager, 16, 0) != TL_OK) return 1;
    tl_beat put = {.address = 0x80, .mask = 0xff, .source = 7, .opcode = 0, .size = 4};
    uint8_t lanes[8] = {0, 1, 2, 3, 4, 5, 6, 7}, far[4];
    tl_beat got;
    tl_standings waiting;
    for (int beat = 1; beat <= 2; beat++) {
        if (tl_8_4_offer_a(&client, &put, lanes) != TL_OK) return 1;
        tl_text text;
        uint8_t fault = tl_8_4_close_a(&client);
        if (fault == TL_OK) {
            printf("closed after beat %d of 2\n", beat);
        } else {
            tl_8_4_status_text(fault, &text);
            printf("not closed after beat %d of 2: %d %s: the burst has beats left\n", beat, fault, text.name);
        }
        if (tl_8_4_settle(&client, &manager, &waiting) != TL_OK) return 1;
        while (tl_8_4_take_a(&manager, &got, far)) {}
    }
    tl_8_4_free_client(&client);
    tl_8_4_free_manager(&manager);
    return 0;
}
