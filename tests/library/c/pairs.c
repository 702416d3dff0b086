/* Two libraries in one program: what comes out of a bridge from 8 to 4 bytes goes into one from 4 to 8, and comes out as it was. */
#include "tlbridge.h"
#include <stdio.h>
#include <string.h>

TLBRIDGE(8, 4)
TLBRIDGE(4, 8)

int main(void) {
    tl_8_4_client from = {0};
    tl_8_4_manager middle = {0};
    tl_4_8_client middle_again = {0};
    tl_4_8_manager to = {0};
    if (tl_8_4_open(&from, &middle, 4, 1) || tl_4_8_open(&middle_again, &to, 4, 2)) return 2;
    /* ReleaseData of 4,096 bytes */
    tl_beat sent = {.address = 0x8000, .source = 0x0103, .opcode = 7, .size = 12}, half, got;
    uint8_t lanes[8], half_lanes[4], got_lanes[8];
    tl_standings narrowed, widened;
    long same = 0, other = 0;
    for (int beat = 0; beat < 512; beat++) {
        for (int i = 0; i < 8; i++) lanes[i] = (uint8_t)(31 * beat + i);
        sent.corrupt = beat % 3 == 0;
        if (tl_8_4_offer_c(&from, &sent, lanes) || tl_8_4_settle(&from, &middle, &narrowed)) return 2;
        while (tl_8_4_take_c(&middle, &half, half_lanes))
            if (tl_4_8_offer_c(&middle_again, &half, half_lanes) || tl_4_8_settle(&middle_again, &to, &widened)) return 2;
        while (tl_4_8_take_c(&to, &got, got_lanes))
            if (memcmp(lanes, got_lanes, 8) == 0 && got.corrupt == sent.corrupt && got.address == sent.address && got.source == sent.source)
                same++;
            else
                other++;
    }
    bool drained = tl_8_4_meet(&from, &middle, &narrowed) == TL_OK && tl_4_8_meet(&middle_again, &to, &widened) == TL_OK && tl_drained(&narrowed) &&
                   tl_drained(&widened);
    tl_8_4_free_client(&from);
    tl_8_4_free_manager(&middle);
    tl_4_8_free_client(&middle_again);
    tl_4_8_free_manager(&to);
    printf("two libraries in one program: %ld checks passed, %ld failed\n", same + drained, other + !drained + (512 - same - other));
    return !(same == 512 && other == 0 && drained);
}
