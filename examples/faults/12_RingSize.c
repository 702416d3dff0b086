/* A caller asks for rings of 0, 1, 4,096 and 4,097 beats: a ring holds 1 to 4,096.
 *
 *     tools/make-library 8 4
 *     cc -Iinclude examples/faults/12_RingSize.c out/libtlbridge_8_4.a && ./a.out
 */
#include "tlbridge.h"
#include <stdio.h>
TLBRIDGE(8, 4)

int main(void) {
    const size_t rings[] = {0, 1, TL_MAX_RING, TL_MAX_RING + 1};
    for (int i = 0; i < 4; i++) {
        tl_8_4_client client = {0};
        tl_8_4_manager manager = {0};
        tl_text text;
        uint8_t fault = tl_8_4_open(&client, &manager, rings[i], 0);
        if (fault == TL_OK) {
            printf("a ring of %zu beats: opened\n", rings[i]);
        } else {
            tl_8_4_status_text(fault, &text);
            printf("a ring of %zu beats: %d %s: a ring holds 1 to %d\n", rings[i], fault, text.name, TL_MAX_RING);
        }
        tl_8_4_free_client(&client);
        tl_8_4_free_manager(&manager);
    }
    return 0;
}
