/* Fields of one size that are in a different order in the library and in the header would show here: each has a different value.
 *
 *     tools/make-library 8 4
 *     cc -Iinclude tests/library/c/fields.c out/libtlbridge_8_4.a && ./a.out
 */
#include "tlbridge.h"
#include <stdio.h>
#include <string.h>
TLBRIDGE(8, 4)

static int passed, failed;
#define CHECK(fact) ((fact) ? passed++ : (failed++, printf("line %d: not so: %s\n", __LINE__, #fact)))

int main(void) {
    tl_8_4_client client = {0};
    tl_8_4_manager manager = {0};
    uint8_t lanes[8] = {1, 2, 3, 4, 5, 6, 7, 8}, far[8];
    tl_beat got;
    tl_standings all;
    tl_text text;
    CHECK(tl_8_4_version() == TL_VERSION);
    /* an Intent of two bytes over rings of two beats: address, mask, source, opcode, param and size */
    CHECK(tl_8_4_open(&client, &manager, 2, 0x0123456789abcdef) == TL_OK);
    CHECK(client.impl != NULL && client.is_open && client.bridge == 0x0123456789abcdef);
    CHECK(manager.impl != NULL && manager.is_open && manager.bridge == 0x0123456789abcdef);
    tl_beat intent = {.address = 0x1002, .mask = 0x0c, .source = 0x0203, .opcode = 5, .param = 1, .size = 1};
    CHECK(tl_8_4_offer_a(&client, &intent, lanes) == TL_OK && tl_8_4_settle(&client, &manager, &all) == TL_OK);
    CHECK(tl_8_4_take_a(&manager, &got, far) && memcmp(&got, &intent, sizeof got) == 0);
    /* its HintAck, which is denied, with source and sink; and a ReleaseData that is corrupt */
    tl_beat answer = {.source = 0x0203, .sink = 0x0405, .opcode = 2, .size = 1, .denied = 1};
    CHECK(tl_8_4_offer_d(&manager, &answer, lanes) == TL_OK && tl_8_4_settle(&client, &manager, &all) == TL_OK);
    CHECK(tl_8_4_take_d(&client, &got, far) && memcmp(&got, &answer, sizeof got) == 0);
    tl_beat release = {.address = 0x2000, .source = 0x0607, .opcode = 7, .param = 3, .size = 2, .corrupt = 1};
    CHECK(tl_8_4_offer_c(&client, &release, lanes) == TL_OK && tl_8_4_settle(&client, &manager, &all) == TL_OK);
    CHECK(tl_8_4_take_c(&manager, &got, far) && memcmp(&got, &release, sizeof got) == 0 && memcmp(far, lanes, 4) == 0);
    /* a different number of beats waits in each buffer: two beats of a ReleaseData of 32 bytes make four far beats, every other beat makes one */
    tl_beat wide = {.address = 0x40, .source = 0x0809, .opcode = 7, .param = 3, .size = 5}, ack = {.sink = 0x0a0b};
    tl_beat probe = {.address = 0x80, .mask = 0x0f, .source = 1, .opcode = 6, .size = 2};
    for (int i = 0; i < 2; i++) CHECK(tl_8_4_offer_c(&client, &wide, lanes) == TL_OK && tl_8_4_settle(&client, &manager, &all) == TL_OK);
    CHECK(tl_8_4_offer_e(&client, &ack, lanes) == TL_OK && tl_8_4_pump_client(&client) == 1);
    CHECK(tl_8_4_offer_e(&client, &ack, lanes) == TL_OK && tl_8_4_offer_b(&manager, &probe, lanes) == TL_OK);
    CHECK(tl_8_4_meet(&client, &manager, &all) == TL_OK);
    CHECK(all.a.staged == 0 && all.a.in_ring == 0 && all.a.inbox == 0);
    CHECK(all.b.staged == 1 && all.b.in_ring == 0 && all.b.inbox == 0);
    CHECK(all.c.staged == 0 && all.c.in_ring == 0 && all.c.inbox == 4);
    CHECK(all.d.staged == 0 && all.d.in_ring == 0 && all.d.inbox == 0);
    CHECK(all.e.staged == 1 && all.e.in_ring == 1 && all.e.inbox == 0);
    tl_8_4_status_text(TL_NOT_OPEN, &text);
    CHECK(strcmp(text.name, "NotOpen") == 0 && strcmp(text.sentence, "the handle holds no side of a bridge") == 0);
    tl_8_4_free_client(&client);
    tl_8_4_free_manager(&manager);
    CHECK(client.impl == NULL && !client.is_open && client.bridge == 0 && tl_8_4_close_a(&client) == TL_NOT_OPEN);
    printf("%d checks passed, %d failed\n", passed, failed);
    return failed > 0;
}
