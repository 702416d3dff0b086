// The header in C++: two pairs of widths, and the structures as the library has them.
#include "tlbridge.h"
#include "tlbridge.h"
#include <cstddef>
#include <cstdio>

TLBRIDGE(8, 4)
TLBRIDGE(4, 8)

static_assert(sizeof(tl_beat) == 40 && offsetof(tl_beat, mask) == 8 && offsetof(tl_beat, source) == 16 && offsetof(tl_beat, sink) == 18 &&
                  offsetof(tl_beat, opcode) == 20 && offsetof(tl_beat, corrupt) == 24 && offsetof(tl_beat, reserved) == 25 &&
                  offsetof(tl_beat, mask_high) == 32,
              "a beat");
static_assert(sizeof(tl_8_4_client) == 32 && sizeof(tl_8_4_manager) == 32 && offsetof(tl_8_4_client, is_open) == 8 &&
                  offsetof(tl_8_4_manager, bridge) == 16 && offsetof(tl_8_4_manager, opening) == 24,
              "the handles of the two sides");
static_assert(sizeof(tl_8_4_client_beat) == 48 && offsetof(tl_8_4_client_beat, lanes) == 40 && sizeof(tl_4_8_manager_beat) == 48 &&
                  sizeof(tl_4_8_manager_beat::lanes) == 8,
              "the beats of an inbox");
static_assert(sizeof(tl_counts) == 24 && sizeof(tl_standings) == 120 && sizeof(tl_text) == 160 && sizeof(tl_answer) == 40, "what calls write");

int main() {
    tl_8_4_client client = {};
    tl_8_4_manager manager = {};
    tl_4_8_client other_client = {};
    tl_4_8_manager other_manager = {};
    int wrong = tl_8_4_open(&client, &manager, 1, 0) != TL_OK || tl_4_8_open(&other_client, &other_manager, 0, 1) != TL_RING_SIZE ||
                !tl_8_4_ready_e(&client) || tl_4_8_close_d(&other_manager) != TL_NOT_OPEN || tl_8_4_version() != TL_VERSION;
#if __cplusplus >= 202002L
    // in the order of the fields
    tl_beat get = {.address = 0x80, .mask = 0xff, .source = 7, .opcode = 4, .size = 4};
    uint8_t lanes[8] = {};
    wrong |= tl_8_4_offer_a(&client, &get, lanes) != TL_OK;
#endif
    tl_8_4_free_client(&client);
    tl_8_4_free_manager(&manager);
    std::printf("C++: %d checks passed, %d failed\n", !wrong, wrong);
    return wrong;
}
