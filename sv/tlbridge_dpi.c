/* The functions that sv/tlbridge_pkg.sv imports: the calls of include/tlbridge.h with the fields of a beat as scalars, and mask and data as bit
 * vectors. This glue is not proved. Compile it with a macro for each pair of widths that the simulation links, for example -DTLBRIDGE_8_4. */
#include "tlbridge_calls.h"
#include <stdio.h>
#include <stdlib.h>
#include <string.h>
#include <svdpi.h>

/* The glue does not have this pair of widths, or data has a byte on a lane that the link does not have. */
#define OTHER_WIDTH 247

#ifdef __cplusplus
extern "C" {
#endif

/* A chandle points to both sides of a bridge. */
void *tlbridge_handle(void) {
    return calloc(1, sizeof(tlbridge_sides));
}

void tlbridge_free(void *bridge) {
    tlbridge_sides *b = (tlbridge_sides *)bridge;
    if (b->calls != NULL) b->calls->free(&b->client, &b->manager);
    b->calls = NULL;
}

uint8_t tlbridge_open(void *bridge, int client, int manager, uint64_t ring) {
    tlbridge_sides *b = (tlbridge_sides *)bridge;
    const tlbridge_pair_calls *calls = tlbridge_pair_of((unsigned)client, (unsigned)manager);
    tlbridge_free(bridge);
    if (calls == NULL) return OTHER_WIDTH;
    uint8_t status = calls->open(&b->client, &b->manager, ring);
    if (status == TL_OK) b->calls = calls;
    return status;
}

#define MOVE(call, which) \
    uint64_t tlbridge_##call(void *bridge) { \
        tlbridge_sides *b = (tlbridge_sides *)bridge; \
        return b->calls != NULL ? b->calls->call(&b->which) : 0; \
    }
MOVE(pump_client, client)
MOVE(pump_manager, manager)
MOVE(fetch_client, client)
MOVE(fetch_manager, manager)

uint8_t tlbridge_settle(void *bridge) {
    tlbridge_sides *b = (tlbridge_sides *)bridge;
    tl_standings all;
    if (b->calls == NULL) return TL_NOT_OPEN;
    return b->calls->settle(&b->client, &b->manager, &all);
}

static bool standings(void *bridge, tl_standings *all) {
    tlbridge_sides *b = (tlbridge_sides *)bridge;
    return b->calls != NULL && b->calls->meet(&b->client, &b->manager, all) == TL_OK;
}

svBit tlbridge_drained(void *bridge) {
    tl_standings all;
    return standings(bridge, &all) && tl_drained(&all);
}

svBit tlbridge_standing(void *bridge, uint8_t letter, uint64_t *staged, uint64_t *in_ring, uint64_t *inbox) {
    tl_standings all;
    tl_counts of = {0, 0, 0};
    bool held = standings(bridge, &all);
    if (held && letter >= 'A' && letter <= 'E') {
        tl_counts counts[TL_CHANNELS] = {all.a, all.b, all.c, all.d, all.e};
        of = counts[letter - 'A'];
    }
    *staged = of.staged;
    *in_ring = of.in_ring;
    *inbox = of.inbox;
    return held;
}

/* Returns the name and the sentence of a status, including the one of the glue. */
static tl_text text_of(uint8_t answer) {
    tl_text text;
    tlbridge_pairs[0].text(answer, &text);
    if (answer == OTHER_WIDTH) {
        strcpy(text.name, "OtherWidth");
        strcpy(text.sentence, "the glue is not compiled for this pair of widths, or data is on a lane that the link does not have");
    }
    return text;
}

const char *tlbridge_status_name(uint8_t answer) {
    static tl_text text;
    text = text_of(answer);
    return text.name;
}

const char *tlbridge_status_text(uint8_t answer) {
    static char said[TL_NAME_BYTES + TL_SENTENCE_BYTES + 2];
    tl_text text = text_of(answer);
    (void)snprintf(said, sizeof said, "%s: %s", text.name, text.sentence);
    return said;
}

#define READY_AND_CLOSE(x, channel) \
    svBit tlbridge_ready_##x(void *bridge) { \
        tlbridge_sides *b = (tlbridge_sides *)bridge; \
        return b->calls != NULL && tlbridge_ready_on(b, channel); \
    } \
    uint8_t tlbridge_close_##x(void *bridge) { \
        tlbridge_sides *b = (tlbridge_sides *)bridge; \
        if (b->calls == NULL) return TL_NOT_OPEN; \
        return tlbridge_close_on(b, channel); \
    }
READY_AND_CLOSE(a, TL_A)
READY_AND_CLOSE(b, TL_B)
READY_AND_CLOSE(c, TL_C)
READY_AND_CLOSE(d, TL_D)
READY_AND_CLOSE(e, TL_E)

/* Data has eight bits for each lane and a mask has one, lane 0 lowest, in words of 32 bits. */
enum { DATA_WORDS = TL_MAX_LANES / 4, MASK_WORDS = TL_MAX_LANES / 32 };

static uint64_t two_words(const svBitVecVal *words) {
    return words[0] | (uint64_t)words[1] << 32;
}

/* Offers a beat on a channel. `mask` and `data` are NULL if the channel does not have them. */
static uint8_t offer(void *bridge, int x, tl_beat *beat, const svBitVecVal *mask, const svBitVecVal *data) {
    tlbridge_sides *b = (tlbridge_sides *)bridge;
    uint8_t lanes[TL_MAX_LANES] = {0};
    if (b->calls == NULL) return TL_NOT_OPEN;
    unsigned width = tlbridge_from_client(x) ? b->calls->client : b->calls->manager;
    if (mask != NULL) {
        beat->mask = two_words(mask);
        beat->mask_high = two_words(mask + 2);
    }
    for (unsigned i = 0; data != NULL && i < TL_MAX_LANES; i++) {
        lanes[i] = (uint8_t)(data[i / 4] >> (8 * (i % 4)));
        if (i >= width && lanes[i] != 0) return OTHER_WIDTH;
    }
    return tlbridge_offer_on(b, x, beat, lanes);
}

/* Takes a far beat of a channel. Without one it returns 0 and writes zeros. */
static svBit take(void *bridge, int x, tl_beat *beat, svBitVecVal *mask, svBitVecVal *data) {
    tlbridge_sides *b = (tlbridge_sides *)bridge;
    uint8_t lanes[TL_MAX_LANES] = {0};
    memset(beat, 0, sizeof *beat);
    bool some = b->calls != NULL && tlbridge_take_on(b, x, beat, lanes);
    for (int i = 0; mask != NULL && i < MASK_WORDS; i++) mask[i] = (svBitVecVal)((i < 2 ? beat->mask : beat->mask_high) >> (32 * (i % 2)));
    for (int i = 0; data != NULL && i < DATA_WORDS; i++) {
        data[i] = 0;
        for (int k = 0; k < 4; k++) data[i] |= (svBitVecVal)lanes[4 * i + k] << (8 * k);
    }
    return some;
}

static tl_beat message(uint8_t opcode, uint8_t param, uint8_t size, tl_id source, svBit corrupt) {
    tl_beat beat;
    memset(&beat, 0, sizeof beat);
    beat.opcode = opcode;
    beat.param = param;
    beat.size = size;
    beat.source = source;
    beat.corrupt = corrupt;
    return beat;
}

#define HEAD_OF(beat) (*opcode = (beat).opcode, *param = (beat).param, *size = (beat).size, *source = (beat).source, *corrupt = (beat).corrupt)

/* The channels with a mask, A and B. */
#define MASKED(x, channel) \
    uint8_t tlbridge_offer_##x(void *bridge, uint8_t opcode, uint8_t param, uint8_t size, tl_id source, uint64_t address, \
                               const svBitVecVal *mask, const svBitVecVal *data, svBit corrupt) { \
        tl_beat beat = message(opcode, param, size, source, corrupt); \
        beat.address = address; \
        return offer(bridge, channel, &beat, mask, data); \
    } \
    svBit tlbridge_take_##x(void *bridge, uint8_t *opcode, uint8_t *param, uint8_t *size, tl_id *source, uint64_t *address, \
                            svBitVecVal *mask, svBitVecVal *data, svBit *corrupt) { \
        tl_beat beat; \
        svBit some = take(bridge, channel, &beat, mask, data); \
        HEAD_OF(beat); \
        *address = beat.address; \
        return some; \
    }
MASKED(a, TL_A)
MASKED(b, TL_B)

uint8_t tlbridge_offer_c(void *bridge, uint8_t opcode, uint8_t param, uint8_t size, tl_id source, uint64_t address, const svBitVecVal *data,
                         svBit corrupt) {
    tl_beat beat = message(opcode, param, size, source, corrupt);
    beat.address = address;
    return offer(bridge, TL_C, &beat, NULL, data);
}

svBit tlbridge_take_c(void *bridge, uint8_t *opcode, uint8_t *param, uint8_t *size, tl_id *source, uint64_t *address, svBitVecVal *data,
                      svBit *corrupt) {
    tl_beat beat;
    svBit some = take(bridge, TL_C, &beat, NULL, data);
    HEAD_OF(beat);
    *address = beat.address;
    return some;
}

uint8_t tlbridge_offer_d(void *bridge, uint8_t opcode, uint8_t param, uint8_t size, tl_id source, tl_id sink, svBit denied,
                         const svBitVecVal *data, svBit corrupt) {
    tl_beat beat = message(opcode, param, size, source, corrupt);
    beat.sink = sink;
    beat.denied = denied;
    return offer(bridge, TL_D, &beat, NULL, data);
}

svBit tlbridge_take_d(void *bridge, uint8_t *opcode, uint8_t *param, uint8_t *size, tl_id *source, tl_id *sink, svBit *denied,
                      svBitVecVal *data, svBit *corrupt) {
    tl_beat beat;
    svBit some = take(bridge, TL_D, &beat, NULL, data);
    HEAD_OF(beat);
    *sink = beat.sink;
    *denied = beat.denied;
    return some;
}

uint8_t tlbridge_offer_e(void *bridge, tl_id sink) {
    tl_beat beat = message(0, 0, 0, 0, 0);
    beat.sink = sink;
    return offer(bridge, TL_E, &beat, NULL, NULL);
}

svBit tlbridge_take_e(void *bridge, tl_id *sink) {
    tl_beat beat;
    svBit some = take(bridge, TL_E, &beat, NULL, NULL);
    *sink = beat.sink;
    return some;
}

#ifdef __cplusplus
}
#endif
