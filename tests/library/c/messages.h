/* Parts that the tests of the calls share, for one pair of widths, -DCLIENT=8 -DMANAGER=4: checks that are counted, numbers drawn at
 * random, and lawful messages with the plain layout of docs/SPECIFICATION.md. */
#include "tlbridge.h"
#include <stdio.h>
#include <string.h>

static long passed, failed;
#define CHECK(fact) check((fact), #fact, __LINE__)

static void check(bool fact, const char *text, int line) {
    if (fact) {
        passed++;
    } else if (failed++ < 20) {
        printf("line %d: not so: %s\n", line, text);
    }
}

static uint64_t state = 88172645463325252u;

static uint64_t draw(uint64_t below) {
    state ^= state << 13;
    state ^= state >> 7;
    state ^= state << 17;
    return (state >> 11) % below;
}

/* The five channels, A to E, by number. */
enum { A, B, C, D, E, CHANNELS };

static const int near_width[] = {CLIENT, MANAGER, CLIENT, MANAGER, CLIENT};
static const int far_width[] = {MANAGER, CLIENT, MANAGER, CLIENT, MANAGER};

enum { MAX_LANES = TL_MAX_LANES, MAX_BYTES = 4096 };

/* A message, and its layout at a width: docs/SPECIFICATION.md, sections 3 and 4, over the home of its bytes. */
typedef struct {
    tl_beat head;
    uint64_t home;
    uint8_t bytes[MAX_BYTES];
    uint8_t on[MAX_BYTES];
    uint8_t bad[MAX_BYTES];
    bool data;
} message;

static int beat_bytes(const message *m, int width) {
    return 1 << m->head.size > width ? width : 1 << m->head.size;
}

static int beat_count(const message *m, int width) {
    return m->data ? (1 << m->head.size) / beat_bytes(m, width) : 1;
}

static void lay_out(const message *m, int x, int width, int at, tl_beat *beat, uint8_t *lanes) {
    int bytes = beat_bytes(m, width);
    *beat = m->head;
    memset(lanes, 0, MAX_LANES);
    for (int k = 0; k < bytes; k++) {
        int i = at * bytes + k, lane = (int)((m->home + (uint64_t)i) % (uint64_t)width);
        if (m->data) lanes[lane] = m->bytes[i];
        if ((x == A || x == B) && (!m->data || m->on[i])) tl_mask_add(beat, (unsigned)lane);
        if (m->data && m->bad[i]) beat->corrupt = 1;
    }
}

static tl_id draw_id(void) {
    return (tl_id)draw((uint64_t)1 << 8 * sizeof(tl_id));
}

/* A lawful message on channel x; one of a response has the source, size and home that are given. */
static void draw_message(message *m, int x, tl_id source, uint8_t size, uint64_t home) {
    static const uint8_t opcodes[5][8] = {{0, 1, 2, 3, 4, 5, 6, 7}, {0, 1, 2, 3, 4, 5, 6, 7}, {0, 1, 2, 4, 5, 6, 7, 7}, {0, 1, 2, 4, 5, 0, 1, 5}, {0}};
    static const int params[4][8] = {{1, 1, 5, 4, 1, 2, 3, 3}, {1, 1, 5, 4, 1, 2, 3, 3}, {1, 1, 1, 1, 6, 6, 6, 6}, {1, 1, 1, 1, 3, 3, 1, 1}};
    memset(m, 0, sizeof *m);
    if (x == E) {
        m->head.sink = draw_id();
        return;
    }
    m->head.opcode = opcodes[x][draw(8)];
    m->head.param = (uint8_t)draw((uint64_t)params[x][m->head.opcode]);
    m->head.size = size;
    m->head.source = source;
    m->home = home;
    if (x == D) {
        m->head.sink = draw_id();
        m->head.denied = (uint8_t)draw(2);
        m->data = m->head.opcode == 1 || m->head.opcode == 5;
    } else {
        m->head.address = m->home = home;
        m->data = x == C ? m->head.opcode == 1 || m->head.opcode == 5 || m->head.opcode == 7 : m->head.opcode < 4;
    }
    for (int i = 0; i < 1 << size; i++) {
        m->bytes[i] = (uint8_t)draw(256);
        m->on[i] = m->head.opcode != 1 || x > B || draw(2);
    }
    /* corrupt belongs to a whole near beat: it is set on all bytes of it */
    int near_bytes = beat_bytes(m, near_width[x]);
    for (int i = 0; i < 1 << size; i += near_bytes) memset(m->bad + i, draw(4) == 0, (size_t)near_bytes);
}

/* Byte for byte: between two fields there is no gap. */
static bool same(const tl_beat *x, const tl_beat *y) {
    return memcmp(x, y, sizeof *x) == 0;
}
