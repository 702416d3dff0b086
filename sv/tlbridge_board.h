/* The parts of the scoreboard of include/tlbridge_scoreboard.h. tlbridge_board_lines.c has the queues of beats and the lines of the report,
 * tlbridge_board_link.c the heads of beats and the rules of one link, and tlbridge_scoreboard.c takes the beats through the bridge and compares
 * them. This header is not installed. */
#ifndef TLBRIDGE_BOARD_H
#define TLBRIDGE_BOARD_H

#include "tlbridge_scoreboard.h"
#include <stdbool.h>
#include <stddef.h>
#include <stdint.h>

#ifndef TLBRIDGE_CHANNELS
#define TLBRIDGE_CHANNELS
/* The channels, in the order of their letters. */
enum { TL_A, TL_B, TL_C, TL_D, TL_E, TL_CHANNELS };
#endif

enum { SOURCES = 1 << 16, MOST_LINES = 20, LINE_BYTES = 1024, MOST_SIZE = 12 };

/* Opcodes that the scoreboard names (TileLink: opcode tables). */
enum { PUT_PARTIAL_DATA = 1, GET = 4, ACCESS_ACK = 0, RELEASE_ACK = 6 };

/* A beat with its time, its channel, and its number on it since the last reset. */
typedef struct {
    tl_beat beat;
    uint64_t time, number;
    int channel;
    bool was_refused; /* it came as `original`; `beat` is the corrected beat, which waits */
    tl_beat original;
    uint8_t lanes[TL_MAX_LANES];
} board_entry;

/* `count` entries from `first` on, in a ring whose capacity is a power of two. */
typedef struct {
    board_entry *entries;
    size_t capacity, first, count;
    uint64_t came;
} board_queue;

/* The next thing expected on the far link, in order. If `is_judged`, it is a far beat of the bridge, and is compared. Otherwise the bridge
 * refused a near beat, and the far beats of both the refused beat and the corrected beat in its place are not compared: at most `most` of
 * them are skipped. `is_due` says whether the bridge has a far beat for it. */
typedef struct {
    bool is_due, is_judged;
    uint32_t most;
    tl_beat refused, mended;
} board_expected;

typedef struct {
    board_expected *entries;
    size_t capacity, first, count;
} board_expectations;

/* The near message under way, as the bridge accepted it. */
typedef struct {
    tl_beat head;     /* of its first beat */
    uint32_t came;    /* the number of its near beats so far; 0 if no message is under way */
    uint32_t fill;    /* beats still to be offered in the place of those that did not come */
    bool is_spoilt;   /* a byte that is in no far beat yet came from a refused beat */
    tl_beat refused;  /* that beat */
    uint32_t skip;    /* the number of near beats with the head of `refused` to skip */
    bool is_said;     /* a message reported that a beat of it was refused */
    uint64_t said;    /* one more than the number of that beat */
    bool is_mended;   /* the head of its first beat, `original`, was corrected so that the bridge accepts it */
    tl_beat original;
} board_message;

/* The requests on A and the responses on D that one link showed, by source. */
typedef struct {
    uint32_t left[TL_CHANNELS]; /* beats of the messages under way, of A and D */
    tl_beat heads[TL_CHANNELS]; /* and their heads */
    int8_t *open;            /* by source, the number of requests without a response; negative for responses without a request */
    uint64_t *number, *time; /* the beat number and the time of the last request, by source */
} board_view;

/* A beat that is judged at the end of its cycle: whether its source was free (A), or had a request (D). */
typedef struct {
    bool there;
    tl_id source;
    uint64_t time, number;
} board_suspect;

struct tl_scoreboard {
    struct tlbridge_sides *bridge; /* the proved bridge */
    void (*status_text)(uint8_t status, tl_text *text);
    unsigned widths[2]; /* of each link, in bytes */
    unsigned powers[2]; /* and the power of two that it is */
    unsigned flags;
    board_queue near[TL_CHANNELS], far[TL_CHANNELS];
    board_expectations due[TL_CHANNELS];
    board_message messages[TL_CHANNELS];
    uint64_t *homes; /* the address of the last request that the bridge accepted, by source */
    uint8_t *sizes;  /* and its size */
    bool *refused;   /* whether the source's last request was refused */
    board_queue held;      /* beats of a link while the other one is in reset, and it was not */
    bool in_reset[2], was_reset[2]; /* now; since both links were out of reset */
    uint64_t beats[2]; /* accepted by each link, in all */
    uint64_t differ[TL_CHANNELS];
    board_view views[2];
    board_suspect suspects[2]; /* of A on the client's link, of D on the manager's */
    uint64_t now;
    bool is_left; /* whether the bridge may hold beats in a stage or a ring */
    bool ended, no_memory, is_dead;
    char *text; /* the messages that were not read yet: for each a time, then its characters and a zero */
    size_t text_bytes, text_read, text_room;
};

/* A message under construction; what goes beyond LINE_BYTES is cut off. */
typedef struct {
    char text[LINE_BYTES];
    size_t length;
} board_line;

#if defined __GNUC__
#pragma GCC visibility push(hidden) /* the library exports none of these */
#endif

/* ---- tlbridge_board_lines.c */

/* Returns a copy, of twice the capacity, of the `count` entries of `size` bytes in a ring that begins at `first`, and frees the ring. The
 * copy begins at 0. Returns NULL if there is no memory. */
void *tl_board_grown(void *entries, size_t size, size_t *capacity, size_t first, size_t count);

board_entry *tl_board_queue_front(board_queue *queue);
void tl_board_queue_drop(board_queue *queue);
/* Adds a beat. Returns its entry, or NULL if there is no memory. */
board_entry *tl_board_queue_add(board_queue *queue, uint64_t time, const tl_beat *beat, const uint8_t *lanes, unsigned width);

void tl_board_add_line(tl_scoreboard *board, uint64_t time, const char *line);
/* Counts a difference on a channel. The first MOST_LINES are also reported. */
void tl_board_differs(tl_scoreboard *board, int channel, uint64_t time, const char *line);
void tl_board_say(board_line *line, const char *format, ...);
void tl_board_say_head(board_line *line, int channel, const tl_beat *beat);
void tl_board_say_fault(board_line *line, const tl_scoreboard *board, uint8_t status);

/* ---- tlbridge_board_link.c */

static inline unsigned tl_board_width(const tl_scoreboard *board, int link) {
    return board->widths[link];
}

static inline int tl_board_near_link(int channel) {
    return channel % 2 == 0 ? TL_CLIENT_LINK : TL_MANAGER_LINK;
}

/* Returns whether a beat carries data (TileLink: opcode tables). */
static inline bool tl_board_carries(int channel, const tl_beat *beat) {
    switch (channel) {
    case TL_A:
    case TL_B: return beat->opcode < 4;
    case TL_C: return beat->opcode % 2 == 1;
    case TL_D: return beat->opcode == 1 || beat->opcode == 5;
    default: return false;
    }
}

uint32_t tl_board_beats(int channel, const tl_beat *beat, unsigned width);
bool tl_board_same_head(int channel, const tl_beat *one, const tl_beat *other);
/* Returns whether two heads belong to one message, although one of them may be wrong. */
bool tl_board_is_alike(int channel, const tl_beat *one, const tl_beat *other);
/* Returns whether the number of beats follows from the head. */
bool tl_board_has_count(int channel, const tl_beat *head);
/* Returns whether a byte of a message of 2^size bytes at `home` is on this lane of a link of `width` bytes. */
bool tl_board_is_active(unsigned lane, uint64_t home, unsigned size, unsigned width);
/* Judges the beats of the last cycle by their sources, when a later cycle begins. */
void tl_board_end_cycle(tl_scoreboard *board);
/* Counts the requests and responses of a link. */
void tl_board_view_beat(tl_scoreboard *board, int link, int channel, const board_entry *came);

#if defined __GNUC__
#pragma GCC visibility pop
#endif

#endif
