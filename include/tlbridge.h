/* A TileLink width adapter and clock crossing for C. Each side has a handle; both sides may run in one thread, or each in its own thread.
 *
 * A library libtlbridge_C_M.a is for one pair of widths: C bytes on the client's link and M on the manager's, each 1, 2, 4, 8, 16, 32, 64
 * or 128. `tools/make-library C M` makes it. TLBRIDGE(C, M) declares its calls. One file may declare several pairs:
 *
 *     #include "tlbridge.h"
 *     TLBRIDGE(8, 4)
 *
 *     tl_8_4_client client = {0};
 *     tl_8_4_manager manager = {0};
 *     uint8_t status = tl_8_4_open(&client, &manager, 16, 0);
 *
 * The client's side offers beats of A, C and E, and takes beats of B and D. The manager's side offers B and D, and takes A, C and E. An
 * accepted near beat stages the far beats that it completes. `pump` moves them into rings, `fetch` moves them from the other side's rings
 * into inboxes, and `take` removes them from there. In one thread, `settle` does both on both sides until nothing more can move.
 * docs/ASSURANCE.md, "The calls of C", says what is proved of each call.
 *
 * The proofs hold for every sequence of calls if the caller guarantees these points:
 *   - Each pointer is to memory of its type, complete and aligned, that nothing else uses during the call. No two pointers of one call
 *     overlap.
 *   - A handle, and a tl_answer, is all zero before its first call. Only these calls change it. It is never copied. It is passed only to the
 *     calls of its own pair of widths and its own side.
 *   - A handle is in one call at a time. Calls on one handle from several threads must be ordered by happens-before, for example by
 *     pthread_create, pthread_join or a mutex. Different handles are independent, and so are the two of one bridge: their calls may
 *     run at the same moment. Only open, meet and settle use both handles. open first frees whatever they held.
 *   - Two sides that meet, and have the same number and opening, come from one open. So two bridges that are open in different handles have
 *     different numbers if a side of one may meet a side of the other.
 *   - A receipt is passed to drained as finish wrote it. If it may be from a bridge in other handles, the two bridges have different numbers.
 *     The calls refuse every other wrong receipt: zeros, what count wrote, the receipt of the side itself, and one of an earlier open of the
 *     same handles.
 *   - No call is made in a signal handler, or in the forked child of a process with threads.
 *   - malloc, realloc and free are one allocator with malloc's usual alignment: a block of n bytes has that of the largest power of two up to
 *     16 that divides n.
 * A handle whose side was freed is zero again, except for `opening`. Each call on it returns what it returns on a handle that was never opened.
 */
#ifndef TLBRIDGE_H
#define TLBRIDGE_H

#include <stdbool.h>
#include <stddef.h>
#include <stdint.h>

/* The version of the project: of the programs, the Python package, pkg-config and CMake. */
#define TLBRIDGE_VERSION "0.7.0"

/* The version of this interface, which is also in the shared library's SONAME. A library with another version has other calls or structures. */
#define TL_VERSION 7

/* The statuses that calls return. 0 is success. A call that returns another value has changed nothing, with two exceptions: a failed open leaves
 * both handles empty, and a failed tl_answer_trace frees the earlier answer and writes the line of the fault. */
enum {
    TL_OK = 0,
    /* faults of a beat: docs/SPECIFICATION.md, section 6 */
    TL_OPCODE = 1,
    TL_PARAM = 2,
    TL_SIZE = 3,
    TL_UNALIGNED = 4,
    TL_MASK = 5,
    TL_CORRUPT = 6,
    TL_HEAD_CHANGED = 7,
    /* rules between A and D: section 9. After the first two, the same beat may be offered again later */
    TL_SOURCE_BUSY = 8,
    TL_NO_REQUEST = 9,
    TL_SIZE_MISMATCH = 10,
    /* returned by close */
    TL_MID_BURST = 11,
    /* returned by open; tl_answer_trace also returns TL_OUT_OF_MEMORY */
    TL_RING_SIZE = 12,
    TL_OUT_OF_MEMORY = 13,
    /* returned by tl_answer_trace: the fault of the first faulty line, section 11 */
    TL_HEADER = 14,
    TL_CHANNEL_LETTER = 15,
    TL_LENGTH = 16,
    TL_SHAPE = 17,
    TL_RANGE = 18,
    TL_NO_END = 19,
    /* reported only by the program tlbridge */
    TL_STALLED = 20,
    TL_READ = 21,
    TL_WRITE = 22,
    /* returned by tl_answer_trace: the text has more than 67,108,864 bytes */
    TL_TOO_LONG = 23,
    /* returned by drained: the number of beats taken is not that of the receipt */
    TL_NOT_TAKEN = 249,
    /* returned by drained: not a receipt of the other side, or a receipt of another open of the handle */
    TL_WRONG_RECEIPT = 250,
    /* returned by meet and settle: the sides have different numbers or openings. drained returns it for a receipt with another number */
    TL_BRIDGE_MISMATCH = 251,
    /* the handle has no side, or one of the two handles of meet and settle has none */
    TL_NOT_OPEN = 252,
    /* returned by finish: a channel that the side sends is still open, or far beats are staged */
    TL_NOT_SENT = 253,
    /* the channel takes no beat now: far beats are staged, or it is closed */
    TL_NOT_READY = 254
};

/* The bytes of a status's name and of its sentence, including the zeros at their ends. */
#define TL_NAME_BYTES 16
#define TL_SENTENCE_BYTES 144

/* The maximum number of beats in a ring. */
#define TL_MAX_RING 4096

/* The maximum number of beats in an inbox. */
#define TL_INBOX 128

/* The number of lanes of the widest link. */
#define TL_MAX_LANES 128

/* A source or a sink. */
typedef uint16_t tl_id;

/* The fields of a beat on any channel, except its lanes: 40 bytes without a gap between two fields. A field that the channel does not have is
 * not read, and is written as 0.
 *
 * A mask has a bit for each lane: lanes 0 to 63 in `mask`, lane 0 lowest, and lanes 64 to 127 in `mask_high`, lane 64 lowest. A program for
 * links of at most 64 lanes need not name `mask_high` if all fields that it does not set are 0, as in
 * `tl_beat get = {.mask = 0xff, .opcode = 4, .size = 3};`. On such a link, a bit in `mask_high` is a TL_MASK fault, like any other bit past
 * the width, and `mask_high` is written as 0. */
typedef struct {
    uint64_t address;    /* A, B, C */
    uint64_t mask;       /* A, B: lanes 0 to 63 */
    tl_id source;        /* A to D; byte 16 */
    tl_id sink;          /* D, E; byte 18 */
    uint8_t opcode;      /* A to D; byte 20 */
    uint8_t param;       /* A to D */
    uint8_t size;        /* A to D: the message has 2^size bytes */
    uint8_t denied;      /* D: 0, or any other number for set; written as 0 or 1 */
    uint8_t corrupt;     /* A to D: like denied; byte 24 */
    uint8_t reserved[7]; /* not read, and written as 0 */
    uint64_t mask_high;  /* A, B: lanes 64 to 127; byte 32 */
} tl_beat;

/* The number of far beats of one channel that wait in each buffer. */
typedef struct {
    size_t staged;
    size_t in_ring;
    size_t inbox;
} tl_counts;

typedef struct {
    tl_counts a, b, c, d, e;
} tl_standings;

/* The side whose receipt a tl_totals is. */
enum { TL_NO_RECEIPT = 0, TL_CLIENT_FINISHED = 1, TL_MANAGER_FINISHED = 2 };

/* The number of far beats that a side has sent since open on each channel that it sends, and the number taken from it on each of the others.
 * A receipt has the same fields. Each number is exact if it is below 2^63. */
typedef struct {
    uint64_t bridge;   /* the number that was passed to open */
    uint64_t opening;  /* that of the side's handle */
    uint64_t finished; /* TL_CLIENT_FINISHED or TL_MANAGER_FINISHED if finish of that side wrote this, and TL_NO_RECEIPT if count did */
    uint64_t a, b, c, d, e;
} tl_totals;

/* Returns true if no beat is in flight: all far beats that the accepted beats require were taken. */
static inline bool tl_drained(const tl_standings *standings) {
    const tl_counts of[] = {standings->a, standings->b, standings->c, standings->d, standings->e};
    for (int x = 0; x < 5; x++)
        if (of[x].staged > 0 || of[x].in_ring > 0 || of[x].inbox > 0) return false;
    return true;
}

/* The name and the sentence of a status, for example "SourceBusy" and "the source's last request still waits for its response". Both end with
 * zeros, and are all zeros for a number that is not a status. */
typedef struct {
    char name[TL_NAME_BYTES];
    char sentence[TL_SENTENCE_BYTES];
} tl_text;

/* The name of a call for one pair of widths, for code whose pair is a macro: TL_CALL(8, 4, open) is tl_8_4_open. */
#define TL_CALL_OF(client, manager, call) tl_##client##_##manager##_##call
#define TL_CALL(client, manager, call) TL_CALL_OF(client, manager, call)

#ifdef __cplusplus
#define TL_BEGIN extern "C" {
#define TL_END }
#else
#define TL_BEGIN
#define TL_END
#endif

/* The calls of one pair of widths. In the names of types and calls, CLIENT and MANAGER are the two widths. No call waits for the other side.
 * All are total: if a handle has no side, they return TL_NOT_OPEN, false or 0 and change nothing. `side` is the client's handle to offer A, C
 * and E and to take B and D, and the manager's handle to offer B and D and to take A, C and E.
 *
 *   tl_CLIENT_MANAGER_client             The two types of handles. A handle that is all zero has no side. `opening` is higher after each
 *   tl_CLIENT_MANAGER_manager            open that succeeds (up to 2^64 - 1), and free keeps it.
 *   tl_CLIENT_MANAGER_client_beat        A beat with the lanes of the client's or of the manager's link, as take_all writes it.
 *   tl_CLIENT_MANAGER_manager_beat
 *   open(client, manager, ring, bridge)  Frees what the handles held, creates a bridge, and gives each handle its side. Each of the five rings
 *                                        has room for `ring` beats, 1 to 4,096. `bridge` is any number; it distinguishes this bridge from
 *                                        others. Call it before another thread has one of the handles. It allocates all memory that the
 *                                        bridge needs: the rings, and 1,088 KiB of tables for the 65,536 sources. Each side then knows that its
 *                                        rings are empty. Returns TL_OK, TL_RING_SIZE or TL_OUT_OF_MEMORY; in the last two cases both handles
 *                                        are empty.
 *   free_client(client),                 Free a side, and do nothing if the handle is empty. The other side stays usable, but receives nothing
 *   free_manager(manager)                new, and what it sends collects in its rings and stages until they are full.
 *   ready_x(side)                        Returns whether a beat of x may be offered: nothing of x is staged, and x is not closed.
 *   offer_x(side, beat, lanes)           Offers a near beat. `lanes` has one byte for each lane of the sender's link, lane 0 first. Returns TL_OK,
 *                                        the first fault of the beat (1 to 10), TL_NOT_READY or TL_NOT_OPEN.
 *   take_x(side, beat, lanes)            Removes the first far beat from the inbox and writes it. `lanes` has one byte for each lane of the
 *                                        receiver's link; a lane without a byte of the message is 0. Returns true if there was a beat, and
 *                                        otherwise writes nothing.
 *   take_all_x(side, beats, room)        Does what take_x does until the inbox is empty or `room` beats are written, and returns how many
 *                                        were. `beats` has `room` elements, of type client_beat for B and D and manager_beat for A, C and E.
 *                                        TL_INBOX is always enough: beats that find no room stay in the inbox. `beats` may be NULL if `room`
 *                                        is 0.
 *   close_x(side)                        Ends the offers of x. Staged beats still cross. Returns TL_OK, TL_MID_BURST or TL_NOT_OPEN.
 *   pump_client(client),                 Move beats from this side's stages into its rings: every beat known to fit, and more if the other
 *   pump_manager(manager)                thread has made room. Return how many were moved.
 *   fetch_client(client),                Move beats from the other side's rings into this side's inboxes, as far as these have room: every beat
 *   fetch_manager(manager)               known to be there, and more if the other thread has sent some. Return how many were moved.
 *   meet(client, manager, standings)     With both sides in one thread: writes the number of far beats that wait in each buffer. Returns TL_OK,
 *                                        TL_NOT_OPEN if a handle has no side, or TL_BRIDGE_MISMATCH if their numbers or openings differ. In
 *                                        the last two cases nothing changes. Afterwards each side knows each free position of its rings.
 *   settle(client, manager, standings)   Pumps and fetches both sides until nothing more can move, and then does the same as meet.
 *                                        On each channel the receiver's inbox is then full, or holds all far beats that are still to be taken.
 *                                        So settle and take everything until settle leaves all inboxes empty: then every far beat that the
 *                                        accepted beats complete has been taken.
 *   count_client(client, totals),        Write the number of far beats that the side has moved into its rings on each channel that it sends, and
 *   count_manager(manager, totals)       the number that take has removed on each of the others. Return TL_OK or TL_NOT_OPEN.
 *   finish_client(client, receipt),      Write the receipt of a side that has sent everything: each channel that it sends is closed, and no far
 *   finish_manager(manager, receipt)     beat is staged. Return TL_OK, TL_NOT_SENT (close the channels, pump, and call again) or TL_NOT_OPEN. In
 *                                        the last two cases nothing is written. The side itself does not change: it can still fetch and take.
 *                                        A receipt is a plain structure, which may be copied and passed to any thread.
 *   drained_client(client, receipt),     Compare a side with the receipt of the other side of its bridge. Return TL_OK if as many beats were taken
 *   drained_manager(manager, receipt)    from this side as the receipt counts. These are all that the other side will ever send, which is proved
 *                                        if both sides meet: docs/ASSURANCE.md. Otherwise return TL_NOT_OPEN; TL_WRONG_RECEIPT if finish of the
 *                                        other side did not write the receipt; TL_BRIDGE_MISMATCH if the receipt has the number of another
 *                                        bridge; TL_WRONG_RECEIPT if finish wrote it before the latest open of the handle; or TL_NOT_TAKEN. The
 *                                        first of these that holds is returned. Nothing changes.
 *   status_text(status, text)            Writes the name and the sentence of a status.
 *   version()                            Returns TL_VERSION of the library. */
#define TLBRIDGE(cw, mw) \
    TL_BEGIN \
    TL_SIDE(cw, mw, client, cw) \
    TL_SIDE(cw, mw, manager, mw) \
    uint8_t TL_CALL(cw, mw, open)(TL_CALL(cw, mw, client) *client, TL_CALL(cw, mw, manager) *manager, size_t ring, uint64_t bridge); \
    uint8_t TL_CALL(cw, mw, meet)(TL_CALL(cw, mw, client) *client, TL_CALL(cw, mw, manager) *manager, tl_standings *standings); \
    uint8_t TL_CALL(cw, mw, settle)(TL_CALL(cw, mw, client) *client, TL_CALL(cw, mw, manager) *manager, tl_standings *standings); \
    void TL_CALL(cw, mw, status_text)(uint8_t status, tl_text *text); \
    uint32_t TL_CALL(cw, mw, version)(void); \
    TL_CHANNEL(cw, mw, a, client, cw, manager, mw) \
    TL_CHANNEL(cw, mw, b, manager, mw, client, cw) \
    TL_CHANNEL(cw, mw, c, client, cw, manager, mw) \
    TL_CHANNEL(cw, mw, d, manager, mw, client, cw) \
    TL_CHANNEL(cw, mw, e, client, cw, manager, mw) \
    TL_END

#define TL_SIDE(cw, mw, side, width) \
    typedef struct { \
        void *impl; \
        bool is_open; \
        uint64_t bridge; \
        uint64_t opening; \
    } TL_CALL(cw, mw, side); \
    typedef struct { \
        tl_beat beat; \
        uint8_t lanes[width]; \
    } TL_CALL(cw, mw, side##_beat); \
    void TL_CALL(cw, mw, free_##side)(TL_CALL(cw, mw, side) *side); \
    size_t TL_CALL(cw, mw, pump_##side)(TL_CALL(cw, mw, side) *side); \
    size_t TL_CALL(cw, mw, fetch_##side)(TL_CALL(cw, mw, side) *side); \
    uint8_t TL_CALL(cw, mw, count_##side)(TL_CALL(cw, mw, side) *side, tl_totals *totals); \
    uint8_t TL_CALL(cw, mw, finish_##side)(TL_CALL(cw, mw, side) *side, tl_totals *receipt); \
    uint8_t TL_CALL(cw, mw, drained_##side)(TL_CALL(cw, mw, side) *side, const tl_totals *receipt);

#define TL_CHANNEL(cw, mw, x, near, near_width, far, far_width) \
    bool TL_CALL(cw, mw, ready_##x)(TL_CALL(cw, mw, near) *near); \
    uint8_t TL_CALL(cw, mw, offer_##x)(TL_CALL(cw, mw, near) *near, const tl_beat *beat, const uint8_t lanes[near_width]); \
    bool TL_CALL(cw, mw, take_##x)(TL_CALL(cw, mw, far) *far, tl_beat *beat, uint8_t lanes[far_width]); \
    size_t TL_CALL(cw, mw, take_all_##x)(TL_CALL(cw, mw, far) *far, TL_CALL(cw, mw, far##_beat) *beats, size_t room); \
    uint8_t TL_CALL(cw, mw, close_##x)(TL_CALL(cw, mw, near) *near);

TL_BEGIN

/* Returns whether the mask of a beat has the bit of a lane, 0 to 127. */
static inline bool tl_mask_has(const tl_beat *beat, unsigned lane) {
    return (lane < 64 ? beat->mask >> lane : beat->mask_high >> (lane - 64)) & 1;
}

/* Sets the bit of a lane, 0 to 127, in the mask of a beat. */
static inline void tl_mask_add(tl_beat *beat, unsigned lane) {
    if (lane < 64)
        beat->mask |= (uint64_t)1 << lane;
    else
        beat->mask_high |= (uint64_t)1 << (lane - 64);
}

/* The output for a whole trace, or the fault of the trace. A zeroed tl_answer holds neither. The calls are in libtlbridge_trace.a, which is for
 * all pairs of widths; `tools/make-library trace` makes it. */
typedef struct {
    const uint8_t *text; /* the bytes of the answer, without a zero at the end; NULL if there is no answer */
    size_t length;
    uint64_t line; /* the line of the fault, counted from 1; 0 if no line has a fault */
    void *impl;
    bool is_open;
    uint8_t all_done; /* 1 if all five channels are done, and otherwise 0 */
} tl_answer;

/* Computes the answer to the text of a trace: that of `tlbridge check` if `check` is not 0, and otherwise that of `tlbridge run`. Frees the
 * earlier answer first. The new text stays valid until tl_answer_free. `text` has `length` bytes, and is not NULL, except that it may be NULL
 * if `length` is 0. Calls in several threads are independent. Returns TL_OK, or the fault of the text, 13 to 23. */
uint8_t tl_answer_trace(const uint8_t *text, size_t length, uint8_t check, tl_answer *answer);

/* Frees the text of an answer, if there is one, and sets the answer to zero. */
void tl_answer_free(tl_answer *answer);

/* Writes the name and the sentence of a status, as tl_CLIENT_MANAGER_status_text does. */
void tl_status_text(uint8_t status, tl_text *text);

TL_END

#endif
