/* Scoreboard for a TileLink width adapter, clock crossing or bridge. Pass it each beat that either link accepts. It computes the expected
 * far beats with the proved bridge of include/tlbridge.h, and has a message for each beat that differs. The scoreboard itself is plain C
 * over the calls of that header, and is tested, not proved. sv/tlbridge_scoreboard.sv and the Python package use it.
 *
 *     tl_scoreboard *board = tl_scoreboard_open(8, 4, 0);
 *     tl_scoreboard_beat(board, TL_CLIENT_LINK, 'A', time, &beat, lanes);      // for each beat, at the clock edge that accepts it
 *     while ((line = tl_scoreboard_next_message(board, &at)) != NULL) printf("time %llu: %s\n", (unsigned long long)at, line);
 *     tl_scoreboard_finish(board);                                             // and then the messages again
 *
 * Beats wait in queues. A far beat may therefore be accepted before its near beat, for example if an adapter raises ready with the last
 * part of a beat, and a response may come in the cycle of its request. Unexpected beats are reported only by tl_scoreboard_finish. Only one
 * thread at a time may use a scoreboard.
 */
#ifndef TLBRIDGE_SCOREBOARD_H
#define TLBRIDGE_SCOREBOARD_H

#include "tlbridge.h"

#ifdef __cplusplus
extern "C" {
#endif

typedef struct tl_scoreboard tl_scoreboard;

/* The link that accepts a beat. */
enum { TL_CLIENT_LINK = 0, TL_MANAGER_LINK = 1 };

/* Flags of tl_scoreboard_open. */
enum {
    /* Also compares bytes of PutPartialData whose mask bit is 0. A bridge passes them on, but a device may drive anything there. */
    TL_COMPARE_UNMASKED = 1,
    /* Without this flag, a scoreboard that saw no beat counts that as a difference. */
    TL_ALLOW_NO_BEATS = 2
};

/* Creates a scoreboard for a client's link of `client` bytes and a manager's link of `manager` bytes. Returns NULL if the library does not
 * have that pair (tl_scoreboard_pairs), or if memory runs out. */
tl_scoreboard *tl_scoreboard_open(unsigned client, unsigned manager, unsigned flags);

/* Returns the pairs of widths of the library, for example "4:8 8:4". */
const char *tl_scoreboard_pairs(void);

/* Frees a scoreboard; does nothing if it is NULL. Prints a warning on standard error if it saw beats and was not finished. */
void tl_scoreboard_free(tl_scoreboard *board);

/* Says whether a link is in reset from `time` on. Saying the same again changes nothing. The first reset of either link ends what was in
 * flight on both, and a message says how many beats that were. Beats of a link that is in reset are ignored. Beats that a link accepts after
 * its own reset are judged, also while the other link is still in reset. Beats of a link that was not reset are judged once the other one is
 * out of reset, and are dropped if its own reset begins before that. */
void tl_scoreboard_reset(tl_scoreboard *board, int link, bool asserted, uint64_t time);

/* Passes a beat that a link accepted. `channel` is 'A' to 'E'. `time` is in any unit; beats of different cycles must have different times, and
 * beats of the same time may come in any order. `lanes` has one byte for each lane of the link, lane 0 first; it may be NULL on E. */
void tl_scoreboard_beat(tl_scoreboard *board, int link, char channel, uint64_t time, const tl_beat *beat, const uint8_t *lanes);

/* Returns the next message and writes its time, or returns NULL if there is none. The message is valid until the next call. */
const char *tl_scoreboard_next_message(tl_scoreboard *board, uint64_t *time);

/* Ends the test: adds messages for missing beats, unexpected beats, beats that still wait, and outstanding requests. Returns the number of all
 * differences. An outstanding request is not a difference. A test without any beat is one, except with TL_ALLOW_NO_BEATS. A second call adds
 * nothing, and later beats are not judged. A test passes if this returns 0. */
uint64_t tl_scoreboard_finish(tl_scoreboard *board);

/* Returns the number of beats that both links accepted so far, including those before a reset. */
uint64_t tl_scoreboard_beats(const tl_scoreboard *board);

/* Returns the number of differences so far. After the first 20 on a channel, differences are counted but no longer described. */
uint64_t tl_scoreboard_differences(const tl_scoreboard *board);

#ifdef __cplusplus
}
#endif

#endif
