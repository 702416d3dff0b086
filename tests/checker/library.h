// The proved library, with one width on both sides, as the rules of one link: what an accepted beat stages is taken at once at the other
// side, so that a source is busy and its request open from the same beat to the same beat.
#pragma once
#include <cstdlib>
#include <memory>

#include "rules.h"
#ifdef LIBRARIES
#include "tlbridge.h"
#endif

struct Library {
    virtual ~Library() {}
    virtual void reset() = 0;
    virtual Verdict offer(Channel channel, const Beat &b) = 0;
    static std::unique_ptr<Library> of(unsigned width);  // nothing if no library of this width is linked
};

#ifdef LIBRARIES
inline tl_beat beat_for_c(const Beat &b) {
    tl_beat beat = {};
    beat.opcode = b.opcode, beat.param = b.param, beat.size = b.size, beat.source = b.source, beat.sink = b.sink;
    beat.denied = b.denied, beat.corrupt = b.corrupt, beat.address = b.address;
    for (unsigned lane = 0; lane < b.mask.size(); lane++)
        if (b.mask[lane]) tl_mask_add(&beat, lane);
    return beat;
}

inline void have(bool what) {
    if (!what) std::abort();
}

// sends a beat of channel x from one side to the other
#define CROSS(W, x, near, far) \
    { \
        uint8_t answer = TL_CALL(W, W, offer_##x)(&near, &beat, lanes); \
        have(answer <= TL_SIZE_MISMATCH); \
        if (answer != TL_OK) return {Fault(answer), false}; \
        have(TL_CALL(W, W, pump_##near)(&near) == 1 && TL_CALL(W, W, fetch_##far)(&far) == 1); \
        have(TL_CALL(W, W, take_##x)(&far, &beat, lanes)); \
        return {None, true}; \
    }

#define LIBRARY(W) \
    TLBRIDGE(W, W) \
    struct Library##W : Library { \
        TL_CALL(W, W, client) client = {}; \
        TL_CALL(W, W, manager) manager = {}; \
        Library##W() { reset(); } \
        void reset() override { have(TL_CALL(W, W, open)(&client, &manager, 16, 0) == TL_OK); } \
        Verdict offer(Channel channel, const Beat &b) override { \
            tl_beat beat = beat_for_c(b); \
            uint8_t lanes[W] = {}; \
            switch (channel) { \
            case A: CROSS(W, a, client, manager) \
            case B: CROSS(W, b, manager, client) \
            case C: CROSS(W, c, client, manager) \
            case D: CROSS(W, d, manager, client) \
            default: CROSS(W, e, client, manager) \
            } \
        } \
    };

LIBRARY(1)
LIBRARY(8)
LIBRARY(64)
LIBRARY(128)
#endif

inline std::unique_ptr<Library> Library::of(unsigned width) {
#ifdef LIBRARIES
    switch (width) {
    case 1: return std::unique_ptr<Library>(new Library1);
    case 8: return std::unique_ptr<Library>(new Library8);
    case 64: return std::unique_ptr<Library>(new Library64);
    case 128: return std::unique_ptr<Library>(new Library128);
    }
#endif
    (void)width;
    return nullptr;
}
