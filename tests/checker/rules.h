// The rules of one link, written only from docs/SPECIFICATION.md: bytes one by one, lists of accepted beats.
#pragma once
#include "../lib/protocol.h"
#include <cstdint>
#include <map>
#include <string>
#include <vector>

enum Fault { None, Opcode, Param, Size, Unaligned, Mask, Corrupt, HeadChanged, SourceBusy, NoRequest, SizeMismatch, Faults };
enum Channel { A, B, C, D, E, Channels };

struct Beat {
    unsigned opcode = 0, param = 0, size = 0, source = 0, sink = 0;
    bool denied = false, corrupt = false;
    uint64_t address = 0;
    std::vector<bool> mask;  // one for each lane
};

struct Message {
    std::string name;  // empty: there is none
    bool has_data;
    unsigned params;
};

// section 2, the column of a channel
inline Message message(Channel channel, unsigned opcode) {
    const tl_kind &kind = tl_kinds[channel][opcode];
    return {kind.name, kind.has_data, kind.params};
}

struct Verdict {
    Fault fault;
    bool taken;  // the state goes on with this beat
};

struct Rules {
    unsigned width = 1;
    bool recover = false;
    std::vector<Beat> rest[Channels];     // the beats of the message that is begun and not whole
    std::map<unsigned, unsigned> in_flight;  // the size of each source's request without a response

    bool first(Channel channel) const { return rest[channel].empty(); }
    static bool responds(Channel channel, const Beat &b) { return channel == D && message(D, b.opcode).name != "ReleaseAck"; }

    // section 3
    uint64_t bytes_per_beat(const Beat &b) const {
        uint64_t bytes = 1;
        for (unsigned i = 0; i < b.size && bytes < width; i++) bytes *= 2;
        return bytes;
    }
    uint64_t beats(Channel channel, const Beat &b) const {
        return message(channel, b.opcode).has_data ? (uint64_t(1) << b.size) / bytes_per_beat(b) : 1;
    }
    std::vector<bool> active(const Beat &b) const {
        std::vector<bool> lanes(width);
        for (uint64_t i = 0; i < bytes_per_beat(b); i++) lanes[(b.address + i) % width] = true;
        return lanes;
    }
    bool mask_is_wrong(Channel channel, const Beat &b) const {
        if (channel != A && channel != B) return false;
        std::vector<bool> lanes = active(b);
        if (message(channel, b.opcode).name != "PutPartialData") return b.mask != lanes;
        for (unsigned lane = 0; lane < width; lane++)
            if (b.mask[lane] && !lanes[lane]) return true;
        return false;
    }
    static bool same_head(Channel channel, const Beat &b, const Beat &h) {
        bool same = b.opcode == h.opcode && b.param == h.param && b.size == h.size && b.source == h.source;
        return same && (channel == D ? b.sink == h.sink && b.denied == h.denied : b.address == h.address);
    }

    // sections 6 and 9, of a beat that opens a message
    Fault fault_of_first(Channel channel, const Beat &b) const {
        const Message kind = message(channel, b.opcode);
        if (kind.name.empty()) return Opcode;
        if (b.param >= kind.params) return Param;
        if (b.size > 12) return Size;
        if (channel != D && b.address % (uint64_t(1) << b.size) != 0) return Unaligned;
        if (mask_is_wrong(channel, b)) return Mask;
        if (!kind.has_data && b.corrupt) return Corrupt;
        auto request = in_flight.find(b.source);
        if (channel == A && request != in_flight.end()) return SourceBusy;
        if (responds(channel, b) && request == in_flight.end()) return NoRequest;
        if (responds(channel, b) && request->second != b.size) return SizeMismatch;
        return None;
    }

    Verdict judge(Channel channel, const Beat &b) const {
        if (channel == E) return {None, true};
        Fault fault = fault_of_first(channel, b);
        bool begins = fault == None || (recover && fault == SizeMismatch);
        if (first(channel)) return {fault, begins};
        if (!same_head(channel, b, rest[channel].front())) return {HeadChanged, recover && begins};
        if (mask_is_wrong(channel, b)) return {Mask, false};
        return {None, true};
    }

    void take(Channel channel, const Beat &b) {
        if (channel == E) return;
        if (!first(channel) && !same_head(channel, b, rest[channel].front())) rest[channel].clear();
        if (first(channel) && channel == A) in_flight[b.source] = b.size;
        if (first(channel) && responds(channel, b)) in_flight.erase(b.source);
        rest[channel].push_back(b);
        if (rest[channel].size() == beats(channel, b)) rest[channel].clear();
    }

    void reset() {
        in_flight.clear();
        for (auto &beats : rest) beats.clear();
    }
};

// Offers each beat of a cycle. After others were taken, it again offers those that were not. So a beat is taken if some order allows it.
template <class Offer> void settle(const bool there[Channels], Fault faults[Channels], Offer offer) {
    bool taken[Channels] = {};
    for (int k = 0; k < Channels; k++) faults[k] = None;
    for (bool again = true; again;) {
        again = false;
        for (int k = 0; k < Channels; k++) {
            if (!there[k] || taken[k]) continue;
            Verdict verdict = offer(Channel(k));
            faults[k] = verdict.fault;
            if (verdict.taken) taken[k] = again = true;
        }
    }
}
