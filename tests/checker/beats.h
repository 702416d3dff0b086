// Random beats of one link: lawful ones by the rules' state, into some of which faults are planted.
#pragma once
#include <algorithm>
#include <random>

#include "rules.h"

struct Link {
    unsigned number, width, address_bits, size_bits, source_bits, sink_bits, requests, respond_at_once, reuse_at_once, recover;
    Rules rules;
    std::vector<unsigned> sources;  // those that beats use: some from both ends of the range, and two that differ only in the highest bit
};

inline std::mt19937_64 random_bits;
inline unsigned below(uint64_t n) { return static_cast<unsigned>(random_bits() % n); }
inline bool chance(unsigned percent) { return below(100) < percent; }
inline uint64_t low64(uint64_t value, unsigned bits) { return bits >= 64 ? value : value & ((uint64_t(1) << bits) - 1); }
inline unsigned low(uint64_t value, unsigned bits) { return static_cast<unsigned>(low64(value, bits)); }

inline std::vector<unsigned> some_sources(unsigned bits) {
    std::vector<unsigned> sources;
    for (unsigned i = 0; i < 3; i++) {
        sources.push_back(low(i, bits));
        sources.push_back(low(~i, bits));
    }
    sources.push_back(low(random_bits(), bits));
    sources.push_back(low(sources.back() ^ (1u << (bits - 1)), bits));
    return sources;
}

inline unsigned some_source(const Link &link) { return link.sources[below(link.sources.size())]; }

inline uint64_t some_address(const Link &link) { return low64(chance(30) ? below(8192) : chance(20) ? ~uint64_t(0) : random_bits(), link.address_bits); }

// Long bursts are rare, so that many messages come.
inline unsigned some_size(const Link &link) {
    unsigned of_beat = 0;
    while ((1u << of_beat) < link.width) of_beat++;
    unsigned size = chance(3) ? below(13) : chance(50) ? below(of_beat + 1) : below(of_beat + 4);
    return std::min<unsigned>({size, 12, low(~uint64_t(0), link.size_bits)});
}

inline std::vector<bool> some_mask(const Link &link) {
    std::vector<bool> mask(link.width);
    unsigned density = below(101);
    for (unsigned lane = 0; lane < link.width; lane++) mask[lane] = chance(density);
    return mask;
}

// A mask that the message may have; on C and D, which have none, no lanes.
inline std::vector<bool> lawful_mask(const Link &link, Channel channel, const Beat &b) {
    if (channel > B) return std::vector<bool>(link.width);
    std::vector<bool> mask = link.rules.active(b), some = some_mask(link);
    if (message(channel, b.opcode).name == "PutPartialData")
        for (unsigned lane = 0; lane < link.width; lane++) mask[lane] = mask[lane] && some[lane];
    return mask;
}

// Makes a beat of D the response to a request that is in flight, or to that of A in the same cycle.
inline void respond(const Link &link, Beat &b, const Beat *request_of_cycle) {
    const auto &in_flight = link.rules.in_flight;
    if (!in_flight.empty()) {
        auto request = std::next(in_flight.begin(), below(in_flight.size()));
        b.source = request->first, b.size = request->second;
    }
    if (request_of_cycle && chance(40)) b.source = request_of_cycle->source, b.size = request_of_cycle->size;
    if (b.size > 9 && chance(80)) b.opcode = b.opcode == 1 ? 0 : b.opcode == 5 ? 4 : b.opcode;  // fewer long bursts
}

inline Beat first_beat(const Link &link, Channel channel, const Beat *request_of_cycle) {
    Beat b;
    do b.opcode = below(8);
    while (message(channel, b.opcode).name.empty());
    const Message kind = message(channel, b.opcode);
    b.param = below(kind.params);
    b.size = some_size(link);
    b.source = some_source(link);
    if (channel == A)
        for (int i = 0; i < 8 && link.rules.in_flight.count(b.source); i++) b.source = some_source(link);
    if (Rules::responds(channel, b)) respond(link, b, request_of_cycle);
    b.sink = low(random_bits(), link.sink_bits);
    b.denied = chance(20);
    if (channel != D) b.address = low64(some_address(link) & ~((uint64_t(1) << b.size) - 1), link.address_bits);
    b.mask = lawful_mask(link, channel, b);
    b.corrupt = message(channel, b.opcode).has_data && chance(10);
    return b;
}

inline void plant_fault(const Link &link, Channel channel, Beat &b) {
    unsigned bit = below(16), lane = below(link.width);
    switch (below(11)) {
    case 0: b.opcode = channel >= C && chance(60) ? 3 : below(8); break;  // C and D have no message 3
    case 1: b.param = low(random_bits(), channel == D ? 2 : 3); break;
    case 2: b.size = low(chance(70) ? 13 + below(3) : b.size ^ (1u << below(8)), link.size_bits); break;
    case 3: b.size = low(chance(50) ? b.size + 1 : b.size - 1, link.size_bits); break;
    case 4: b.source = chance(50) ? some_source(link) : low(b.source ^ (1u << bit), link.source_bits); break;
    case 5: if (channel != D) b.address = low64(b.address ^ (uint64_t(1) << (chance(50) ? below(13) : below(64))), link.address_bits); break;
    case 6: b.sink = low(b.sink ^ (1u << bit), link.sink_bits); break;
    case 7: b.denied = !b.denied; break;
    case 8: b.corrupt = true; break;
    case 9: if (channel <= B) b.mask = chance(50) ? some_mask(link) : std::vector<bool>(link.width, chance(50)); break;
    case 10: if (channel <= B) b.mask[lane] = !b.mask[lane]; break;
    }
}

// The checker never has more requests in flight than it has room for.
inline Beat next_beat(const Link &link, Channel channel, const Beat *request_of_cycle) {
    Beat b;
    if (channel == E) {
        b.sink = low(random_bits(), link.sink_bits);
        return b;
    }
    if (link.rules.first(channel) || chance(2)) {
        b = first_beat(link, channel, request_of_cycle);
    } else {
        b = link.rules.rest[channel].front();
        b.mask = lawful_mask(link, channel, b);
        b.corrupt = chance(10);
    }
    if (chance(25))
        for (uint64_t n = chance(70) ? 1 : 1 + below(3); n > 0; n--) plant_fault(link, channel, b);
    if (channel == A && link.requests && link.rules.in_flight.size() == link.requests) b.source = link.rules.in_flight.begin()->first;
    return b;
}
