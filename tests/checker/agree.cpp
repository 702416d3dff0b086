// Gives random beats, lawful and faulty, to the checkers of links.sv, to the plain rules, and to the proved library where it is linked:
// all have to say the same fault of each beat.
//
//     agree LINKS CYCLES SEED [VECTORS]     LINKS is links.txt; VECTORS gets each cycle's inputs and faults, for replay.sv
//
// Status 0 where nothing differs, 1 where something does, 2 where too little was seen: of the beats of links with a library, or of all
// links where none is linked, a million, and each fault at first and later beats of each channel that has it a thousand times.
#include <cstdio>
#include <cstdlib>

#include "Vlinks.h"
#include "beats.h"
#include "library.h"
#include "verilated.h"

static const char *const NAMES[Faults] = {"no fault", "Opcode", "Param", "Size", "Unaligned", "Mask", "Corrupt", "HeadChanged", "SourceBusy", "NoRequest", "SizeMismatch"};
static const uint64_t ENOUGH_BEATS = 1000000, ENOUGH_FAULTS = 1000;

struct Cycle {
    bool reset = false, valid[Channels], ready[Channels], there[Channels], later[Channels];
    Beat beats[Channels];
    Fault faults[Channels];
};

struct Counts {
    uint64_t beats = 0, faults[Channels][Faults][2] = {};  // the last index: a later beat of a burst

    void add(const Cycle &cycle) {
        for (int k = 0; k < Channels; k++)
            if (cycle.there[k]) beats++, faults[k][cycle.faults[k]][cycle.later[k]]++;
    }
};

static std::vector<Link> read_links(const char *path) {
    std::vector<Link> links;
    FILE *file = fopen(path, "r");
    char line[200];
    while (file && fgets(line, sizeof line, file)) {
        Link l;
        if (sscanf(line, "%u %u %u %u %u %u %u %u %u %u", &l.number, &l.width, &l.address_bits, &l.size_bits, &l.source_bits, &l.sink_bits,
                &l.requests, &l.respond_at_once, &l.reuse_at_once, &l.recover) != 10) continue;
        l.rules.width = l.width;
        l.rules.recover = l.recover;
        l.sources = some_sources(l.source_bits);
        links.push_back(l);
    }
    if (links.size() != 8) fprintf(stderr, "agree: %s has no 8 links\n", path), exit(3);
    fclose(file);
    return links;
}

static Cycle some_cycle(const Link &link) {
    Cycle cycle;
    cycle.reset = below(20000) == 0;
    for (int k = 0; k < Channels; k++) {
        cycle.valid[k] = chance(75);
        cycle.ready[k] = chance(85);
        cycle.there[k] = cycle.valid[k] && cycle.ready[k] && !cycle.reset;
        cycle.beats[k] = next_beat(link, Channel(k), k == D && cycle.there[A] ? &cycle.beats[A] : nullptr);
        cycle.beats[k].mask.resize(link.width);
        cycle.later[k] = k < E && !link.rules.first(Channel(k));
    }
    return cycle;
}

// What the plain rules say. D without respond_at_once, and A without reuse_at_once, are judged by what was there before the cycle.
static void judge(Link &link, Cycle &cycle) {
    Verdict before[Channels];
    for (int k = 0; k < Channels; k++) before[k] = link.rules.judge(Channel(k), cycle.beats[k]);
    settle(cycle.there, cycle.faults, [&](Channel channel) {
        bool by_before = (channel == D && !link.respond_at_once) || (channel == A && !link.reuse_at_once);
        Verdict verdict = by_before ? before[channel] : link.rules.judge(channel, cycle.beats[channel]);
        if (verdict.taken) link.rules.take(channel, cycle.beats[channel]);
        return verdict;
    });
}

static void show(Vlinks &top, const Link &link, const Cycle &cycle) {
    top.link = static_cast<CData>(link.number);
    top.reset = cycle.reset ? 1u << link.number : 0;
    top.valid = top.ready = 0;
    for (int k = 0; k < Channels; k++) {
        const Beat &b = cycle.beats[k];
        top.valid |= cycle.valid[k] << k;
        top.ready |= cycle.ready[k] << k;
        if (k == D || k == E) top.sink[k - D] = static_cast<SData>(b.sink);
        if (k == E) continue;
        top.opcode[k] = static_cast<CData>(b.opcode);
        top.param[k] = static_cast<CData>(b.param);
        top.size[k] = static_cast<CData>(b.size);
        top.source[k] = static_cast<SData>(b.source);
        top.corrupt[k] = b.corrupt;
        if (k < D) top.address[k] = b.address;
        if (k > B) continue;
        for (int word = 0; word < 4; word++) top.mask[k][word] = 0;
        for (unsigned lane = 0; lane < link.width; lane++) top.mask[k][lane / 32] |= uint32_t(b.mask[lane]) << lane % 32;
    }
    top.denied = cycle.beats[D].denied;
    top.clock = 0;
    top.eval();
}

static void write(FILE *file, const Vlinks &top, const Cycle &cycle) {
    fprintf(file, "%x %x %x %x", top.link, top.reset, top.valid, top.ready);
    for (int k = 0; k < E; k++) {
        const Beat &b = cycle.beats[k];
        fprintf(file, " %x %x %x %x %x %x", b.opcode, b.param, b.size, b.source, b.corrupt, cycle.faults[k]);
    }
    for (int k = 0; k < D; k++) fprintf(file, " %lx", (unsigned long)cycle.beats[k].address);
    for (int k = 0; k < C; k++) fprintf(file, " %08x%08x%08x%08x", top.mask[k][3], top.mask[k][2], top.mask[k][1], top.mask[k][0]);
    fprintf(file, " %x %x %x\n", cycle.beats[D].sink, cycle.beats[E].sink, cycle.beats[D].denied);
}

static int differs(const char *who, const Link &link, const Cycle &cycle, uint64_t number, const unsigned said[Channels]) {
    printf("differs: %s, link %u of width %u, cycle %lu\n", who, link.number, link.width, (unsigned long)number);
    for (int k = 0; k < Channels; k++) {
        const Beat &b = cycle.beats[k];
        printf("  %c %s, %s: fault %u, and by the rules %u (opcode %u, param %u, size %u, source %x, address %lx, sink %x, denied %d, corrupt %d)\n",
            'A' + k, cycle.there[k] ? "accepted" : "not there", cycle.later[k] ? "later beat" : "first beat", said[k], cycle.faults[k], b.opcode,
            b.param, b.size, b.source, (unsigned long)b.address, b.sink, b.denied, b.corrupt);
    }
    return 1;
}

static bool has(int channel, int fault, int later) {
    switch (fault) {
    case None: return true;
    case Opcode: return !later && (channel == C || channel == D);
    case Param: case Size: case Corrupt: return !later && channel < E;
    case Unaligned: return !later && channel < D;
    case Mask: return channel < C;
    case HeadChanged: return later && channel < E;
    case SourceBusy: return !later && channel == A;
    default: return !later && channel == D;
    }
}

// Prints what was seen, and returns whether it was enough.
static bool enough(const Counts &counts) {
    bool all = counts.beats >= ENOUGH_BEATS;
    printf("%-24s%10s%10s%10s%10s%10s\n", "", "A", "B", "C", "D", "E");
    for (int fault = 0; fault < Faults; fault++)
        for (int later = 0; later < 2; later++) {
            if (!has(A, fault, later) && !has(D, fault, later)) continue;
            printf("%-13s%-11s", NAMES[fault], later ? "later" : "first");
            for (int k = 0; k < Channels; k++) {
                uint64_t n = counts.faults[k][fault][later];
                printf("%10lu", (unsigned long)n);
                if (has(k, fault, later) && !(k == E && later)) all = all && n >= ENOUGH_FAULTS;
            }
            printf("\n");
        }
    return all;
}

int main(int argc, char **argv) {
    if (argc < 4) return 3;
    uint64_t cycles = strtoull(argv[2], nullptr, 0);
    random_bits.seed(strtoull(argv[3], nullptr, 0));
    FILE *vectors = argc > 4 ? fopen(argv[4], "w") : nullptr;
    std::vector<Link> links = read_links(argv[1]);
    std::vector<std::unique_ptr<Library>> libraries;
    for (Link &link : links) libraries.push_back(Library::of(link.width));

    VerilatedContext context;
    Vlinks top{&context};
    top.reset = 0xff;
    for (int i = 0; i < 4; i++) {
        top.clock = i & 1;
        top.eval();
    }

    Counts all, by_library;
    uint64_t faults[8] = {};
    unsigned at = 1;
    for (uint64_t number = 0; number < cycles; number++) {
        if (chance(5)) at = chance(15) ? 0 : below(8);  // width 1 has the longest bursts
        Link &link = links[at];
        Cycle cycle = some_cycle(link);
        judge(link, cycle);
        unsigned said[Channels] = {};
        bool same = true;
        if (Library *library = libraries[at].get()) {
            Fault answers[Channels];
            if (cycle.reset) library->reset();
            settle(cycle.there, answers, [&](Channel channel) { return library->offer(channel, cycle.beats[channel]); });
            for (int k = 0; k < Channels; k++) said[k] = answers[k], same = same && said[k] == cycle.faults[k];
            if (!same) return differs("the library", link, cycle, number, said);
            by_library.add(cycle);
        }
        show(top, link, cycle);
        for (int k = 0; k < E; k++) said[k] = top.fault[k], same = same && said[k] == cycle.faults[k];
        said[E] = 0;
        if (!same || top.others || top.faults != (uint32_t)faults[at]) return differs("the checker", link, cycle, number, said);
        if (vectors) write(vectors, top, cycle);
        all.add(cycle);
        for (int k = 0; k < Channels; k++) faults[at] += cycle.faults[k] != None;
        if (cycle.reset) link.rules.reset(), faults[at] = 0;
        top.clock = 1;
        top.eval();
    }
    if (vectors) fclose(vectors);

    const Counts &counts = by_library.beats ? by_library : all;
    bool passes = enough(counts);
    printf("%lu beats of %lu cycles alike by checker and plain rules, %lu of them by the proved library too%s\n", (unsigned long)all.beats,
        (unsigned long)cycles, (unsigned long)by_library.beats, passes ? "" : ": too few, of all or of a kind");
    return passes ? 0 : 2;
}
