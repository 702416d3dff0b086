// Plays a trace through the bridge and writes the far beats in the form of the answer of `tlbridge run`.
//
//     top TRACE FAR [client=PS] [manager=PS] [single] [drift=PERCENT] [stalls=0|1] [seed=N] [steady] [through] [later] [resets=ANSWER]
//
// Two clocks with periods in picoseconds that wander by DRIFT percent and jitter; `single` gives both links the client's clock. With stalls each
// valid and ready is drawn with a chance that changes now and then; without, each is 1 as soon as it may be. A request waits until its source is
// free. A response waits until its request has arrived, and may come in the same cycle unless `later` is given. With `steady` a valid stays
// until ready. Where valid is 0, all fields are noise.
//
// Checked in each cycle: a far beat stays until it is taken; no valid or ready of the bridge changes with an input in a cycle (neither with
// `through`, for a bridge without a FIFO); both are 0 in their link's reset; user bits; the checkers on both links see no fault.
//
// With resets=ANSWER (the model's answer to the trace) the two resets come at random, alone or together, in mid-burst, and end in any order.
// Then each far beat has to be the next of its channel in the answer, or a later one if a reset explains what is missing, and never the rest
// of a burst whose beginning is missing. An agent in reset drops its message; requests outstanding over a reset get no response. Before some
// resets the senders pause, and each message sent since the last reset has to arrive.
//
// The status is 1 if something stalls or one of the checks fails; 2 if a word is wrong.
#include <algorithm>
#include <cstdio>
#include <cstdlib>
#include <cstring>
#include <fstream>
#include <memory>
#include <random>
#include <sstream>
#include <string>
#include <unistd.h>
#include <vector>
#include "Vtop.h"
#include "verilated.h"
#if VM_COVERAGE
#include "verilated_cov.h"
#endif

static std::mt19937_64 rng(1);
static unsigned draw(unsigned n) { return static_cast<unsigned>(rng() % n); }

// a beat in the words of top.sv
struct Beat {
    uint32_t w[40] = {};
    unsigned opcode() const { return w[0] & 7; }
    unsigned param() const { return w[0] >> 8 & 7; }
    unsigned size() const { return w[0] >> 16 & 255; }
    unsigned corrupt() const { return w[0] >> 24 & 1; }
    unsigned denied() const { return w[0] >> 25 & 1; }
    unsigned source() const { return w[1] & 0xffff; }
    unsigned sink() const { return w[1] >> 16; }
    bool operator==(const Beat& o) const { return !memcmp(w, o.w, sizeof w); }
};
static Beat noise() {
    Beat b;
    for (auto& x : b.w) x = static_cast<uint32_t>(rng());
    return b;
}

static bool carries(int k, unsigned op) { return k == 4 ? false : k < 2 ? op < 4 : op & 1; }
static int version, widths[2];  // client, manager
static unsigned beats_of(int k, const Beat& b, unsigned width) {
    return carries(k, b.opcode()) && (1u << b.size()) > width ? (1u << b.size()) / width : 1;
}
static int busy[65536], open_requests[65536];
static std::vector<size_t> request_of(65536, SIZE_MAX);  // the place in the trace of the first request of a source

struct Message { size_t near, far; double begun = -1; };  // its first beats in both lists; when its first beat was accepted

struct Channel {
    int k, near;  // near: 0 client, 1 manager
    std::vector<Beat> trace, got, due;
    std::vector<Message> messages;
    std::vector<size_t> message_of_near, message_of_far;
    size_t at = 0, accepted = 0, far_at = 0;
    size_t far_expected = 0;  // far beats for the whole trace
    unsigned left = 0, far_left = 0;  // beats of the message under way, near and far
    double p_valid = 1, p_ready = 1;
    bool standing = false;
    Beat stood;
    uint64_t first_cycle = 0, last_cycle = 0;
};
static Channel ch[5];

static void digits(const std::string& s, uint32_t* words) {
    int n = static_cast<int>(s.size());
    for (int i = 0; i < n; i++) {
        char c = s[n - 1 - i];
        words[i / 8] |= uint32_t(c <= '9' ? c - '0' : c - 'a' + 10) << 4 * (i % 8);
    }
}
static bool parse(const std::string& line, int& k, Beat& b) {
    std::istringstream words(line);
    std::vector<std::string> f;
    for (std::string w; words >> w;) f.push_back(w);
    if (f.empty() || f[0].size() != 1 || f[0][0] < 'A' || f[0][0] > 'E') return false;
    k = f[0][0] - 'A';
    auto num = [&](size_t i) { return unsigned(strtoull(f[i].c_str(), nullptr, 16)); };
    if (k == 4) { b.w[1] = num(1) << 16; return true; }
    b.w[0] = num(1) | num(2) << 8 | num(3) << 16, b.w[1] = num(4);
    size_t i = 5;
    if (k == 3) b.w[1] |= num(5) << 16, b.w[0] |= num(6) << 25, i = 7;
    else digits(f[i++], b.w + 2);
    if (k < 2) digits(f[i++], b.w + 4);
    digits(f[i], b.w + 8), b.w[0] |= num(i + 1) << 24;
    return true;
}
static std::string line_of(int k, const Beat& b, int width) {
    char t[64];
    static const char* hex = "0123456789abcdef";
    int d = 2 * version;
    std::string s(1, "ABCDE"[k]);
    if (k == 4) { snprintf(t, sizeof t, " %0*x", d, b.sink()); return s + t; }
    snprintf(t, sizeof t, " %x %x %x %0*x", b.opcode(), b.param(), b.size(), d, b.source()); s += t;
    if (k == 3) snprintf(t, sizeof t, " %0*x %x", d, b.sink(), b.denied());
    else snprintf(t, sizeof t, " %08x%08x", b.w[3], b.w[2]);
    s += t;
    if (k < 2) { s += ' '; for (int i = (width + 3) / 4 - 1; i >= 0; i--) s += hex[b.w[4 + i / 8] >> 4 * (i % 8) & 15]; }
    s += ' ';
    for (int i = 2 * width - 1; i >= 0; i--) s += hex[b.w[8 + i / 8] >> 4 * (i % 8) & 15];
    return s + (b.corrupt() ? " 1" : " 0");
}

static bool read_trace(const char* path) {
    std::ifstream file(path);
    std::string line;
    std::getline(file, line);
    if (sscanf(line.c_str(), "tilelink-trace %d client %d manager %d", &version, &widths[0], &widths[1]) != 3) return false;
    while (std::getline(file, line)) {
        int k = 0;
        Beat b;
        if (!parse(line, k, b)) return false;
        if (k == 0 && request_of[b.source()] == SIZE_MAX) request_of[b.source()] = ch[0].trace.size();
        ch[k].trace.push_back(b);
    }
    for (auto& c : ch) {
        size_t far = 0;
        for (size_t i = 0; i < c.trace.size();) {
            unsigned n = beats_of(c.k, c.trace[i], widths[c.near]), m = beats_of(c.k, c.trace[i], widths[!c.near]);
            c.messages.push_back({i, far});
            for (unsigned j = 0; j < n; j++, i++) c.message_of_near.push_back(c.messages.size() - 1);
            for (unsigned j = 0; j < m; j++, far++) c.message_of_far.push_back(c.messages.size() - 1);
        }
        c.far_expected = far;
    }
    return true;
}

// ---- One simulation

static std::unique_ptr<Vtop> top;
static double now = 0, period[2] = {1000, 1370}, drift = 10;
static bool single = false, stalls = true, steady = false, through = false, later = false, with_resets = false;
static unsigned faults = 0;
static double window_start = -1, settled_at = -1;  // of the last reset
static unsigned idle[2] = {0, 0};  // edges of each clock since a beat moved
static bool pauses = false;  // before a reset: no sender begins a message, and nothing stalls

static void fault(const Channel& c, const char* what) {
    if (faults++ < 5) fprintf(stderr, "%.0f ps: channel %c: %s\n", now, "ABCDE"[c.k], what);
}
static CData& reset_of(int side) { return side ? top->manager_reset : top->client_reset; }
static Beat far_beat(int k) {
    Beat b;
    for (int i = 0; i < 40; i++) b.w[i] = top->far_beats[40 * k + i];
    return b;
}
static void offer(int k, bool valid, const Beat& b) {
    top->near_valid = static_cast<CData>((top->near_valid & ~(1 << k)) | valid << k);
    for (int i = 0; i < 40; i++) top->near_beats[40 * k + i] = b.w[i];
}
static bool near_valid(int k) { return top->near_valid >> k & 1; }
static bool near_ready(int k) { return top->near_ready >> k & 1; }
static bool far_valid(int k) { return top->far_valid >> k & 1; }
static bool far_ready(int k) { return top->far_ready >> k & 1; }

// with resets: the far beat has to be due, after those before it, and what is skipped has to be explained
static void compare(Channel& c, const Beat& b) {
    size_t j = c.far_at;
    while (j < c.due.size() && !(c.due[j] == b && c.messages[c.message_of_far[j]].begun >= 0)) j++;
    if (j >= c.due.size()) return fault(c, "a far beat that is not due: doubled, replayed or invented");
    const Message& m = c.messages[c.message_of_far[j]];
    if (j != c.far_at && j != m.far) fault(c, "the rest of a burst whose beginning is missing");
    for (size_t i = c.far_at; i < j; i++) {
        const Message& lost = c.messages[c.message_of_far[i]];
        if (lost.begun >= 0 && !(lost.begun <= settled_at)) return fault(c, "a far beat is missing, and no reset explains it");
    }
    c.far_at = j + 1;
}

// with resets: each message that was sent since the last reset has arrived
static void all_arrived(const char* otherwise) {
    for (auto& c : ch)
        for (size_t i = c.far_at; i < c.due.size(); i++)
            if (c.messages[c.message_of_far[i]].begun > settled_at) { fault(c, otherwise); break; }
}

static void far_fires(Channel& c, uint64_t cycle) {
    Beat b = far_beat(c.k);
    if (top->user_differs) fault(c, "user or echo bits differ");
    if (!c.far_left) {
        c.far_left = beats_of(c.k, b, widths[!c.near]);
        if (c.k == 0) open_requests[b.source()]++;
        if (c.k == 3 && b.opcode() != 6) busy[b.source()]--;  // without a FIFO before its request counts
    }
    c.far_left--;
    if (c.got.empty()) c.first_cycle = cycle;
    c.last_cycle = cycle;
    c.got.push_back(b);
}
static void near_fires(Channel& c) {
    const Beat& b = c.trace[c.at];
    if (!c.left) {
        c.left = beats_of(c.k, b, widths[c.near]);
        c.messages[c.message_of_near[c.at]].begun = now;
        if (c.k == 0) busy[b.source()]++;
        if (c.k == 3 && b.opcode() != 6 && open_requests[b.source()]) open_requests[b.source()]--;
    }
    c.left--, c.at++, c.accepted++;
}
static void skip_message(Channel& c) {
    size_t m = c.message_of_near[c.at];
    while (c.at < c.trace.size() && c.message_of_near[c.at] == m) c.at++;
    c.left = 0;
}

// whether the next beat of a channel may be offered
static bool may_offer(Channel& c) {
    if (reset_of(c.near) || c.at >= c.trace.size()) return false;
    if (c.left) return true;
    if (pauses && c.k != 3) return false;  // (responses come to an end without requests, which may need them to arrive)
    const Beat& b = c.trace[c.at];
    if (with_resets && (c.k == 0 || c.k == 3) && now <= settled_at) return false;
    if (c.k == 0) {
        bool frees = far_valid(3) && far_ready(3) && !ch[3].far_left && far_beat(3).source() == b.source() && far_beat(3).opcode() != 6;
        return busy[b.source()] == (frees ? 1 : 0);
    }
    if (c.k == 3 && b.opcode() != 6) {
        bool arrives = far_valid(0) && far_ready(0) && !ch[0].far_left && far_beat(0).source() == b.source() && !later;
        if (open_requests[b.source()] > 0 || arrives) return true;
        // with resets: a response whose request was never sent, or sent before the last reset, is left out
        if (with_resets && ch[0].at > request_of[b.source()] && ch[0].messages[ch[0].message_of_near[request_of[b.source()]]].begun <= settled_at) skip_message(c);
        return false;
    }
    return true;
}

// ---- Resets at random

static double next_reset = 0, ends_at[2] = {0, 0};
static int resets_left = 0, resets_done = 0;
static bool pause_first = false;  // the senders pause before the next reset
static int starts = 0;  // with one clock, the side whose reset begins first

static void begin_reset(int side) {
    reset_of(side) = 1;
    for (auto& c : ch) {
        if (c.near == side && c.left) skip_message(c);
        if (c.near != side) c.far_left = 0;
    }
    memset(busy, 0, sizeof busy), memset(open_requests, 0, sizeof open_requests);
    window_start = now, settled_at = 1e300;
}
// after an edge of `side`, before its inputs are drawn
static void draw_resets(int side) {
    double slow = std::max(period[0], period[1]);
    if (reset_of(side) && now >= ends_at[side]) reset_of(side) = 0;
    if (!top->client_reset && !top->manager_reset && settled_at > 1e299) {
        settled_at = now + 60 * slow;
        next_reset = settled_at + (40 + draw(400)) * slow;
        pause_first = draw(2), starts = draw(2);
        if (draw(4) == 0) next_reset = now + draw(60) * slow, pause_first = false;  // another one before this one has settled
    }
    // the first one of an episode, and perhaps the other one in its course; none in the last fifth of the traffic, so that what comes after the
    // last reset has to arrive
    bool is_late = true;
    for (auto& c : ch) is_late = is_late && 5 * c.at >= 4 * c.trace.size();
    bool due = !is_late && resets_left > 0 && now >= next_reset && settled_at < 1e299;
    bool other = settled_at > 1e299 && !reset_of(side) && reset_of(!side) && draw(40) == 0;
    pauses = due && pause_first;
    if (pauses && std::min(idle[0], idle[1]) > 100) pauses = false, all_arrived("a far beat is missing before the next reset");
    bool first = due && !pauses && (!single || side == starts);
    if (first || other) {
        if (first) resets_left--, resets_done++;
        if (first && draw(3) == 0 && single) begin_reset(!side), ends_at[!side] = now + (1 + draw(30)) * slow;  // at least one edge
        begin_reset(side);
        ends_at[side] = draw(3) ? now + draw(40) * slow : now;  // now: for one edge
    }
}
static void forget_old_requests() {
    static double done = -1;
    if (settled_at < now && done != settled_at) {
        done = settled_at;
        memset(busy, 0, sizeof busy), memset(open_requests, 0, sizeof open_requests);
        for (auto& c : ch) c.far_left = 0;  // no reset leaves the rest of a burst to come
    }
}

static int play(const char* far_path) {
    uint64_t cycles[2] = {0, 0};
    double next[2] = {0, single ? 0 : double(draw(1000))}, pace[2] = {1, 1};
    int high[2] = {0, 0};
    double ratio = std::max(1.0, std::max(period[0], period[1]) / std::min(period[0], period[1]));
    unsigned long_idle = with_resets ? 3000 : static_cast<unsigned>(60000 / ratio);
    long_idle = std::max(long_idle, 5000u);
    double slow = std::max(period[0], period[1]);
    top->client_reset = top->manager_reset = 1;
    top->near_valid = 0, top->far_ready = 0;
    double up_at = 20 * slow;
    double release[2] = {up_at + draw(8) * period[0], up_at + draw(8) * period[1]};
    if (single && !with_resets && draw(2)) release[0] = release[1];
    bool released[2] = {false, false};
    settled_at = 0;
    next_reset = up_at + 100 * slow;
    top->eval();
    bool rises[2], edge[2];
    while (true) {
        now = std::min(next[0], next[1]);
        for (int s = 0; s < 2; s++) edge[s] = single || next[s] == now, rises[s] = false;
        for (int s = 0; s < 2; s++) {
            if (!edge[s]) continue;
            high[s] ^= 1, rises[s] = high[s];
            if (drift > 0 && !(single && s == 1)) {
                pace[s] += (draw(2001) / 1000.0 - 1) * 0.01;
                pace[s] = std::min(1 + drift / 100, std::max(1 - drift / 100, pace[s]));
            }
            next[s] = single && s == 1 ? next[0] : now + std::max(1.0, period[s] / 2 * pace[s] * (drift > 0 ? 1 + (draw(201) / 100.0 - 1) * 0.05 : 1));
        }
        top->time_step = 1, top->eval(), top->time_step = 0, top->eval();
        // what fires at these edges
        bool moved = false;
        bool fired[5] = {};
        for (auto& c : ch)
            if (rises[!c.near] && !reset_of(!c.near) && far_valid(c.k) && far_ready(c.k)) far_fires(c, cycles[!c.near]), fired[c.k] = moved = true;
        for (auto& c : ch)
            if (rises[c.near] && !reset_of(c.near) && near_valid(c.k) && near_ready(c.k)) near_fires(c), moved = true;
        // (without a FIFO a far beat arrives at the edge at which its near beat is accepted)
        for (auto& c : ch)
            if (with_resets && fired[c.k]) compare(c, c.got.back());
        if (moved) idle[0] = idle[1] = 0;
        for (auto& c : ch)
            if (rises[!c.near]) c.standing = !reset_of(!c.near) && far_valid(c.k) && !far_ready(c.k), c.stood = far_beat(c.k);
        bool held[5];
        for (auto& c : ch) held[c.k] = steady && near_valid(c.k) && !near_ready(c.k);
        if (edge[0]) top->client_clock = static_cast<CData>(high[0]);
        if (edge[1]) top->manager_clock = static_cast<CData>(high[1]);
        top->eval();
        if (!rises[0] && !rises[1]) continue;
        for (int s = 0; s < 2; s++) if (rises[s]) cycles[s]++, idle[s]++;
        // resets change after an edge of their clock
        for (int s = 0; s < 2; s++) {
            if (!rises[s]) continue;
            if (!released[s]) { if (now >= release[s]) released[s] = true, reset_of(s) = 0; }
            else if (with_resets && released[0] && released[1]) draw_resets(s);
        }
        if (with_resets) forget_old_requests();
        top->eval();
        bool in_reset = top->client_reset || top->manager_reset || now <= settled_at;
        // readies, then valids, of each side that had an edge
        for (auto& c : ch) {
            int f = !c.near;
            if (c.standing && rises[f] && !(with_resets && in_reset) && !(through && !steady) && !(far_valid(c.k) && far_beat(c.k) == c.stood))
                fault(c, "a far beat did not stay");
            if (stalls && draw(256) == 0) { static const double p[] = {1, 1, 0.9, 0.5, 0.2, 0.05}; c.p_valid = p[draw(6)], c.p_ready = p[draw(6)]; }
            if (rises[f]) {
                bool ready = !reset_of(f) && (pauses || draw(1000) < 1000 * c.p_ready);
                top->far_ready = static_cast<CData>((top->far_ready & ~(1 << c.k)) | ready << c.k);
            }
            if (rises[c.near] && !(held[c.k] && !reset_of(c.near))) held[c.k] = false, offer(c.k, false, noise());
        }
        if (through) top->eval();
        unsigned valids = top->far_valid, readies = top->near_ready;
        static const int orders[2][5] = {{0, 3, 1, 2, 4}, {3, 0, 1, 2, 4}};
        for (int k : orders[through && draw(2)]) {
            Channel& c = ch[k];
            if (!rises[c.near] || held[k]) continue;
            if (may_offer(c) && (pauses || draw(1000) < 1000 * c.p_valid)) offer(k, true, c.trace[c.at]);
            if (through) top->eval();
        }
        top->eval();
        if (!through && (valids != top->far_valid || readies != top->near_ready)) fault(ch[0], "a valid or ready changed with an input");
        for (auto& c : ch)
            if ((reset_of(c.near) && near_ready(c.k)) || (reset_of(!c.near) && far_valid(c.k))) fault(c, "valid or ready in reset");
        // the end
        if (idle[0] > long_idle && idle[1] > long_idle) break;
        bool all = true, extra = false;
        for (auto& c : ch) all = all && c.at == c.trace.size() && (with_resets || c.got.size() >= c.far_expected), extra = extra || c.got.size() > c.far_expected + 100;
        if ((all && idle[0] > 100 && idle[1] > 100 && !(with_resets && now <= settled_at)) || extra || faults > 1000) break;
    }

    // ---- The far beats and the verdict
    FILE* out = fopen(far_path, "w");
    if (!out) return 2;
    fprintf(out, "tilelink-far %d client %d manager %d\n", version, widths[0], widths[1]);
    size_t near_total = 0, far_total = 0;
    bool done = true;
    for (auto& c : ch) {
        for (auto& b : c.got) fprintf(out, "%s\n", line_of(c.k, b, widths[!c.near]).c_str());
        near_total += c.accepted, far_total += c.got.size();
        done = done && c.at == c.trace.size() && (with_resets || c.got.size() == c.far_expected);
    }
    if (with_resets) all_arrived("a far beat is missing at the end");
    for (auto& c : ch) fprintf(out, "= %c %s %zu %zu\n", "ABCDE"[c.k], c.left ? "cut" : "done", c.at, c.got.size());
    fclose(out);
    if (!with_resets && (top->client_faults || top->manager_faults)) {
        fprintf(stderr, "the checkers saw %u faults at the client's link, %u at the manager's\n", top->client_faults, top->manager_faults);
        faults += top->client_faults + top->manager_faults;
    }
    printf("near %zu far %zu cycles %llu %llu resets %d faults %u%s", near_total, far_total, (unsigned long long)cycles[0], (unsigned long long)cycles[1], resets_done, faults,
           done ? "" : " STALLED");
    for (auto& c : ch)
        if (c.got.size() > 1) printf(" %c %.4f", "ABCDE"[c.k], double(c.last_cycle - c.first_cycle) / double(c.got.size() - 1));
    printf("\n");
    return done && !faults ? 0 : 1;
}

int main(int argc, char** argv) {
    Verilated::commandArgs(argc, argv);
    if (argc < 3) return 2;
    for (int k = 0; k < 5; k++) ch[k].k = k, ch[k].near = k == 1 || k == 3;
    if (!read_trace(argv[1])) return fprintf(stderr, "%s: no trace\n", argv[1]), 2;
    for (int i = 3; i < argc; i++) {
        std::string w = argv[i], name = w.substr(0, w.find('=')), value = w.substr(std::min(w.size(), name.size() + 1));
        if (name == "single") single = true;
        else if (name == "client") period[0] = atof(value.c_str());
        else if (name == "manager") period[1] = atof(value.c_str());
        else if (name == "drift") drift = atof(value.c_str());
        else if (name == "stalls") stalls = value == "1";
        else if (name == "seed") rng.seed(atoi(value.c_str())), Verilated::randSeed(atoi(value.c_str()));
        else if (name == "steady") steady = true;
        else if (name == "through") through = true;
        else if (name == "later") later = true;
        else if (name == "resets") {
            with_resets = true, resets_left = 200;
            std::ifstream file(value);
            std::string line;
            while (std::getline(file, line)) {
                int k;
                Beat b;
                if (line[0] >= 'A' && line[0] <= 'E' && parse(line, k, b)) ch[k].due.push_back(b);
            }
        } else if (w[0] != '+') return fprintf(stderr, "unknown word %s\n", w.c_str()), 2;
    }
    if (single) period[1] = period[0];
    top.reset(new Vtop);
    int status = play(argv[2]);
#if VM_COVERAGE
    if (const char* path = getenv("COVERAGE")) Verilated::threadContextp()->coveragep()->write(path);
#endif
    top->final();
    fflush(stdout);
    _exit(status);  // no destructors of static objects
    return status;
}
