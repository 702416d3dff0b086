// A bench in C++ for the adapter of examples/start: a host, a device, and the scoreboard on both links.
#include "Vadapter.h"
#include "tlbridge_scoreboard.h"
#include <cstdio>

struct Request {
    uint8_t opcode, size;
    uint32_t address;
    uint8_t mask;
    uint64_t data;
};
const Request requests[4] = {
    {0, 2, 0x1004, 0xf0, 0x4433221100000000},  // PutFullData
    {4, 2, 0x1004, 0xf0, 0},                   // Get
    {1, 1, 0x100a, 0x08, 0x00000000bb000000},  // PutPartialData
    {4, 2, 0x1008, 0x0f, 0},                   // Get
};

class Bench {
  public:
    Bench() : board(tl_scoreboard_open(8, 4, 0)) {}
    ~Bench() { tl_scoreboard_free(board); }

    bool is_open() const { return board != nullptr; }

    // One clock cycle. The host sends a request in each cycle from `first` on, and the device answers each two cycles later.
    void cycle(uint64_t time) {
        const uint64_t first = 2;
        dut.reset = time < first;
        dut.up_a_valid = !dut.reset && sent < 4;
        const Request &request = requests[sent & 3];
        dut.up_a_opcode = request.opcode;
        dut.up_a_size = request.size;
        dut.up_a_source = static_cast<CData>(sent);
        dut.up_a_address = request.address;
        dut.up_a_mask = request.mask;
        dut.up_a_data = request.data;
        dut.up_d_ready = dut.down_a_ready = 1;
        const bool answers = time >= first + 2 && answered < 4;
        const Request &asked = requests[answered & 3];
        dut.down_d_valid = answers;
        dut.down_d_opcode = asked.opcode == 4 ? 1 : 0;  // AccessAckData, AccessAck
        dut.down_d_size = asked.size;
        dut.down_d_source = static_cast<CData>(answered);
        dut.down_d_data = 0x03020100;
        dut.eval();
        report_accepted(time);
        sent += dut.up_a_valid;
        answered += answers;

        dut.clock = 1;
        dut.eval();
        dut.clock = 0;
        dut.eval();
    }

    // Prints and returns what is left at the end.
    uint64_t finish() {
        uint64_t differences = tl_scoreboard_finish(board);
        print_lines();
        return differences;
    }

  private:
    // Reports the beats that both links accept at the coming clock edge.
    void report_accepted(uint64_t time) {
        if (dut.reset) return;
        if (dut.up_a_valid && dut.up_a_ready)
            report(TL_CLIENT_LINK, 'A', time, request_beat(dut.up_a_opcode, dut.up_a_size, dut.up_a_source, dut.up_a_address, dut.up_a_mask), dut.up_a_data);
        if (dut.down_a_valid && dut.down_a_ready)
            report(TL_MANAGER_LINK, 'A', time, request_beat(dut.down_a_opcode, dut.down_a_size, dut.down_a_source, dut.down_a_address, dut.down_a_mask), dut.down_a_data);
        if (dut.down_d_valid && dut.down_d_ready)
            report(TL_MANAGER_LINK, 'D', time, response_beat(dut.down_d_opcode, dut.down_d_size, dut.down_d_source, dut.down_d_error), dut.down_d_data);
        if (dut.up_d_valid && dut.up_d_ready)
            report(TL_CLIENT_LINK, 'D', time, response_beat(dut.up_d_opcode, dut.up_d_size, dut.up_d_source, dut.up_d_error), dut.up_d_data);
    }

    static tl_beat request_beat(uint8_t opcode, uint8_t size, tl_id source, uint64_t address, uint64_t mask) {
        tl_beat beat = {};
        beat.opcode = opcode;
        beat.size = size;
        beat.source = source;
        beat.address = address;
        beat.mask = mask;
        return beat;
    }

    static tl_beat response_beat(uint8_t opcode, uint8_t size, tl_id source, uint8_t denied) {
        tl_beat beat = {};
        beat.opcode = opcode;
        beat.size = size;
        beat.source = source;
        beat.denied = denied;
        return beat;
    }

    // Lane 0 is the lowest byte of the data.
    void report(int link, char channel, uint64_t time, const tl_beat &beat, uint64_t data) {
        uint8_t lanes[8];
        for (int lane = 0; lane < 8; lane++) lanes[lane] = uint8_t(data >> (8 * lane));
        tl_scoreboard_beat(board, link, channel, time, &beat, lanes);
        print_lines();
    }

    void print_lines() {
        uint64_t time;
        while (const char *line = tl_scoreboard_next_message(board, &time)) std::printf("time %d: %s\n", int(time), line);
    }

    Vadapter dut;
    tl_scoreboard *board;
    unsigned sent = 0, answered = 0;
};

int main() {
    Bench bench;
    if (!bench.is_open()) {
        std::fprintf(stderr, "the library has no pair of 8 and 4 bytes: make install PAIRS=\"8:4\"\n");
        return 2;
    }
    for (uint64_t time = 0; time < 12; time++) bench.cycle(time);
    std::printf("%d differences\n", int(bench.finish()));
}
