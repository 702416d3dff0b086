// Drives both clocks of bench.sv, and is a second scoreboard, in C++. The exit status is 1 where it sees a difference, 2 where the one by
// DPI does, 3 where both do.
#include "tlbridge_scoreboard.h"
#include "Vbench.h"
#include "verilated.h"
#include <cinttypes>
#include <cstdio>
#include <cstdlib>

namespace {

class Scoreboard {
  public:
    Scoreboard() : board(tl_scoreboard_open(8, 4, 0)) {
        if (board != nullptr) return;
        std::fprintf(stderr, "the library has no pair 8:4, which this example needs, or there is no memory; it has %s\n", tl_scoreboard_pairs());
        std::exit(4);
    }
    ~Scoreboard() { tl_scoreboard_free(board); }
    Scoreboard(const Scoreboard &) = delete;

    void at_client(const Vbench &dut, uint64_t time) {
        if (dut.client_a_accepted) {
            tl_beat beat = {};
            beat.address = dut.client_a_address;
            beat.mask = dut.client_a_mask;
            beat.source = dut.client_a_source;
            beat.opcode = dut.client_a_opcode;
            beat.param = dut.client_a_param;
            beat.size = dut.client_a_size;
            beat.corrupt = dut.client_a_corrupt;
            tell(TL_CLIENT_LINK, 'A', time, beat, dut.client_a_data);
        }
        if (dut.client_d_accepted) {
            tl_beat beat = {};
            beat.source = dut.client_d_source;
            beat.sink = dut.client_d_sink;
            beat.opcode = dut.client_d_opcode;
            beat.param = dut.client_d_param;
            beat.size = dut.client_d_size;
            beat.denied = dut.client_d_denied;
            beat.corrupt = dut.client_d_corrupt;
            tell(TL_CLIENT_LINK, 'D', time, beat, dut.client_d_data);
        }
    }

    void at_manager(const Vbench &dut, uint64_t time) {
        if (dut.manager_a_accepted) {
            tl_beat beat = {};
            beat.address = dut.manager_a_address;
            beat.mask = dut.manager_a_mask;
            beat.source = dut.manager_a_source;
            beat.opcode = dut.manager_a_opcode;
            beat.param = dut.manager_a_param;
            beat.size = dut.manager_a_size;
            beat.corrupt = dut.manager_a_corrupt;
            tell(TL_MANAGER_LINK, 'A', time, beat, dut.manager_a_data);
        }
        if (dut.manager_d_accepted) {
            tl_beat beat = {};
            beat.source = dut.manager_d_source;
            beat.sink = dut.manager_d_sink;
            beat.opcode = dut.manager_d_opcode;
            beat.param = dut.manager_d_param;
            beat.size = dut.manager_d_size;
            beat.denied = dut.manager_d_denied;
            beat.corrupt = dut.manager_d_corrupt;
            tell(TL_MANAGER_LINK, 'D', time, beat, dut.manager_d_data);
        }
    }

    uint64_t finish() {
        uint64_t differences = tl_scoreboard_finish(board);
        say();
        return differences;
    }

  private:
    // Lane 0 is the lowest byte of the data.
    void tell(int link, char channel, uint64_t time, const tl_beat &beat, uint64_t data) {
        uint8_t lanes[8];
        for (int lane = 0; lane < 8; lane++) lanes[lane] = uint8_t(data >> (8 * lane));
        tl_scoreboard_beat(board, link, channel, time, &beat, lanes);
        say();
    }

    void say() {
        uint64_t at;
        while (const char *line = tl_scoreboard_next_message(board, &at)) std::printf("C++: time %" PRIu64 ": %s\n", at, line);
    }

    tl_scoreboard *board;
};

} // namespace

int main(int argc, char **argv) {
    Verilated::commandArgs(argc, argv);
    Scoreboard board;
    Vbench dut;
    const uint64_t client_half = 5, manager_half = 7, reset_until = 100, most = 2000000;
    uint64_t last_done = 0, time;
    dut.reset = 1;
    dut.eval();
    for (time = 1; time < most && (last_done == 0 || time <= last_done + 1000); time++) {
        bool client = time % client_half == 0, manager = time % manager_half == 0;
        if (!client && !manager) continue;
        Verilated::threadContextp()->time(time);
        if (time >= reset_until) dut.reset = 0;
        // what was accepted is what stood there before the edge
        if (!dut.reset && client && !dut.client_clock) board.at_client(dut, time);
        if (!dut.reset && manager && !dut.manager_clock) board.at_manager(dut, time);
        dut.client_clock ^= client;
        dut.manager_clock ^= manager;
        dut.eval();
        if (dut.done && last_done == 0) last_done = time;
    }
    uint64_t differences = board.finish();
    dut.final();
    std::printf("C++: %" PRIu64 " differences, at time %" PRIu64 "; the traffic %s\n", differences, time, last_done ? "ended" : "does not end");
    return (differences > 0 || last_done == 0 ? 1 : 0) + (dut.dpi_differences > 0 ? 2 : 0);
}
