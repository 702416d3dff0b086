/* The messages of each channel. Made from python/tlbridge/protocol.py, and written again by
 * `tools/run-tests tests/repository/test_protocol.py --write`. */
#ifndef TLBRIDGE_TESTS_PROTOCOL_H
#define TLBRIDGE_TESTS_PROTOCOL_H

#include <stdbool.h>

/* A message: its name, whether it carries data, and how many params it has. An opcode without a message has none. */
typedef struct {
    const char *name;
    bool has_data;
    unsigned params;
} tl_kind;

/* By channel, from A to D, and opcode. */
static const tl_kind tl_kinds[4][8] = {
    {
        {"PutFullData", true, 1},
        {"PutPartialData", true, 1},
        {"ArithmeticData", true, 5},
        {"LogicalData", true, 4},
        {"Get", false, 1},
        {"Intent", false, 2},
        {"AcquireBlock", false, 3},
        {"AcquirePerm", false, 3},
    },
    {
        {"PutFullData", true, 1},
        {"PutPartialData", true, 1},
        {"ArithmeticData", true, 5},
        {"LogicalData", true, 4},
        {"Get", false, 1},
        {"Intent", false, 2},
        {"ProbeBlock", false, 3},
        {"ProbePerm", false, 3},
    },
    {
        {"AccessAck", false, 1},
        {"AccessAckData", true, 1},
        {"HintAck", false, 1},
        {"", false, 0},
        {"ProbeAck", false, 6},
        {"ProbeAckData", true, 6},
        {"Release", false, 6},
        {"ReleaseData", true, 6},
    },
    {
        {"AccessAck", false, 1},
        {"AccessAckData", true, 1},
        {"HintAck", false, 1},
        {"", false, 0},
        {"Grant", false, 3},
        {"GrantData", true, 3},
        {"ReleaseAck", false, 1},
        {"", false, 0},
    },
};

#endif
