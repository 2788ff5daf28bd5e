/* Two tills and a card reader: planned, pinned, and planned again on a fresh state. It prints what each was granted. */
#include "planner.h"
#include <inttypes.h>
#include <stdio.h>
#include <string.h>

static uint64_t state[PLANNER_STATE_WORDS];

/* What the board gives: 0, or the first refusal. */
static uint64_t board(void) {
    uint64_t refused = planner_begin(state);
    for (uint64_t use = 0; !refused && use < 2; use++) {
        refused = planner_pool_mmio(state, use, 0x10000000, 0x10100000);
        if (!refused) refused = planner_pool_host(state, use, 40, 60);
    }
    if (!refused) refused = planner_hold_host(state, 100, 40, 41);
    return refused ? refused : planner_start(state);
}

int main(void) {
    uint64_t requests[3 * PLANNER_REQUEST] = {
        1, 1, 0, 0x1000, 0x1000, 0, 0, 0, 0, 0, 0, 0, /* the card reader: memory */
        4, 2, 0, 0, 0, 0, 0, 0, 0, 0, 0, 0,           /* the first till: a host IRQ */
        4, 3, 0, 0, 0, 0, 0, 0, 0, 0, 0, 0,           /* the second till: a host IRQ */
    };
    uint64_t first[3 * PLANNER_RECORD], second[3 * PLANNER_RECORD], answer[PLANNER_ANSWER], row[PLANNER_ROW];

    if (board() != 0 || planner_run(state, requests, 3, first, answer) != 0) return 1;
    for (size_t i = 0; i < 3; i++) printf("device %" PRIu64 ": %" PRIu64 "\n", first[9 * i + 1], first[9 * i + 3]);
    if (planner_row(state, 4, 4, 0, row) != 0 || row[0] != 3 || row[8] != 100) return 1;

    /* the plan with its answers written back gets the same numbers on a fresh state */
    if (planner_write_back(requests, 3, first, answer) != 0) return 1;
    if (board() != 0 || planner_run(state, requests, 3, second, answer) != 0) return 1;
    if (memcmp(first, second, sizeof first) != 0) return 1;
    puts("the same again");
    return 0;
}
