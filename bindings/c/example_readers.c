/* Two PCI readers: sized from what their base address registers read, planned together, and pinned. After a power dip they get the memory and ports that they
 * had. It prints what each register was granted then. */
#include "planner.h"
#include <inttypes.h>
#include <stdio.h>
#include <string.h>

#define READERS 2

/* What the registers of each read after all ones were written. */
static const uint64_t words[READERS][PLANNER_REGISTERS] = {
    {0xfffff000, 0xffffff01},             /* 4096 bytes of memory, 256 ports */
    {0xfffffff9, 0xffff000c, 0xffffffff}, /* 8 ports, 65536 bytes of memory: two words, since it may lie anywhere in 64 bits */
};

static uint64_t state[PLANNER_STATE_WORDS], requests[READERS * PLANNER_REGISTERS * PLANNER_REQUEST];

/* What the board gives, to be chosen from and to be asked for: 0, or the first refusal. */
static uint64_t board(void) {
    uint64_t refused = planner_begin(state);
    for (uint64_t use = 0; !refused && use < 2; use++) {
        refused = planner_pool_mmio(state, use, 0x10000000, 0x10100000);
        if (!refused) refused = planner_pool_pio(state, use, 0xc000, 0xd000);
    }
    return refused ? refused : planner_start(state);
}

/* The requests of all readers, 1 and 2, one behind the other: how many they are, or 0. */
static size_t sized(void) {
    size_t all = 0, count;
    for (size_t i = 0; i < READERS; i++, all += count)
        if (planner_size(words[i], 1 + i, requests + PLANNER_REQUEST * all, PLANNER_REGISTERS, &count) != 0) return 0;
    return all;
}

int main(void) {
    uint64_t first[READERS * PLANNER_REGISTERS * PLANNER_RECORD], second[READERS * PLANNER_REGISTERS * PLANNER_RECORD], answer[PLANNER_ANSWER];

    /* the first start; the pinned requests are what the stand keeps */
    size_t count = sized();
    if (count != 4 || board() != 0 || planner_run(state, requests, count, first, answer) != 0) return 1;
    if (planner_write_back(requests, count, first, answer) != 0) return 1;

    /* a power dip: the tables are gone */
    memset(state, 0xff, sizeof state);
    if (board() != 0 || planner_run(state, requests, count, second, answer) != 0) return 1;
    if (memcmp(first, second, PLANNER_RECORD * count * sizeof *first) != 0) return 1;
    for (const uint64_t *r = second; r < second + PLANNER_RECORD * count; r += PLANNER_RECORD)
        printf("reader %" PRIu64 " register %" PRIu64 ": %" PRIu64 " %s from %#" PRIx64 "\n", r[1], r[2], r[4], r[0] == 1 ? "bytes" : "ports", r[3]);
    puts("the same again, after the dip");
    return 0;
}
