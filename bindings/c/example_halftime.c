/* Half-time at a stand. Two card readers and a printer are planned; then one reader is pulled out, and a scale that waited gets its memory, ports and messages.
 * Everyone else keeps what they had. After a power dip those who are there come back, in another order too, with the numbers that they had. */
#include "planner.h"
#include <inttypes.h>
#include <stdio.h>
#include <string.h>

#define BOARD 1
#define READER 21
#define OTHER_READER 22
#define PRINTER 31
#define SCALE 41

#define EACH 3           /* a device's lines: memory, ports, message interrupts */
#define LINES (3 * EACH) /* there are never more than three devices */

static uint64_t state[PLANNER_STATE_WORDS], halftime[PLANNER_STATE_WORDS];
static uint64_t requests[LINES][PLANNER_REQUEST], records[LINES][PLANNER_RECORD];

/* What the board gives, to be chosen from and to be asked for; the first page of memory is its own. 0, or the first refusal. */
static uint64_t board(void) {
    uint64_t refused = planner_begin(state);
    for (uint64_t use = 0; !refused && use < 2; use++) {
        refused = planner_pool_mmio(state, use, 0x10000000, 0x10100000);
        if (!refused) refused = planner_pool_pio(state, use, 0xc000, 0xd000);
        if (!refused) refused = planner_pool_msi(state, use, 0, 0, 0, 16, 0, 32, 8192, 8448);
    }
    if (!refused) refused = planner_hold_mmio(state, BOARD, 0x10000000, 0x10001000);
    return refused ? refused : planner_start(state);
}

/* The lines of a device, whatever of it the planner chooses. */
static void wants(uint64_t lines[EACH][PLANNER_REQUEST], uint64_t device) {
    const uint64_t wanted[EACH][PLANNER_REQUEST] = {{1, device, 0, 0x1000, 0x1000}, {2, device, 1, 256, 256}, {5, device, 2, 0, 0, 4}};
    memcpy(lines, wanted, sizeof wanted);
}

/* Plans the lines from the first on, and keeps each with its answer in it: then it asks for what it was given. 0, or the refusal. */
static uint64_t plan(size_t first, size_t count) {
    uint64_t answer[PLANNER_ANSWER];
    uint64_t refused = planner_run(state, requests[first], count, records[first], answer);
    return refused ? refused : planner_write_back(requests[first], count, records[first], answer);
}

static void show(const char *what, uint64_t device, uint64_t granted[EACH][PLANNER_RECORD]) {
    printf("%s %" PRIu64 ": memory %#" PRIx64 ", ports %#" PRIx64 ", messages from %" PRIu64 "\n", what, device, granted[0][3], granted[1][3], granted[2][7]);
}

int main(void) {
    uint64_t pulled[EACH][PLANNER_RECORD], back[LINES][PLANNER_REQUEST], again[LINES][PLANNER_RECORD], answer[PLANNER_ANSWER];

    wants(requests, READER), wants(requests + EACH, OTHER_READER), wants(requests + 2 * EACH, PRINTER);
    if (board() != 0 || plan(0, LINES) != 0) return 1;
    show("reader", READER, records), show("reader", OTHER_READER, records + EACH), show("printer", PRINTER, records + 2 * EACH);

    /* half-time: the first reader goes, and so do its lines; twice it cannot be pulled out */
    if (planner_withdraw(state, READER) != 0 || planner_withdraw(state, READER) != 13) return 1;
    memcpy(pulled, records, sizeof pulled);
    memmove(requests, requests + EACH, 2 * EACH * sizeof *requests);
    memmove(records, records + EACH, 2 * EACH * sizeof *records);
    printf("half-time: reader %d is pulled out\n", READER);

    /* the scale gets what is free again */
    wants(requests + 2 * EACH, SCALE);
    if (plan(2 * EACH, EACH) != 0) return 1;
    show("scale", SCALE, records + 2 * EACH);
    for (size_t i = 0; i < EACH; i++)
        if (memcmp(records[2 * EACH + i] + 2, pulled[i] + 2, (PLANNER_RECORD - 2) * sizeof **pulled) != 0) return 1;
    memcpy(halftime, state, sizeof state);

    /* a power dip: the lines are all that is left. They come back from the last to the first, and each gets what it had */
    for (size_t i = 0; i < LINES; i++) memcpy(back[i], requests[LINES - 1 - i], sizeof back[i]);
    if (board() != 0 || planner_run(state, back[0], LINES, again[0], answer) != 0) return 1;
    for (size_t i = 0; i < LINES; i++)
        if (memcmp(again[i], records[LINES - 1 - i], sizeof again[i]) != 0) return 1;

    /* in the order that they had, they make the very tables of half-time */
    if (board() != 0 || planner_run(state, requests[0], LINES, again[0], answer) != 0) return 1;
    if (memcmp(state, halftime, sizeof state) != 0) return 1;
    puts("after the dip all have what they had");
    return 0;
}
