/* The helpers of planner.h over a library that does nothing (stub.c): no call is accepted, and nothing is granted or written back. */
#include "planner.h"
#include "expect.h"
#include "stub.h"

static uint64_t state[PLANNER_STATE_WORDS]; /* zeros: the answer in it is accepted */
static char out[PLANNER_TEXT_OUTPUT] = "end";

static void plans(void) {
    for (size_t count = 0; count < 3; count++) {
        uint64_t requests[2 * PLANNER_REQUEST] = {4, 1}, results[2 * PLANNER_RECORD] = {7}, answer[PLANNER_ANSWER] = {0};
        EXPECT(planner_run(state, requests, count, results, answer) == 1);
        EXPECT(answer[0] == 1 && answer[1] == 0 && planner_granted(answer, count) == 0);
        EXPECT(planner_write_back(requests, count, results, answer) == 0);
        EXPECT(requests[6] == 0 && requests[7] == 0 && results[0] == 7);
    }
}

/* The helper over a text of n bytes and a buffer of m, with an answer that says accepted already; of 1 the line is 0, and nothing is written. */
static uint64_t pinned(const uint64_t *said, uint64_t bytes, size_t n, size_t m) {
    uint64_t answer[PLANNER_ANSWER] = {0};
    size_t written = 7;
    stub_said = said, stub_count = bytes;
    uint64_t number = planner_write_text("\n", n, out, m, &written, answer);
    EXPECT(number == answer[1] && written == (number ? 0 : bytes));
    EXPECT(number != 1 || (answer[0] == 0 && answer[2] == 0 && answer[3] == 0 && answer[4] == 0));
    return number;
}

/* Silence, whatever the count; bytes of an empty text, none of another, more than the buffer or a text has; bytes of a refused one. What can be so is heard. */
static void texts(void) {
    static const uint64_t accepted[PLANNER_ANSWER] = {0}, refused[PLANNER_ANSWER] = {1, 8, 4, 9, 2};
    for (size_t n = 0; n < 2; n++) EXPECT(pinned(NULL, stub_count, n, 9) == 1 && pinned(NULL, 0, n, 9) == 1 && pinned(NULL, 1, n, 9) == 1);
    EXPECT(pinned(accepted, 1, 0, 9) == 1 && pinned(accepted, 0, 1, 9) == 1 && pinned(accepted, 10, 1, 9) == 1);
    EXPECT(pinned(accepted, PLANNER_TEXT + 1, 1, PLANNER_TEXT + 9) == 1 && pinned(accepted, UINT64_MAX, 1, SIZE_MAX) == 1);
    EXPECT(pinned(refused, 1, 1, 9) == 1);
    EXPECT(pinned(accepted, 9, 1, 9) == 0 && pinned(accepted, 0, 0, 0) == 0 && pinned(refused, 0, 1, 9) == 8);
}

/* The helper with room for so many requests, of a library that says it made `count`; of 1 there are none. */
static uint64_t sized(const uint64_t *said, uint64_t count, size_t most) {
    const uint64_t words[PLANNER_REGISTERS] = {0xfffff000};
    uint64_t requests[PLANNER_REGISTERS * PLANNER_REQUEST];
    size_t made = 7;
    stub_said = said, stub_count = count;
    uint64_t number = planner_size(words, 1, requests, most, &made);
    EXPECT(made == (number ? 0 : count));
    return number;
}

/* Silence, whatever the count; more requests than the list or a device has; requests of a refused device. What can be so is heard. */
static void devices(void) {
    static const uint64_t accepted[PLANNER_ANSWER] = {0}, refused[PLANNER_ANSWER] = {16}, counts[] = {0, 1, 6, 7, UINT64_MAX};
    for (size_t i = 0; i < sizeof counts / sizeof *counts; i++) EXPECT(sized(NULL, counts[i], 0) == 1 && sized(NULL, counts[i], 6) == 1);
    EXPECT(sized(accepted, 3, 2) == 1 && sized(accepted, 7, 7) == 1 && sized(accepted, UINT64_MAX, SIZE_MAX) == 1 && sized(refused, 1, 6) == 1);
    EXPECT(sized(accepted, 0, 0) == 0 && sized(accepted, 2, 2) == 0 && sized(accepted, 6, 7) == 0 && sized(refused, 0, 6) == 16);
}

int main(void) {
    uint64_t request[PLANNER_REQUEST] = {4, 1}, record[PLANNER_RECORD] = {7};
    EXPECT(planner_fits(state, PLANNER_STATE_SIZE) == (planner_state_size() == PLANNER_STATE_SIZE));
    EXPECT(planner_begin(state) == 1);
    EXPECT(planner_pool_host(state, 0, 1, 2) == 1);
    EXPECT(planner_hold_host(state, 1, 1, 2) == 1);
    EXPECT(planner_start(state) == 1);
    EXPECT(planner_withdraw(state, 1) == 1);
    EXPECT(planner_ask(state, request, record) == 1 && record[0] == 7);
    plans();
    texts();
    devices();
    EXPECT(planner_respond("", 0, out, sizeof out) == 0);
    return 0;
}
