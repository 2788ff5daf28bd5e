/* A withdrawal over the planner itself: state, numbers and answer each before a page that nobody may touch, lists of every length, states of another size, requesters
 * that are none, null pointers. What it does to the tables is tried in ../../rust/tests. */
#define _DEFAULT_SOURCE
#include "planner.h"
#include "expect.h"
#include <string.h>
#include <sys/mman.h>
#include <unistd.h>

#define UNTOLD 0xa5a5a5a5a5a5a5a5u
#define NUMBERS 13 /* of a call, at most */

static uint64_t *state, *numbers_end, *answer_end; /* the latter two are where the lists end */
static char *before_state;
static size_t spare; /* bytes before the state */
static uint64_t kept[PLANNER_STATE_WORDS];

/* So many bytes that end where nobody may touch anything; how many more stand before them. */
static char *before_a_wall(size_t bytes, size_t *more) {
    size_t page = (size_t)sysconf(_SC_PAGESIZE), whole = (bytes + page - 1) / page * page;
    char *pages = mmap(NULL, whole + page, PROT_READ | PROT_WRITE, MAP_PRIVATE | MAP_ANONYMOUS, -1, 0);
    EXPECT(pages != MAP_FAILED && mprotect(pages + whole, page, PROT_NONE) == 0);
    *more = whole - bytes;
    return pages + whole - bytes;
}

/* Host IRQs and memory for devices 7 and 8, the former's own reservation among them; what stands before the state is to stay. */
static void board(void) {
    const uint64_t wants[4][PLANNER_REQUEST] = {{4, 7, 0}, {4, 8, 0}, {4, 7, 1}, {1, 7, 2, 16, 16}};
    uint64_t record[PLANNER_RECORD];
    memset(before_state, 0xa5, spare);
    EXPECT(planner_begin(state) == 0 && planner_pool_host(state, 0, 40, 60) == 0 && planner_pool_mmio(state, 0, 0, 64) == 0);
    EXPECT(planner_hold_host(state, 7, 40, 41) == 0 && planner_start(state) == 0);
    for (size_t i = 0; i < 4; i++) EXPECT(planner_ask(state, wants[i], record) == 0);
    memcpy(kept, state, sizeof kept);
}

/* All bytes are as memset left them. */
static int untold(const char *from, const char *end) {
    while (from < end)
        if (*from++ != (char)0xa5) return 0;
    return 1;
}

/* The call with n numbers and room for m of its answer: 5, the requester, and what no call looks at. It tells what it answers, where there is room for five; refused,
 * nothing but the last answer changes in the state; nothing around it ever does. */
static uint64_t call(uint64_t requester, size_t n, size_t m) {
    uint64_t *numbers = numbers_end - n, *answer = answer_end - m;
    for (size_t i = 0; i < n; i++) numbers[i] = i == 0 ? 5 : i == 1 ? requester : UINT64_MAX;
    for (size_t i = 0; i < m; i++) answer[i] = UNTOLD;
    memset(state + PLANNER_SAID, 0xa5, PLANNER_ANSWER * sizeof *state);
    uint64_t number = planner_call(state, PLANNER_STATE_SIZE, numbers, n, answer, m);
    for (size_t i = 0; i < m; i++) EXPECT(answer[i] == (m < PLANNER_ANSWER || i >= PLANNER_ANSWER ? UNTOLD : i == 0 ? number : 0));
    for (size_t i = 0; i < PLANNER_ANSWER; i++) EXPECT(state[PLANNER_SAID + i] == (i == 0 ? number : 0));
    EXPECT(number == 0 || memcmp(state, kept, PLANNER_SAID * sizeof *state) == 0);
    EXPECT(untold(before_state, before_state + spare));
    return number;
}

/* Two numbers are enough, and none behind them is looked at; one is too few, whoever it would be, and so is none. */
static void lengths(void) {
    for (size_t n = 0; n <= NUMBERS; n++) {
        for (size_t m = 0; m <= PLANNER_ANSWER + 2; m++) {
            board();
            EXPECT(call(7, n, m) == (n < 2 ? 11 : 0));
            if (n < 2) continue;
            /* 41 and 43 are free again, and so is the memory; 40 stays its own, 42 is the other's */
            uint64_t row[PLANNER_ROW];
            EXPECT(planner_row(state, 4, 4, 0, row) == 0 && row[0] == 2 && row[4] == 40 && row[8] == 7);
            EXPECT(planner_row(state, 4, 4, 1, row) == 0 && row[4] == 42 && row[5] == 43 && row[8] == 8);
            for (uint64_t i = 2; i < 5; i++)
                EXPECT(planner_row(state, 4, 4, i, row) == 0 && row[4] == 0 && row[5] == 0 && row[8] == 0);
            EXPECT(planner_row(state, 4, 1, 0, row) == 0 && row[0] == 0 && row[5] == 0 && row[8] == 0);
            memcpy(kept, state, sizeof kept);
            EXPECT(call(7, n, m) == 13);
        }
    }
}

/* 1, 11, 2, 13: unsound tables, be it one of owners alone, before a list that is too short; that before who is nobody. */
static void order(void) {
    const uint64_t nobody[] = {0, 0x100000000, 0x100000007, UINT64_MAX}, some[] = {9, UINT32_MAX};
    board();
    for (size_t i = 0; i < 4; i++) EXPECT(call(nobody[i], 2, 5) == 2 && call(nobody[i], 1, 5) == 11);
    for (size_t i = 0; i < 2; i++) EXPECT(call(some[i], 2, 5) == 13);
    EXPECT(call(8, 2, 5) == 0);
    /* a reservation since the start: the owners do not begin with it */
    board();
    EXPECT(planner_hold_host(state, 9, 50, 51) == 0);
    memcpy(kept, state, sizeof kept);
    EXPECT(call(7, 2, 5) == 1 && call(7, 1, 5) == 1 && call(0, 2, 5) == 1 && call(9, 2, 5) == 1);
    EXPECT(call(7, 0, 5) == 11); /* no number, no withdrawal: pools and reservations alone are judged */
    EXPECT(planner_start(state) == 0);
    memcpy(kept, state, sizeof kept);
    EXPECT(call(7, 2, 5) == 13); /* a start forgets all grants */
    /* a count that is too large, in the first table */
    board();
    state[0] = kept[0] = PLANNER_POOL_ROWS + 1;
    EXPECT(call(7, 2, 5) == 1 && call(7, 1, 5) == 1 && call(0, 2, 5) == 1 && call(7, 0, 5) == 1);
}

/* A state of another size is 1, and not read: sixteen bytes before the wall are enough. */
static void sizes(void) {
    const uint64_t other[] = {0, 8, 16, PLANNER_STATE_SIZE - 8, PLANNER_STATE_SIZE + 8, UINT64_MAX}, x[2] = {5, 7};
    uint64_t answer[PLANNER_ANSWER] = {UNTOLD};
    size_t more;
    uint64_t *two = (uint64_t *)(void *)before_a_wall(16, &more);
    two[0] = two[1] = 9;
    for (size_t i = 0; i < sizeof other / sizeof *other; i++) {
        EXPECT(planner_call(two, other[i], x, 2, answer, PLANNER_ANSWER) == 1);
        EXPECT(two[0] == 9 && two[1] == 9 && answer[0] == UNTOLD);
    }
}

static void helper(void) {
    board();
    EXPECT(planner_withdraw(NULL, 7) == 1);
    EXPECT(planner_withdraw(state, 0) == 2 && planner_withdraw(state, 0x100000007) == 2 && planner_withdraw(state, 9) == 13);
    EXPECT(planner_withdraw(state, 7) == 0 && planner_withdraw(state, 7) == 13 && planner_withdraw(state, 8) == 0);
}

int main(void) {
    size_t more;
    state = (uint64_t *)(void *)before_a_wall(PLANNER_STATE_SIZE, &spare);
    before_state = (char *)state - spare;
    numbers_end = (uint64_t *)(void *)(before_a_wall(8 * NUMBERS, &more) + 8 * NUMBERS);
    answer_end = (uint64_t *)(void *)(before_a_wall(8 * (PLANNER_ANSWER + 2), &more) + 8 * (PLANNER_ANSWER + 2));
    lengths();
    order();
    sizes();
    helper();
    puts("withdrawals keep within what they are lent");
    return 0;
}
