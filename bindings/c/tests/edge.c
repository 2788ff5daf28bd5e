/* The edge of planner.h over the planner itself: null pointers, states that are no states, plans that are too long or refused, numbers that are not looked at; LPIs that are
 * too low, and MSI pools that are refused; the longest text on the stack that it is given. */
#define _DEFAULT_SOURCE
#include "planner.h"
#include "expect.h"
#include <pthread.h>
#include <string.h>
#include <sys/mman.h>
#include <unistd.h>

static uint64_t state[PLANNER_STATE_WORDS + 1];
static uint64_t requests[(PLANNER_MOST + 1) * PLANNER_REQUEST], results[(PLANNER_MOST + 1) * PLANNER_RECORD], before[(PLANNER_MOST + 1) * PLANNER_RECORD];
static uint64_t answer[PLANNER_ANSWER], record[PLANNER_RECORD], row[PLANNER_ROW];

/* One host IRQ may be had: 40. */
static void board(void) {
    EXPECT(planner_begin(state) == 0);
    EXPECT(planner_pool_host(state, 0, 40, 41) == 0);
    EXPECT(planner_start(state) == 0);
}

/* So many automatic host IRQs are asked for; results and answer hold what no plan writes. */
static void asked(size_t count) {
    memset(requests, 0, sizeof requests);
    for (size_t i = 0; i < count; i++) requests[12 * i] = 4, requests[12 * i + 1] = 1;
    memset(results, 0xa5, sizeof results);
    memset(answer, 0xa5, sizeof answer);
    memcpy(before, results, sizeof results);
}

static int answered(uint64_t number, uint64_t index, uint64_t namespace) {
    return answer[0] == number && answer[1] == index && answer[2] == namespace && answer[3] == 0 && answer[4] == 0;
}

static void nulls(void) {
    const uint64_t x[1] = {3};
    board();
    asked(1);
    EXPECT(planner_begin(NULL) == 1 && planner_start(NULL) == 1 && planner_do(state, NULL, 1) == 1 && planner_do(NULL, x, 1) == 1);
    EXPECT(planner_ask(NULL, requests, record) == 1 && planner_ask(state, NULL, record) == 1 && planner_ask(state, requests, NULL) == 1);
    EXPECT(planner_run(NULL, requests, 1, results, answer) == 1 && answered(1, 0, 0));
    EXPECT(planner_run(state, NULL, 1, results, answer) == 1 && answered(1, 0, 0));
    EXPECT(planner_run(state, requests, 1, NULL, answer) == 1 && answered(1, 0, 0));
    EXPECT(planner_run(state, requests, 1, results, NULL) == 1);
    EXPECT(planner_write_back(NULL, 1, results, answer) == 1 && planner_write_back(requests, 1, NULL, answer) == 1);
    EXPECT(planner_write_back(requests, 1, results, NULL) == 1 && planner_granted(NULL, 1) == 0);
    EXPECT(planner_answer(NULL, answer) == 1 && planner_answer(state, NULL) == 1);
    EXPECT(planner_row(NULL, 4, 4, 0, row) == 1 && planner_row(state, 4, 4, 0, NULL) == 1);
}

static void sizes(void) {
    EXPECT(planner_fits(state, PLANNER_STATE_SIZE));
    EXPECT(!planner_fits(state, PLANNER_STATE_SIZE - 8) && !planner_fits(state, PLANNER_STATE_SIZE + 8) && !planner_fits(NULL, PLANNER_STATE_SIZE));
    EXPECT(!planner_fits((char *)state + 4, PLANNER_STATE_SIZE));
}

/* What planner.h says of sizes is what the library does: the last row, request and byte there are, and one more. */
static void last(void) {
    static uint8_t out[PLANNER_TEXT_OUTPUT];
    const uint8_t none[1] = {0};
    board();
    for (uint64_t part = 1; part < 5; part++) {
        uint64_t rows = part < 3 ? PLANNER_POOL_ROWS : PLANNER_ROWS;
        EXPECT(planner_row(state, part, 1, rows - 1, row) == 0 && planner_row(state, part, 1, rows, row) == 2);
    }
    asked(PLANNER_MOST + 1);
    EXPECT(planner_run(state, requests, PLANNER_MOST, results, answer) == 7 && planner_run(state, requests, PLANNER_MOST + 1, results, answer) == 11);
    EXPECT(planner_text(none, 0, out, PLANNER_TEXT_OUTPUT) == 6 && planner_text(none, 0, out, PLANNER_TEXT_OUTPUT - 1) == 0);
}

/* Sixteen bytes before a page that nobody may touch: every call is told a size that is not a state's, that of a state with half as many rows among
 * them, answers 1 and leaves them. */
static void short_state(void) {
    const uint64_t half = (PLANNER_STATE_SIZE + 8 * (28 + PLANNER_ANSWER)) / 2; /* 28 counts and the answer are there as well */
    const uint64_t sizes[] = {0, 8, 16, half, PLANNER_STATE_SIZE - 8, PLANNER_STATE_SIZE + 8, UINT64_MAX}, x[13] = {3};
    EXPECT(!planner_fits(state, half));
    size_t page = (size_t)sysconf(_SC_PAGESIZE);
    char *pages = mmap(NULL, 2 * page, PROT_READ | PROT_WRITE, MAP_PRIVATE | MAP_ANONYMOUS, -1, 0);
    EXPECT(pages != MAP_FAILED && mprotect(pages + page, page, PROT_NONE) == 0);
    uint64_t *two = (uint64_t *)(void *)(pages + page - 16), out[9] = {7};
    two[0] = two[1] = 9;
    for (size_t i = 0; i < sizeof sizes / sizeof *sizes; i++) {
        EXPECT(planner_fresh(two, sizes[i]) == 1);
        EXPECT(planner_call(two, sizes[i], x, 1, out, 5) == 1);
        EXPECT(planner_allocate(two, sizes[i], x, 12, out, 9) == 1);
        EXPECT(planner_plan(two, sizes[i], x, 12, out, 9) == 1);
        EXPECT(planner_read(two, sizes[i], x, 1, out, 9) == 1);
        EXPECT(two[0] == 9 && two[1] == 9 && out[0] == 7);
    }
    EXPECT(munmap(pages, 2 * page) == 0);
}

/* One request too many, and a count so large that twelve times it is no size: 11 at index 0, nothing written; unsound tables come first. */
static void too_long(void) {
    const size_t counts[] = {PLANNER_MOST + 1, SIZE_MAX / 12 + 2, SIZE_MAX};
    for (size_t i = 0; i < 3; i++) {
        board();
        asked(PLANNER_MOST + 1);
        EXPECT(planner_run(state, requests, counts[i], results, answer) == 11 && answered(11, 0, 0));
        EXPECT(planner_granted(answer, counts[i]) == 0 && memcmp(results, before, sizeof results) == 0);
        EXPECT(planner_write_back(requests, counts[i], results, answer) == 0 && requests[6] == 0);
        state[0] = PLANNER_POOL_ROWS + 1;
        EXPECT(planner_run(state, requests, counts[i], results, answer) == 1 && answered(1, 0, 0));
    }
}

/* Three are asked for and one may be had: one record is filled, and one request is written back. */
static void refused(void) {
    board();
    asked(3);
    EXPECT(planner_run(state, requests, 3, results, answer) == 7 && answered(7, 1, 4));
    EXPECT(planner_granted(answer, 3) == 1 && results[3] == 40);
    EXPECT(memcmp(results + 9, before + 9, sizeof results - 9 * sizeof *results) == 0);
    EXPECT(planner_row(state, 4, 4, 0, row) == 0 && row[0] == 0);
    EXPECT(planner_write_back(requests, 3, results, answer) == 0);
    EXPECT(requests[6] == 1 && requests[7] == 40);
    for (size_t i = 1; i < 3; i++) EXPECT(requests[12 * i + 6] == 0 && requests[12 * i + 7] == 0);
    /* unsound tables fill nothing */
    asked(1);
    state[0] = PLANNER_POOL_ROWS + 1;
    EXPECT(planner_run(state, requests, 1, results, answer) == 1 && answered(1, 0, 0));
    EXPECT(planner_write_back(requests, 1, results, answer) == 0 && requests[6] == 0);
}

/* What planner.h says is not looked at: a number beside code 0, choices that a kind does not have, numbers behind a call's. */
static void unread(void) {
    const uint64_t start[3] = {3, UINT64_MAX, UINT64_MAX};
    const uint64_t irq[12] = {4, 1, 0, UINT64_MAX, UINT64_MAX, UINT64_MAX, 0, UINT64_MAX, UINT64_MAX, UINT64_MAX, UINT64_MAX, UINT64_MAX};
    board();
    EXPECT(planner_do(state, start, 3) == 0);
    EXPECT(planner_ask(state, irq, record) == 0 && record[0] == 4 && record[3] == 40 && record[4] == 0 && record[8] == 0);
    /* refused, a record stays as it was; a reservation since the start makes requests 1 until the next */
    EXPECT(planner_ask(state, irq, record) == 7 && record[3] == 40);
    EXPECT(planner_hold_host(state, 9, 50, 51) == 0 && planner_ask(state, irq, record) == 1);
    EXPECT(planner_start(state) == 0 && planner_ask(state, irq, record) == 0);
}

/* A pool of one ITS with these ranges; refused, it leaves every number of all tables as it was. */
static uint64_t domain(uint64_t use, uint32_t ds, uint32_t de, uint32_t es, uint32_t ee, uint32_t ls, uint32_t le) {
    static uint64_t tables[PLANNER_SAID];
    memcpy(tables, state, sizeof tables);
    uint64_t number = planner_pool_msi(state, use, 1, 2, ds, de, es, ee, ls, le);
    EXPECT(planner_answer(state, answer) == 0 && answered(number, 0, 0));
    EXPECT(number == 0 || memcmp(tables, state, sizeof tables) == 0);
    return number;
}

/* An MSI pool adds three ranges or none: any that is empty is 4, then low LPIs are 12, then a table without a row is 9; what is there already needs none. */
static void domains(void) {
    const uint32_t first = PLANNER_FIRST_LPI, rows = PLANNER_POOL_ROWS;
    for (uint64_t use = 0; use < 2; use++) {
        for (size_t kind = 0; kind < 3; kind++) {
            board();
            EXPECT(domain(use, 7, 7, 0, 9, first, first + 9) == 4 && domain(use, 0, 9, 7, 6, 0, 1) == 4 && domain(use, 0, 9, 0, 9, 5, 5) == 4);
            EXPECT(domain(use, 0, 9, 0, 9, first - 1, first + 1) == 12 && domain(use, 0, 9, 0, 9, 0, UINT32_MAX) == 12);
            for (uint32_t i = 0; i < rows; i++) {
                uint32_t d = kind == 0 ? i : 0, e = kind == 1 ? i : 0, l = first + (kind == 2 ? i : 0);
                EXPECT(domain(use, d, d + 9, e, e + 9, l, l + 9) == 0);
            }
            EXPECT(planner_row(state, 1 + use, 5 + kind, 0, row) == 0 && row[0] == rows);
            EXPECT(domain(use, 90, 99, 90, 99, first + 90, first + 99) == 9 && domain(use, 0, 9, 0, 9, first, first + 9) == 0);
            EXPECT(domain(use, 90, 99, 90, 90, first + 90, first + 99) == 4 && domain(use, 90, 99, 90, 99, first - 1, first + 99) == 12);
            EXPECT(domain(1 - use, 90, 99, 90, 99, first + 90, first + 99) == 0);
        }
    }
}

/* LPIs below the least one: no reservation, no row of sound tables; a request for one is 6, and never 12. */
static void low_lpis(void) {
    const uint32_t first = PLANNER_FIRST_LPI;
    uint64_t low[12] = {5, 1, 0, 1, 2, 1, 1, 0, 1, 0, 1, first - 1};
    board();
    EXPECT(planner_hold_lpi(state, 0, 1, 5, 6) == 3 && planner_hold_lpi(state, 7, 1, 5, 5) == 4 && planner_hold_lpi(state, 7, 1, first - 1, first + 1) == 12);
    EXPECT(planner_hold_lpi(state, 7, 1, first, first + 1) == 0 && planner_hold_lpi(state, 8, 1, first - 1, first + 1) == 12);
    EXPECT(planner_hold_lpi(state, 8, 1, first, first + 1) == 5 && planner_answer(state, answer) == 0 && answer[3] == 7);
    EXPECT(domain(1, 0, 9, 0, 9, first, first + 9) == 0 && planner_start(state) == 0);
    EXPECT(planner_ask(state, low, record) == 6 && planner_answer(state, answer) == 0 && answered(6, 0, 6));
    low[11] = first + 1;
    EXPECT(planner_ask(state, low, record) == 0 && record[7] == first + 1);
    /* the row of the fixed pool, made one lower: its end stands a column behind its start */
    for (size_t i = 0; i + PLANNER_POOL_ROWS < PLANNER_SAID; i++) {
        if (state[i] != first || state[i + PLANNER_POOL_ROWS] != first + 9) continue;
        state[i]--;
        EXPECT(planner_row(state, 2, 7, 0, row) == 0 && row[4] == first - 1 && row[5] == first + 9);
        EXPECT(planner_start(state) == 1 && planner_ask(state, low, record) == 1 && domain(0, 0, 9, 0, 9, first, first + 9) == 1);
        state[i]++;
        EXPECT(planner_start(state) == 0);
        return;
    }
    EXPECT(!"the row is in the state");
}

static void texts(void) {
    static char out[PLANNER_TEXT_OUTPUT];
    EXPECT(planner_respond("", 0, out, sizeof out) == 6 && memcmp(out, "end\t0\n", 6) == 0);
    EXPECT(planner_respond("no newline", 10, out, sizeof out) == 14 && memcmp(out, "no\t1\t10\t0\t0\t0\n", 14) == 0);
    EXPECT(planner_respond("", 0, out, sizeof out - 1) == 0 && out[0] == 'n');
    EXPECT(planner_respond(NULL, 0, out, sizeof out) == 0 && planner_respond("", 0, NULL, sizeof out) == 0);
}

/* A text of the most wants, answered and pinned; one want more is 11 at its own line, a text a byte too long 10 at line 0. */
static void *longest(void *none) {
    static char text[PLANNER_TEXT + 1], out[PLANNER_TEXT];
    const char pool[] = "pool\tauto\thost\t0\t999\n", want[] = "want\t1\t0\thost\tauto\n";
    size_t n = sizeof pool - 1, wide = sizeof want - 1, written;
    memcpy(text, pool, n);
    for (size_t i = 0; i <= PLANNER_MOST; i++) memcpy(text + n + i * wide, want, wide);
    n += PLANNER_MOST * wide;
    EXPECT(planner_respond(text, n, out, sizeof out) > PLANNER_MOST && memcmp(out, "got\t1\t0\thost\t0\n", 15) == 0);
    EXPECT(planner_write_text(text, n, out, sizeof out, &written, answer) == 0 && written > PLANNER_MOST * (wide - 4));
    EXPECT(planner_write_text(text, n + wide, out, sizeof out, &written, answer) == 11 && answer[0] == PLANNER_MOST + 2 && written == 0);
    EXPECT(planner_write_text(text, sizeof text, out, sizeof out, &written, answer) == 10 && answer[0] == 0 && written == 0);
    return none;
}

/* On a thread with no more stack than is said to be enough. */
static void stacks(void) {
    pthread_t thread;
    pthread_attr_t small;
    EXPECT(pthread_attr_init(&small) == 0 && pthread_attr_setstacksize(&small, (PLANNER_TEXT_STACK + 4095) / 4096 * 4096) == 0);
    EXPECT(pthread_create(&thread, &small, longest, NULL) == 0 && pthread_join(thread, NULL) == 0);
}

int main(void) {
    nulls();
    sizes();
    last();
    short_state();
    too_long();
    refused();
    unread();
    domains();
    low_lpis();
    texts();
    stacks();
    puts("the C face's edge holds");
    return 0;
}
