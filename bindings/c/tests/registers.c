/* A device's requests from its registers, over the planner itself: lists of every length before a page that nobody may touch, words that are too few or too many,
 * refusals and their order, null pointers. */
#define _DEFAULT_SOURCE
#include "planner.h"
#include "expect.h"
#include <string.h>
#include <sys/mman.h>
#include <unistd.h>

#define ROOM (PLANNER_REGISTERS * PLANNER_REQUEST)
#define UNTOLD 0xa5a5a5a5a5a5a5a5u

/* Memory, nothing, ports, and a pair: three requests, whose slots have holes. Behind them a word that is not looked at. */
static const uint64_t words[PLANNER_REGISTERS + 1] = {0xfffff000, 0, 0xffffff01, 0, 0x00000004, 0xffffffff, UINT64_MAX};
static const uint64_t made[3 * PLANNER_REQUEST] = {
    1, 7, 0, 4096, 4096, 0, 0, 0, 0, 0, 0, 0, 2, 7, 2, 256, 256, 0, 0, 0, 0, 0, 0, 0, 1, 7, 4, 0x100000000, 0x100000000, 0, 0, 0, 0, 0, 0, 0,
};
static uint64_t requests[ROOM + 3], answer[PLANNER_ANSWER];

/* All numbers are as memset left them. */
static int untold(const uint64_t *from, const uint64_t *end) {
    while (from < end)
        if (*from++ != UNTOLD) return 0;
    return 1;
}

/* The call itself on n words and a list of m numbers: its answer's number, which names nothing else. Refused it answers 0, and all that it does not make is as it was. */
static uint64_t call(const uint64_t *from, size_t n, uint64_t requester, size_t m) {
    memset(requests, 0xa5, sizeof requests);
    memset(answer, 0xa5, sizeof answer);
    uint64_t count = planner_registers(from, n, requester, requests + 1, m, answer, PLANNER_ANSWER);
    EXPECT(answer[1] == 0 && answer[2] == 0 && answer[3] == 0 && answer[4] == 0);
    EXPECT(count <= PLANNER_REGISTERS && PLANNER_REQUEST * count <= m && (answer[0] == 0 || count == 0));
    EXPECT(untold(requests, requests + 1) && untold(requests + 1 + PLANNER_REQUEST * count, requests + ROOM + 3));
    return answer[0];
}

/* The helper with room for so many requests: it says what the call does, and writes no more. */
static uint64_t size(const uint64_t *from, uint64_t requester, size_t most, size_t *count) {
    memset(requests, 0xa5, sizeof requests);
    *count = SIZE_MAX;
    uint64_t number = planner_size(from, requester, requests, most, count);
    EXPECT(*count <= PLANNER_REGISTERS && *count <= most && (number == 0 || *count == 0));
    EXPECT(untold(requests + PLANNER_REQUEST * *count, requests + ROOM + 3));
    return number;
}

/* The one word at a place, and five of zero. */
static uint64_t one(size_t at, uint64_t word) {
    uint64_t six[PLANNER_REGISTERS] = {0};
    six[at] = word;
    return call(six, PLANNER_REGISTERS, 7, ROOM);
}

/* Words, list and answer each end at a page that nobody may touch, and begin behind another: room for one short of what is made, for just that, and for more. */
static void every_length(void) {
    size_t page = (size_t)sysconf(_SC_PAGESIZE), needed = sizeof made / sizeof *made;
    char *pages = mmap(NULL, 7 * page, PROT_READ | PROT_WRITE, MAP_PRIVATE | MAP_ANONYMOUS, -1, 0);
    uint64_t *end[3];
    EXPECT(pages != MAP_FAILED);
    for (size_t i = 0; i < 7; i += 2) EXPECT(mprotect(pages + i * page, page, PROT_NONE) == 0);
    for (size_t i = 0; i < 3; i++) end[i] = (uint64_t *)(void *)(pages + (2 * i + 2) * page);
    for (size_t n = 0; n <= PLANNER_REGISTERS; n++) {
        memcpy(end[0] - n, words, n * sizeof *words);
        for (size_t m = 0; m <= ROOM; m++) {
            for (size_t k = 0; k <= PLANNER_ANSWER; k++) {
                uint64_t *to = end[1] - m, *five = end[2] - k, refused = n < PLANNER_REGISTERS || m < needed ? 11 : 0;
                memset(pages + 3 * page, 0xa5, page);
                memset(pages + 5 * page, 0xa5, page);
                uint64_t count = planner_registers(end[0] - n, n, 7, to, m, five, k), filled = PLANNER_REQUEST * count;
                EXPECT(count == (refused ? 0 : 3) && memcmp(to, made, filled * sizeof *made) == 0 && untold(to + filled, end[1]));
                EXPECT(untold((uint64_t *)(void *)(pages + 3 * page), to) && untold((uint64_t *)(void *)(pages + 5 * page), five));
                for (size_t i = 0; i < k; i++) EXPECT(five[i] == (k < PLANNER_ANSWER ? UNTOLD : i == 0 ? refused : 0));
            }
        }
    }
    EXPECT(munmap(pages, 7 * page) == 0);
}

/* Fewer than six are 11 before all else; what stands behind the six is not looked at. */
static void how_many_words(void) {
    const uint64_t bad[PLANNER_REGISTERS] = {UINT64_MAX, 2};
    for (size_t n = 0; n < PLANNER_REGISTERS; n++) EXPECT(call(words, n, 7, ROOM) == 11 && call(words, n, 0, ROOM) == 11 && call(bad, n, 0, 0) == 11);
    EXPECT(call(words, PLANNER_REGISTERS + 1, 7, ROOM) == 0 && memcmp(requests + 1, made, sizeof made) == 0);
    EXPECT(call(bad, PLANNER_REGISTERS, 7, ROOM) == 2);
}

/* The requester before the words, all words before the first register, registers in their order, the list last. */
static void refusals(void) {
    const uint64_t large[PLANNER_REGISTERS] = {2, 0, 0, 0, 0, 0x100000000}, types[PLANNER_REGISTERS] = {0x00000008, 2}, ports[PLANNER_REGISTERS] = {1, 2, 8};
    const uint64_t none[PLANNER_REGISTERS] = {0}, late[PLANNER_REGISTERS] = {0xfffff000, 0xffffff01, 1}, far[] = {0, 0x100000000, UINT64_MAX};
    for (size_t i = 0; i < 3; i++) EXPECT(call(words, PLANNER_REGISTERS, far[i], ROOM) == 2 && call(large, PLANNER_REGISTERS, far[i], 0) == 2);
    EXPECT(call(words, PLANNER_REGISTERS, UINT32_MAX, ROOM) == 0 && requests[2] == UINT32_MAX);
    EXPECT(call(large, PLANNER_REGISTERS, 7, ROOM) == 2 && call(types, PLANNER_REGISTERS, 7, ROOM) == 16 && call(ports, PLANNER_REGISTERS, 7, 0) == 17);
    EXPECT(call(late, PLANNER_REGISTERS, 7, ROOM) == 17 && call(none, PLANNER_REGISTERS, 7, 0) == 0 && call(words, PLANNER_REGISTERS, 7, 0) == 11);
    for (size_t at = 0; at < PLANNER_REGISTERS; at++) {
        EXPECT(one(at, 2) == 14 && one(at, 6) == 14 && one(at, 0xfffffff6) == 14);
        EXPECT(one(at, 4) == (at == 5 ? 15 : 16) && one(at, 0xfffffff4) == (at == 5 ? 15 : 16));
        EXPECT(one(at, 8) == 16 && one(at, 0x10) == 16 && one(at, 0x10001) == 16 && one(at, 0x7fffff01) == 16);
        EXPECT(one(at, 1) == 17 && one(at, 0xffff0001) == 17 && one(at, 0x80000001) == 17);
        EXPECT(one(at, 0x8001) == 0 && requests[1] == 2 && requests[3] == at && requests[4] == 32768 && requests[5] == 32768);
        EXPECT(one(at, 0x80000000) == 0 && requests[1] == 1 && requests[3] == at && requests[4] == 0x80000000 && requests[5] == 0x80000000);
        EXPECT(one(at, 0xffffffff) == 0 && requests[1] == 2 && requests[4] == 4 && one(at, 0xfffffff8) == 0 && requests[1] == 1 && requests[4] == 16);
        EXPECT(one(at, 0) == 0 && untold(requests, requests + ROOM + 3));
    }
}

/* The helper: room for each count, for all that there can be, and a count so large that twelve times it is no size. */
static void helper(void) {
    const uint64_t ones[PLANNER_REGISTERS] = {UINT32_MAX, UINT32_MAX, UINT32_MAX, UINT32_MAX, UINT32_MAX, UINT32_MAX}, none[PLANNER_REGISTERS] = {0};
    const size_t wide[] = {PLANNER_REGISTERS + 1, SIZE_MAX / PLANNER_REQUEST + 2, SIZE_MAX};
    size_t count;
    for (size_t most = 0; most <= PLANNER_REGISTERS; most++) {
        EXPECT(size(words, 7, most, &count) == (most < 3 ? 11 : 0) && count == (most < 3 ? 0 : 3) && (most < 3 || memcmp(requests, made, sizeof made) == 0));
        EXPECT(size(ones, 7, most, &count) == (most < 6 ? 11 : 0) && count == (most < 6 ? 0 : 6));
        EXPECT(size(none, 7, most, &count) == 0 && count == 0 && size(words, 0, most, &count) == 2);
    }
    for (size_t i = 0; i < 3; i++) EXPECT(size(ones, 7, wide[i], &count) == 0 && count == 6 && size(words, 7, wide[i], &count) == 0 && count == 3);
}

static void nulls(void) {
    size_t count = 7;
    EXPECT(planner_size(NULL, 7, requests, 6, &count) == 1 && count == 0);
    count = 7;
    EXPECT(planner_size(words, 7, NULL, 0, &count) == 1 && count == 0);
    EXPECT(planner_size(words, 7, requests, 6, NULL) == 1 && planner_size(NULL, 0, NULL, 0, NULL) == 1);
}

/* What is made is planned as it stands. */
static void planned(void) {
    static uint64_t state[PLANNER_STATE_WORDS], results[PLANNER_REGISTERS * PLANNER_RECORD];
    size_t count;
    EXPECT(planner_begin(state) == 0 && planner_pool_mmio(state, 0, 0x1000, UINT64_MAX) == 0 && planner_pool_pio(state, 0, 0, UINT16_MAX) == 0);
    EXPECT(planner_start(state) == 0 && size(words, 7, PLANNER_REGISTERS, &count) == 0);
    EXPECT(planner_run(state, requests, count, results, answer) == 0 && results[3] == 0x1000 && results[12] == 0 && results[21] == 0x100000000);
}

int main(void) {
    every_length();
    how_many_words();
    refusals();
    helper();
    nulls();
    planned();
    puts("registers are sized within their lists");
    return 0;
}
