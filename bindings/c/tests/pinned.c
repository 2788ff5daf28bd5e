/* The text pinned, over the planner itself: buffers of every length before a page that nobody may touch, refusals, the longest text, null pointers. */
#define _DEFAULT_SOURCE
#include "planner.h"
#include "expect.h"
#include <string.h>
#include <sys/mman.h>
#include <unistd.h>

#define HEAD "pool\tauto\tmmio\t18446744073700000000\t18446744073709551615\npool\tauto\thost\t5\t7\nhold\t9\thost\t5\t6\n"
#define WANTS(base, irq) "want\t1\t0\tmmio\t4096\t1\t" base "\nwant\t2\t0\thost\t" irq "\n"

static const char text[] = HEAD WANTS("auto", "auto"), kept[] = HEAD WANTS("18446744073700000000", "6");
static const size_t needed = sizeof kept - 1;
static char out[PLANNER_TEXT + 3], before[PLANNER_TEXT + 3];
static uint64_t answer[PLANNER_ANSWER];
static size_t written;

static int answered(uint64_t line, uint64_t number, uint64_t namespace, uint64_t owner, uint64_t detail) {
    return answer[0] == line && answer[1] == number && answer[2] == namespace && answer[3] == owner && answer[4] == detail;
}

/* The helper on a buffer of m bytes; all behind those written is as it was. */
static uint64_t pin(const char *from, size_t n, size_t m) {
    memset(out, 0xa5, sizeof out);
    memcpy(before, out, sizeof out);
    memset(answer, 0xa5, sizeof answer);
    written = SIZE_MAX;
    uint64_t number = planner_write_text(from, n, out, m, &written, answer);
    EXPECT(number == answer[1] && written <= m && memcmp(out + written, before + written, sizeof out - written) == 0);
    return number;
}

/* Text, buffer and answer each end at a page that nobody may touch, and begin behind another. */
static void every_length(void) {
    size_t page = (size_t)sysconf(_SC_PAGESIZE);
    char *pages = mmap(NULL, 7 * page, PROT_READ | PROT_WRITE, MAP_PRIVATE | MAP_ANONYMOUS, -1, 0), *end[3];
    EXPECT(pages != MAP_FAILED && needed + 3 < page);
    for (size_t i = 0; i < 7; i += 2) EXPECT(mprotect(pages + i * page, page, PROT_NONE) == 0);
    for (size_t i = 0; i < 3; i++) end[i] = pages + (2 * i + 2) * page;
    char *from = end[0] - (sizeof text - 1);
    memcpy(from, text, sizeof text - 1);
    for (size_t m = 0; m <= needed + 3; m++) {
        for (size_t k = 0; k <= PLANNER_ANSWER; k++) {
            char *to = end[1] - m;
            uint64_t *five = (uint64_t *)(void *)end[2] - k;
            memset(end[1] - page, 0xa5, page);
            memset(end[2] - page, 0xa5, page);
            uint64_t bytes = planner_pin_text((const uint8_t *)from, sizeof text - 1, (uint8_t *)to, m, five, k);
            EXPECT(bytes == (m < needed ? 0 : needed) && memcmp(to, kept, bytes) == 0);
            for (char *p = end[1] - page; p < end[1]; p++) EXPECT((to <= p && p < to + bytes) || *p == (char)0xa5);
            for (size_t i = 0; i < k; i++) EXPECT(five[i] == (k < PLANNER_ANSWER ? 0xa5a5a5a5a5a5a5a5u : m < needed && i == 1 ? 11 : 0));
            for (char *p = end[2] - page; p < (char *)five; p++) EXPECT(*p == (char)0xa5);
        }
    }
    EXPECT(munmap(pages, 7 * page) == 0);
}

/* A refused text hands on its own refusal, whatever the buffer. */
static void refusals(void) {
    const size_t rooms[] = {0, 1, sizeof out};
    for (size_t i = 0; i < 3; i++) {
        EXPECT(pin(text, sizeof text - 2, rooms[i]) == 10 && answered(5, 10, 0, 0, 0));
        EXPECT(pin("want\t1\t0\thost\tauto\n", 19, rooms[i]) == 7 && answered(1, 7, 4, 0, 0));
        EXPECT(pin(HEAD "hold\t8\thost\t0\t9\n", sizeof HEAD + 15, rooms[i]) == 5 && answered(4, 5, 0, 9, 0));
        EXPECT(pin("pool\tfixed\thost\t5\t6\nhold\t9\thost\t5\t6\nwant\t1\t0\thost\t5\n", 54, rooms[i]) == 8 && answered(3, 8, 4, 9, 4));
        EXPECT(pin("pool\tauto\tmsi\t0\t0\t0\t1\t0\t1\t8191\t8193\n", 36, rooms[i]) == 12 && answered(1, 12, 0, 0, 0));
        EXPECT(pin(HEAD "hold\t8\tlpi\t0\t0\t9\n", sizeof HEAD + 16, rooms[i]) == 12 && answered(4, 12, 0, 0, 0));
        EXPECT(pin(before, PLANNER_TEXT + 1, rooms[i]) == 10 && answered(0, 10, 0, 0, 0));
    }
}

/* A text of n bytes: an automatic host IRQ of six digits is wanted, two more than `auto` has. Pools fill it up, each in a line of 20 bytes but the last. */
static const char *long_text(size_t n) {
    static char made[PLANNER_TEXT + 1];
    const char first[] = "pool\tauto\thost\t100000\t100001\n", pool[] = "pool\tfixed\thost\t0\t1\n", want[] = "want\t1\t0\thost\tauto\n";
    size_t at = sizeof first - 1, end = n - (sizeof want - 1), wide = sizeof pool - 1;
    memcpy(made, first, at);
    for (; end - at >= 2 * wide; at += wide) memcpy(made + at, pool, wide);
    memcpy(made + at, pool, wide);
    memset(made + at + wide - 2, '1', end - at - wide + 1);
    made[end - 1] = '\n';
    memcpy(made + end, want, sizeof want - 1);
    return made;
}

/* The longest text that is pinned, and those that are a byte longer: pinned, and as they are read. */
static void longest(void) {
    const size_t most = PLANNER_TEXT;
    EXPECT(pin(long_text(most - 2), most - 2, most) == 0 && written == most && memcmp(out, long_text(most - 2), most - 7) == 0);
    EXPECT(memcmp(out + most - 8, "\t100000\n", 8) == 0);
    EXPECT(pin(long_text(most - 2), most - 2, most - 1) == 11 && answered(0, 11, 0, 0, 0));
    EXPECT(pin(long_text(most - 1), most - 1, most + 3) == 11 && answered(0, 11, 0, 0, 0));
    EXPECT(pin(long_text(most), most, most + 3) == 11 && answered(0, 11, 0, 0, 0));
    EXPECT(pin(long_text(most + 1), most + 1, most + 3) == 10 && answered(0, 10, 0, 0, 0));
}

static void nothing(void) {
    EXPECT(pin("", 0, 0) == 0 && written == 0 && answered(0, 0, 0, 0, 0));
    EXPECT(pin("", 0, sizeof out) == 0 && written == 0 && answered(0, 0, 0, 0, 0));
}

static void nulls(void) {
    const uint64_t said[PLANNER_ANSWER] = {0, 1, 0, 0, 0};
    EXPECT(planner_write_text(text, 0, out, 0, &written, NULL) == 1 && written == 0);
    for (size_t i = 0; i < 3; i++) {
        memset(answer, 0xa5, sizeof answer);
        written = 7;
        EXPECT(planner_write_text(i == 0 ? NULL : text, 0, i == 1 ? NULL : out, 0, i == 2 ? NULL : &written, answer) == 1);
        EXPECT(memcmp(answer, said, sizeof said) == 0 && (i == 2 || written == 0));
    }
    EXPECT(planner_write_text(NULL, 0, NULL, 0, NULL, NULL) == 1);
}

int main(void) {
    every_length();
    refusals();
    longest();
    nothing();
    nulls();
    puts("the pinned text keeps to its buffer");
    return 0;
}
