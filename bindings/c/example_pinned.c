/* A stand whose plan is a text: planned, and written to a file with its answers. After a power dip the tills come back from that file, in another order and
 * without the printer, and get the numbers that they had. It prints what each was granted then. */
#include "planner.h"
#include <stdio.h>
#include <string.h>

static const char plan[] = "pool\tauto\tmmio\t268435456\t269484032\n"
                           "pool\tfixed\tmmio\t268435456\t269484032\n"
                           "pool\tauto\thost\t40\t60\n"
                           "pool\tfixed\thost\t40\t60\n"
                           "hold\t100\thost\t40\t41\n"
                           "want\t1\t0\tmmio\t4096\t4096\tauto\n" /* the first till: memory and a host IRQ */
                           "want\t1\t1\thost\tauto\n"
                           "want\t2\t0\thost\tauto\n"             /* the printer: a host IRQ */
                           "want\t3\t0\tmmio\t8192\t4096\tauto\n" /* the second till: memory and a host IRQ */
                           "want\t3\t1\thost\tauto\n";

static char first[PLANNER_TEXT_OUTPUT + 1], second[PLANNER_TEXT_OUTPUT + 1], kept[PLANNER_TEXT + 1], again[PLANNER_TEXT + 1];

/* The bytes of a line, its newline among them. */
static size_t wide(const char *line) { return strcspn(line, "\n") + 1; }

/* The text that comes back: what the board gives, then the wants from the last to the first, but for the printer's. */
static void come_back(void) {
    const char *wants[PLANNER_MOST];
    size_t count = 0;
    for (const char *line = kept; *line; line += wide(line)) {
        if (*line == 'w') wants[count++] = line;
        else strncat(again, line, wide(line));
    }
    while (count-- > 0)
        if (strncmp(wants[count], "want\t2\t", 7) != 0) strncat(again, wants[count], wide(wants[count]));
}

int main(void) {
    uint64_t answer[PLANNER_ANSWER];
    size_t written;
    FILE *file = tmpfile();

    /* the first start; the pinned text is what the stand keeps */
    if (!file || !planner_respond(plan, strlen(plan), first, sizeof first - 1)) return 1;
    if (planner_write_text(plan, strlen(plan), kept, sizeof kept - 1, &written, answer) != 0) return 1;
    if (fwrite(kept, 1, written, file) != written) return 1;

    /* a power dip: the file is all that is left */
    memset(kept, 0, sizeof kept);
    rewind(file);
    if (fread(kept, 1, sizeof kept - 1, file) != written) return 1;
    come_back();
    if (!planner_respond(again, strlen(again), second, sizeof second - 1)) return 1;

    /* who came back has what it had */
    const char *got = second;
    for (; strncmp(got, "got", 3) == 0; got += wide(got)) {
        char line[200] = "";
        strncat(line, got, wide(got));
        if (!strstr(first, line)) return 1;
        fputs(line, stdout);
    }
    if (strcmp(got, "end\t4\n") != 0) return 1;
    puts("the same again, from the file");
    return 0;
}
