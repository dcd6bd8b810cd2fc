/* check.h - checks that are counted; main ends by `return checked("name")`. */
#ifndef CHECK_H
#define CHECK_H

#include <stdio.h>

static int checks;
static int failures;

static void check(int holds, const char *what, const char *file, int line) {
    checks++;
    if (!holds) {
        failures++;
        printf("%s:%d: failed: %s\n", file, line, what);
    }
}

#define CHECK(holds) check((holds) != 0, #holds, __FILE__, __LINE__)

/* Prints the counts, and gives the status of the program. */
static int checked(const char *name) {
    printf("%s: %d checks, %d failed\n", name, checks, failures);
    return failures == 0 && checks > 0 ? 0 : 1;
}

#endif
