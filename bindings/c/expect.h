/* Counting what was expected, for the tests in C. */
#ifndef EXPECT_H
#define EXPECT_H

#include <stdio.h>

static int passed, failed;

static void expect(int good, const char *what) {
    if (good) {
        passed++;
    } else {
        failed++;
        printf("failed: %s\n", what);
    }
}

/* Prints the counts under a name; the exit status of a test. */
static int counted(const char *name) {
    printf("%s: %d passed, %d failed\n", name, passed, failed);
    return failed != 0;
}

#endif
