/* What the tests share: a call whose status is other than the rules want is told, and counted. */
#ifndef EXPECT_H
#define EXPECT_H
#include "isotope.h"
#include <stdio.h>

static int wrong;

/* Prints the call and its status, and what was wanted where that is another. */
static inline void expect(const char *what, int status, int wanted) {
    printf("%-44s %2d %s\n", what, status, isotope_strerror(status));
    if (status == wanted) return;
    printf("    wanted: %d %s\n", wanted, isotope_strerror(wanted));
    wrong++;
}

/* Says nothing where it holds. */
static inline void expect_that(const char *what, int holds) {
    if (holds) return;
    printf("    wrong: %s\n", what);
    wrong++;
}

/* The exit status of a test. */
static inline int told(void) {
    if (wrong) printf("%d wrong\n", wrong);
    else printf("all as expected\n");
    return wrong != 0;
}
#endif
