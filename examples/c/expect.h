/* What the trials expect, and how often it did not hold. */
#include <stdio.h>

static int failures = 0;

static void expect(int holds, const char *what) {
    if (!holds) {
        printf("it does not hold: %s\n", what);
        failures++;
    }
}
