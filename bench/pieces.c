/* pieces NAME: how fast a checker of the C library takes the messages of standard input if they come in pieces of 1, 7, 64 and 4,096
 * bytes, and if all of them come at once: a line with the name and MB per second of processor time, the best of several rounds. */
#define _GNU_SOURCE /* clock_gettime */
#include "read_input.h"
#include <dbus_wire.h>
#include <stdint.h>
#include <string.h>
#include <time.h>

static const size_t LENGTHS[] = {1, 7, 64, 4096, SIZE_MAX};
enum { COUNT = sizeof LENGTHS / sizeof *LENGTHS };
/* In seconds: how long a length of pieces is tried at least, but once. */
static const double LONG_ENOUGH = 0.5;

static double now(void) {
    struct timespec time;
    clock_gettime(CLOCK_PROCESS_CPUTIME_ID, &time);
    return (double)time.tv_sec + (double)time.tv_nsec / 1e9;
}

/* Whether a piece ends within a message, or at its end; after the end of one the next begins. */
static uint32_t take_piece(struct dbus_wire_checker *checker, const unsigned char *piece, size_t length) {
    struct dbus_wire_taken told;
    uint32_t answer = DBUS_WIRE_PARTIAL;
    while (length > 0) {
        answer = dbus_wire_checker_take(checker, piece, length, &told);
        if (answer != DBUS_WIRE_WHOLE)
            return answer;
        dbus_wire_checker_restart(checker);
        piece += told.count;
        length -= told.count;
    }
    return answer;
}

/* The seconds of one round. Ends the program if the input is not messages alone. */
static double round_of(struct dbus_wire_checker *checker, struct input input, size_t most) {
    double start = now();
    size_t at = 0;
    uint32_t answer = DBUS_WIRE_PARTIAL;
    while (at < input.size) {
        size_t left = input.size - at, length = left < most ? left : most;
        answer = take_piece(checker, input.bytes + at, length);
        if (answer != DBUS_WIRE_PARTIAL && answer != DBUS_WIRE_WHOLE)
            break;
        at += length;
    }
    if (answer != DBUS_WIRE_WHOLE) {
        fprintf(stderr, "no messages alone\n");
        exit(1);
    }
    return now() - start;
}

int main(int count_of_words, char **words) {
    struct dbus_wire_checker checker = {0};
    struct input input = read_input();
    int i;
    if (count_of_words != 2 || dbus_wire_checker_new(NULL, &checker) != DBUS_WIRE_OK)
        return 3;
    printf("%-14s", words[1]);
    for (i = 0; i < COUNT; i++) {
        double best = 0, all = 0;
        while (all == 0 || all < LONG_ENOUGH) {
            double took = round_of(&checker, input, LENGTHS[i]);
            if (all == 0 || took < best)
                best = took;
            all += took;
        }
        printf("%8.1f", (double)input.size / 1e6 / best);
        fflush(stdout);
    }
    printf("\n");
    dbus_wire_checker_free(&checker);
    free(input.bytes);
    return 0;
}
