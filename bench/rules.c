/* rules COUNT NAME MATCHING OTHER: of a set of COUNT match rules the nanoseconds of processor time that it takes to add a rule, and to find those that match
 * the message on standard input, the best of several rounds. Ten rules are MATCHING, the others OTHER with a number of their own in place of %ld. The
 * message's SENDER, :1.7, owns NAME. */
#define _GNU_SOURCE /* clock_gettime */
#include <dbus_wire.h>

#include <stdio.h>
#include <stdlib.h>
#include <string.h>
#include <time.h>

enum { ROUNDS = 10, CALLS = 2000, MATCHES = 10, ROOM = 16, FIRST = 1000 };

static uint8_t bytes[1 << 16];
static size_t length;
static struct dbus_wire_rules rules;

static double now(void) {
    struct timespec time;
    clock_gettime(CLOCK_PROCESS_CPUTIME_ID, &time);
    return (double)time.tv_sec * 1e9 + (double)time.tv_nsec;
}

static void add(const char *form, long number) {
    struct dbus_wire_rule_id id;
    struct dbus_wire_rule_refused told;
    char text[256];
    snprintf(text, sizeof text, form, number);
    if (dbus_wire_rules_add(&rules, text, strlen(text), &id, &told) != DBUS_WIRE_OK) {
        fprintf(stderr, "no rule: %s\n", text);
        exit(1);
    }
}

static double matching(void) {
    struct dbus_wire_rule_id found[ROOM];
    uint64_t count = 0;
    double took = now();
    int i;
    for (i = 0; i < CALLS; i++)
        if (dbus_wire_rules_matching(&rules, bytes, length, NULL, found, ROOM, &count, NULL) != DBUS_WIRE_WHOLE ||
            count != MATCHES) {
            fprintf(stderr, "%lu rules match\n", (unsigned long)count);
            exit(1);
        }
    return (now() - took) / CALLS;
}

int main(int count_of_words, char **words) {
    long i, count = count_of_words == 5 ? atol(words[1]) : 0;
    double start, added, best;
    if (count == 0) return 2;
    length = fread(bytes, 1, sizeof bytes, stdin);
    if (dbus_wire_rules_owner(&rules, words[2], strlen(words[2]), ":1.7", 4) != DBUS_WIRE_WHOLE) return 1;
    start = now();
    for (i = 0; i < count; i++) add(i < MATCHES ? words[3] : words[4], FIRST + i);
    added = (now() - start) / (double)count;
    best = matching();
    for (i = 1; i < ROUNDS; i++) {
        double took = matching();
        if (took < best) best = took;
    }
    printf("%.0f %.0f\n", added, best);
    dbus_wire_rules_free(&rules);
    return 0;
}
