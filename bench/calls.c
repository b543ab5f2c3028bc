/* calls RULES: of the message on standard input the nanoseconds of processor time that some calls of the C library take, the best of
 * several rounds; those of spelling and building the signal of signal.h; and of a set of so many match rules, of which ten match each
 * signal NameAcquired of the bus, those of adding a rule and of finding the rules that match. */
#define _GNU_SOURCE /* clock_gettime */
#include "signal.h"
#include <dbus_wire.h>

#include <stdio.h>
#include <stdlib.h>
#include <string.h>
#include <time.h>

enum { ROUNDS = 20, CALLS = 20000, ROOM = 256 };

static uint8_t bytes[1 << 16], built[1 << 16];
static size_t length;
static struct dbus_wire_rules rules;

static const char *const MATCHING[] = {
    "",
    "type='signal'",
    "interface='org.freedesktop.DBus'",
    "member='NameAcquired'",
    "sender='org.freedesktop.DBus'",
    "path='/org/freedesktop/DBus'",
    "type='signal',interface='org.freedesktop.DBus',member='NameAcquired'",
    "path='/org/freedesktop/DBus',member='NameAcquired'",
    "interface='org.freedesktop.DBus',path_namespace='/org'",
    "sender='org.freedesktop.DBus',interface='org.freedesktop.DBus',path='/org/freedesktop/DBus',member='NameAcquired'",
};
static const char *const OTHERS[] = {
    "type='signal',interface='org.example.I%ld',member='Changed'",
    "sender='org.freedesktop.DBus',interface='org.freedesktop.DBus',member='NameOwnerChanged',arg0='org.example.N%ld'",
    "path='/org/example/%ld'",
    "interface='org.example.I%ld'",
};
static const long MATCHES = sizeof MATCHING / sizeof *MATCHING, FORMS = sizeof OTHERS / sizeof *OTHERS;

static double now(void) {
    struct timespec time;
    clock_gettime(CLOCK_PROCESS_CPUTIME_ID, &time);
    return (double)time.tv_sec * 1e9 + (double)time.tv_nsec;
}

static int check(void) {
    struct dbus_wire_checked told;
    return dbus_wire_check(bytes, length, NULL, &told) == DBUS_WIRE_WHOLE;
}

static int parts(void) {
    struct dbus_wire_parts out;
    return dbus_wire_parts_of(bytes, length, NULL, &out, NULL) == DBUS_WIRE_WHOLE;
}

static int flatten(void) {
    static struct dbus_wire_flat_item items[ROOM];
    uint64_t count;
    return dbus_wire_flatten(bytes, length, NULL, 0, items, ROOM, &count, NULL) == DBUS_WIRE_WHOLE;
}

static int read_both(void) {
    static struct dbus_wire_parts out;
    static struct dbus_wire_flat_item items[ROOM];
    uint64_t count;
    return dbus_wire_read(bytes, length, NULL, &out, items, ROOM, &count, NULL) == DBUS_WIRE_WHOLE;
}

static int build(void) {
    static struct dbus_wire_parts message;
    static struct dbus_wire_draft draft;
    struct dbus_wire_checked told;
    if (message.length == 0) {
        if (dbus_wire_parts_of(bytes, length, NULL, &message, NULL) != DBUS_WIRE_WHOLE) return 0;
        draft = dbus_wire_draft_of(&message, bytes);
    }
    return dbus_wire_build(&draft, NULL, built, sizeof built, &told) == DBUS_WIRE_OK;
}

static int matching(void) {
    static struct dbus_wire_rule_id found[ROOM];
    uint64_t count;
    return dbus_wire_rules_matching(&rules, bytes, length, NULL, found, ROOM, &count, NULL) == DBUS_WIRE_WHOLE;
}

static void measure(const char *name, int (*call)(void)) {
    double best = 0;
    int round, i;
    for (round = 0; round < ROUNDS; round++) {
        double took = now();
        for (i = 0; i < CALLS; i++)
            if (!call()) {
                fprintf(stderr, "%s did not succeed\n", name);
                exit(1);
            }
        took = (now() - took) / CALLS;
        if (round == 0 || took < best) best = took;
    }
    printf("%-10s %6.0f ns\n", name, best);
}

static void add(const char *text) {
    struct dbus_wire_rule_id id;
    struct dbus_wire_rule_refused told;
    if (dbus_wire_rules_add(&rules, text, strlen(text), &id, &told) != DBUS_WIRE_OK) {
        fprintf(stderr, "no rule: %s\n", text);
        exit(1);
    }
}

int main(int count_of_words, char **words) {
    long i, count = count_of_words > 1 ? atol(words[1]) : 1000;
    double start;
    length = fread(bytes, 1, sizeof bytes, stdin);
    measure("check", check);
    measure("parts_of", parts);
    measure("flatten", flatten);
    measure("read", read_both);
    measure("build", build);
    measure("signal", signal_built);
    start = now();
    for (i = 0; i < count; i++) {
        char text[256];
        snprintf(text, sizeof text, OTHERS[i % FORMS], i);
        add(i < MATCHES ? MATCHING[i] : text);
    }
    printf("%-10s %6.0f ns\n", "rules_add", (now() - start) / (double)count);
    measure("matching", matching);
    dbus_wire_rules_free(&rules);
    return 0;
}
