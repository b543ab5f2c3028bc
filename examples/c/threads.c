/* Checks the D-Bus messages on standard input by two checkers on two threads, in pieces of two
 * lengths, and then once more after each checker went to the other thread. Says what does not hold
 * of them, and of the answers of calls on no checker. */
#include <dbus_wire.h>

#include "expect.h"

#include <pthread.h>
#include <stdio.h>

static uint8_t bytes[1 << 20];
static size_t length;

/* A run of a checker over all bytes: how many messages it finds, and where it ends. */
struct run {
    struct dbus_wire_checker *checker;
    size_t most, messages, at;
};

static void *check_all(void *given) {
    struct run *run = given;
    struct dbus_wire_taken told;
    while (run->at < length) {
        size_t left = length - run->at;
        uint32_t answer = dbus_wire_checker_take(run->checker, bytes + run->at, left < run->most ? left : run->most, &told);
        run->at += told.count;
        if (answer == DBUS_WIRE_REFUSED) break;
        if (answer == DBUS_WIRE_PARTIAL) continue;
        run->messages += 1;
        dbus_wire_checker_restart(run->checker);
    }
    return NULL;
}

/* The number of messages that both checkers find, each on a thread of its own. */
static size_t on_threads(struct dbus_wire_checker *one, struct dbus_wire_checker *other) {
    struct run first = {one, 5, 0, 0}, second = {other, 4096, 0, 0};
    pthread_t thread;
    if (pthread_create(&thread, NULL, check_all, &first) != 0) return 0;
    check_all(&second);
    pthread_join(thread, NULL);
    expect(first.at == length && second.at == length && first.messages == second.messages, "both find the same");
    return first.messages;
}

static void on_none(struct dbus_wire_checker *none) {
    struct dbus_wire_taken told = {1, 2, 3, 4};
    expect(dbus_wire_checker_take(none, bytes, length, &told) == DBUS_WIRE_NO_CHECKER, "no checker takes a piece");
    expect(told.count == 1 && told.offset == 2 && told.reason == 3 && told.field == 4, "nothing is told of it");
    expect(dbus_wire_checker_restart(none) == DBUS_WIRE_NO_CHECKER, "no checker is restarted");
    dbus_wire_checker_free(none);
}

static void on_limits(struct dbus_wire_checker *checker) {
    struct dbus_wire_limits limits = {16, 0, 64, DBUS_WIRE_FDS_ANY};
    struct dbus_wire_taken told;
    expect(dbus_wire_checker_new(&limits, checker) == DBUS_WIRE_OK, "there is memory");
    expect(dbus_wire_checker_take(checker, NULL, 0, &told) == DBUS_WIRE_PARTIAL && told.count == 0, "no bytes are partial");
    expect(dbus_wire_checker_take(checker, bytes, length, &told) == DBUS_WIRE_REFUSED && told.reason != 0, "the limits are kept");
    expect(dbus_wire_checker_take(checker, NULL, 0, &told) == DBUS_WIRE_REFUSED, "a refusal stays");
    expect(dbus_wire_checker_restart(checker) == DBUS_WIRE_OK, "it begins again");
    expect(dbus_wire_checker_take(checker, NULL, 0, &told) == DBUS_WIRE_PARTIAL, "from the start");
    dbus_wire_checker_free(checker);
}

int main(void) {
    struct dbus_wire_checker one = {0}, other = {0};
    size_t messages;
    length = fread(bytes, 1, sizeof bytes, stdin);
    on_none(&one);
    on_limits(&one);
    on_none(&one);
    expect(dbus_wire_checker_new(NULL, &one) == DBUS_WIRE_OK && dbus_wire_checker_new(NULL, &other) == DBUS_WIRE_OK, "two are made");
    messages = on_threads(&one, &other);
    expect(messages > 0 && messages == on_threads(&other, &one), "on the other thread each finds the same");
    dbus_wire_checker_free(&one);
    dbus_wire_checker_free(&other);
    on_none(&other);
    printf("%zu messages on two threads\n", messages);
    return failures > 0;
}
