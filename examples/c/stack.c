/* Prints how many bytes of stack each call used that reads a message or makes one: of a message of
 * values as deep as the specification allows, whole, without its last byte, and with a bad one. Each
 * call is made on a thread that has a stack of its own. examples/stack.py says what a call needs at
 * most. */
#define _GNU_SOURCE /* a stack of one's own */
#include <dbus_wire.h>

#include <pthread.h>
#include <stdio.h>
#include <stdlib.h>

enum { STACK = 1 << 18, DEEPEST = 64, DEEPEST_LINE = 130, UNUSED = 0xAA };

static uint8_t stack[STACK] __attribute__((aligned(4096)));
static uint8_t message[1024], out[1024], body[256], line[8192];
static char nested[512];
static size_t length;
static struct dbus_wire_draft draft = {.order = 'l', .kind = DBUS_WIRE_TYPE_SIGNAL, .serial = 1, .body = body};
static struct dbus_wire_checked told;
static struct dbus_wire_parts parts;
static struct dbus_wire_flat_item items[DEEPEST + 1];
static struct dbus_wire_checker checker;
static struct dbus_wire_taken taken;
static struct dbus_wire_rules rules;
static struct dbus_wire_rule_id id;
static struct dbus_wire_rule_refused refused;
static uint64_t count, line_length;

/* Ends if the call returned what none here is to return. */
static void must(uint32_t answer) {
    if (answer <= DBUS_WIRE_REFUSED) return;
    fprintf(stderr, "a call returned %u\n", (unsigned)answer);
    exit(1);
}

/* A variant in an array in a variant, and so on, up to a BYTE; or only variants. */
static void make_message(int has_arrays) {
    struct dbus_wire_writer writer = {0, 'l', 0};
    struct dbus_wire_array arrays[DEEPEST];
    int depth = 1, opened = 0;
    for (; depth + has_arrays < DEEPEST; depth += 1 + has_arrays) {
        must(dbus_wire_put_signature(body, sizeof body, &writer, has_arrays ? "av" : "v", 1 + (size_t)has_arrays));
        if (has_arrays) must(dbus_wire_open_array(body, sizeof body, &writer, 1, &arrays[opened++]));
    }
    must(dbus_wire_put_signature(body, sizeof body, &writer, "y", 1));
    must(dbus_wire_put_number(body, sizeof body, &writer, 1, 7));
    while (opened > 0) must(dbus_wire_close_array(body, sizeof body, &writer, &arrays[--opened]));
    draft.path = dbus_wire_text_of("/a");
    draft.interface = dbus_wire_text_of("a.b");
    draft.member = dbus_wire_text_of("C");
    draft.signature = dbus_wire_text_of("v");
    draft.body_length = (size_t)writer.length;
    must(dbus_wire_build(&draft, NULL, message, sizeof message, &told));
    length = (size_t)told.length;
    must(dbus_wire_json(message, length, NULL, NULL, line, sizeof line, &line_length, &told));
}

/* A line with arrays in an object that nest as deep as a line may. */
static void make_nested(void) {
    static const char start[] = "{\"number\":", end[] = ",\"type\":2,\"reply_serial\":1}";
    memcpy(nested, start, sizeof start - 1);
    memset(nested + sizeof start - 1, '[', DEEPEST_LINE - 1);
    memset(nested + sizeof start - 1 + DEEPEST_LINE - 1, ']', DEEPEST_LINE - 1);
    memcpy(nested + sizeof start - 1 + 2 * (DEEPEST_LINE - 1), end, sizeof end);
}

static void *nothing(void *unused) { return unused; }
static void *check(void *unused) { return must(dbus_wire_check(message, length, NULL, &told)), unused; }
static void *parts_of(void *unused) { return must(dbus_wire_parts_of(message, length, NULL, &parts, &told)), unused; }
static void *flatten(void *unused) { return must(dbus_wire_flatten(message, length, NULL, 0, items, DEEPEST + 1, &count, &told)), unused; }
static void *swap(void *unused) { return must(dbus_wire_swap(message, length, NULL, 'B', out, sizeof out, &told)), unused; }
static void *build(void *unused) { return must(dbus_wire_build(&draft, NULL, out, sizeof out, &told)), unused; }
static void *rebuild(void *unused) { return must(dbus_wire_rebuild(message, length, NULL, &draft, out, sizeof out, &told)), unused; }
static void *reply_to(void *unused) { return must(dbus_wire_reply_to(message, length, NULL, &draft, out, sizeof out, &told)), unused; }
static void *from_json(void *unused) {
    must(dbus_wire_from_json(line, (size_t)line_length, NULL, 1, out, sizeof out, &told));
    must(dbus_wire_from_json(nested, strlen(nested), NULL, 1, out, sizeof out, &told));
    must(told.length == 24 ? DBUS_WIRE_OK : DBUS_WIRE_NO_VALUE);
    return unused;
}
static void *take(void *unused) { return must(dbus_wire_checker_take(&checker, message, length, &taken)), unused; }
static void *matching(void *unused) { return must(dbus_wire_rules_matching(&rules, message, length, NULL, &id, 1, &count, &told)), unused; }

/* How many bytes of the stack a thread changed that makes the call. */
static size_t used_by(void *(*calls)(void *)) {
    pthread_attr_t attributes;
    pthread_t thread;
    size_t left = 0;
    memset(stack, UNUSED, sizeof stack);
    if (pthread_attr_init(&attributes) != 0 || pthread_attr_setstack(&attributes, stack, sizeof stack) != 0) exit(1);
    if (pthread_create(&thread, &attributes, calls, NULL) != 0 || pthread_join(thread, NULL) != 0) exit(1);
    pthread_attr_destroy(&attributes);
    while (left < sizeof stack && stack[left] == UNUSED) left++;
    return sizeof stack - left;
}

/* The most of a call: of the message whole, without its last byte, and with a bad innermost type. */
static size_t most_of(void *(*calls)(void *)) {
    size_t whole = used_by(calls), part, bad;
    dbus_wire_checker_restart(&checker), length--;
    part = used_by(calls);
    dbus_wire_checker_restart(&checker), length++;
    message[length - 3] = '!';
    bad = used_by(calls);
    message[length - 3] = 'y';
    dbus_wire_checker_restart(&checker);
    if (whole < part) whole = part;
    return whole < bad ? bad : whole;
}

int main(void) {
    static const struct {
        const char *name;
        void *(*calls)(void *);
    } all[] = {{"check", check}, {"parts_of", parts_of}, {"flatten", flatten}, {"swap", swap}, {"build", build}, {"rebuild", rebuild},
               {"reply_to", reply_to}, {"from_json", from_json}, {"checker_take", take}, {"rules_matching", matching}};
    static const char rule[] = "type='signal',path='/a',interface='a.b',member='C'";
    size_t alone = used_by(nothing);

    make_nested();
    must(dbus_wire_checker_new(NULL, &checker));
    must(dbus_wire_rules_add(&rules, rule, sizeof rule - 1, &id, &refused));
    for (size_t i = 0; i < sizeof all / sizeof all[0]; i++) {
        size_t variants, arrays;
        make_message(0), variants = most_of(all[i].calls);
        make_message(1), arrays = most_of(all[i].calls);
        printf("dbus_wire_%s used %zu bytes of stack\n", all[i].name, (variants < arrays ? arrays : variants) - alone);
    }
    dbus_wire_checker_free(&checker);
    dbus_wire_rules_free(&rules);
    return 0;
}
