/* Asks which of the match rules that the words spell match each D-Bus message on standard input: by
 * threads at the same time, all of one struct. Says what does not hold of them, and how many
 * matches each thread found. The exit status is 3 if memory runs out, and 2 if a rule is refused. */
#include <dbus_wire.h>

#include "expect.h"

#include <pthread.h>
#include <stdio.h>
#include <string.h>

#define THREADS 4
#define RULES 8

static uint8_t bytes[1 << 20];
static size_t length;

/* The rules that a thread asks, and one of them; how many matches it found, how often a rule may
 * match, and the last answer. */
struct asker {
    const struct dbus_wire_rules *rules;
    struct dbus_wire_rule_id id;
    size_t matches, mays;
    uint32_t answer;
};

static void ask(struct asker *asker) {
    struct dbus_wire_rule_id found[RULES];
    uint8_t text[256];
    uint64_t count = 0;
    uint32_t may = 0;
    size_t at = 0, next;
    asker->matches = asker->mays = 0;
    while ((next = (size_t)dbus_wire_wanted(bytes + at, length - at, NULL)) > 0 && next <= length - at) {
        asker->answer = dbus_wire_rules_matching(asker->rules, bytes + at, next, NULL, found, RULES, &count, NULL);
        if (asker->answer != DBUS_WIRE_WHOLE) return;
        asker->answer = dbus_wire_rules_may_match(asker->rules, bytes + at, next, NULL, NULL, 0, &may, NULL);
        if (asker->answer != DBUS_WIRE_WHOLE) return;
        asker->matches += (size_t)count;
        asker->mays += may;
        at += next;
    }
    asker->answer = dbus_wire_rules_text(asker->rules, &asker->id, text, sizeof text, &count);
}

static void *ask_often(void *given) {
    int run;
    for (run = 0; run < 8; run++) ask(given);
    return NULL;
}

static int out_of_memory(void) {
    fprintf(stderr, "out of memory\n");
    return 3;
}

int main(int count_of_words, char **words) {
    static struct asker askers[THREADS];
    struct dbus_wire_rules rules = {0};
    struct asker alone = {&rules, {0, 0, 0}, 0, 0, DBUS_WIRE_WHOLE};
    pthread_t threads[THREADS];
    int i;
    length = fread(bytes, 1, sizeof bytes, stdin);
    for (i = 1; i < count_of_words && i <= RULES; i++) {
        struct dbus_wire_rule_refused told;
        uint32_t answer = dbus_wire_rules_add(&rules, words[i], strlen(words[i]), &alone.id, &told);
        if (answer == DBUS_WIRE_NO_MEMORY) return out_of_memory();
        if (answer != DBUS_WIRE_OK) return 2;
    }
    if (i == 1) return 2;
    ask(&alone);
    if (alone.answer == DBUS_WIRE_NO_MEMORY) return out_of_memory();
    expect(alone.answer == DBUS_WIRE_OK, "the rules are asked");
    for (i = 0; i < THREADS; i++) {
        askers[i] = alone;
        if (pthread_create(&threads[i], NULL, ask_often, &askers[i]) != 0) return 5;
    }
    for (i = 0; i < THREADS; i++) pthread_join(threads[i], NULL);
    for (i = 0; i < THREADS; i++) {
        if (askers[i].answer == DBUS_WIRE_NO_MEMORY) return out_of_memory();
        expect(askers[i].answer == DBUS_WIRE_OK && askers[i].matches == alone.matches && askers[i].mays == alone.mays,
               "each thread finds what one found");
    }
    dbus_wire_rules_free(&rules);
    printf("%zu matches on %d threads\n", alone.matches, THREADS);
    return failures > 0;
}
