/* Writes those D-Bus messages on standard input that a match rule matches, as
 * `dbus-wire filter RULE` does: the first word is the rule, and each further one an owner of a
 * name, as org.a.B=:1.7. The exit status is 2 if a word is refused, and 1 if the input is. The
 * rule's canonical text has to make the rule that it is of. */
#include <dbus_wire.h>

#include <stdio.h>
#include <string.h>

static uint32_t add(struct dbus_wire_rules *rules, const char *text, size_t length, struct dbus_wire_rule_id *id) {
    struct dbus_wire_rule_refused told;
    uint8_t name[32];
    uint32_t answer = dbus_wire_rules_add(rules, text, length, id, &told);
    if (answer == DBUS_WIRE_REFUSED) {
        dbus_wire_rule_reason_name(told.reason, name, sizeof name);
        fprintf(stderr, "rule refused at %llu: %s\n", (unsigned long long)told.offset, (const char *)name);
    }
    return answer;
}

/* Whether the rule has a canonical text that spells the same rule, which takes its place. */
static int add_again(struct dbus_wire_rules *rules, struct dbus_wire_rule_id *id) {
    static char text[1 << 16], again[1 << 16];
    struct dbus_wire_rule_id first = *id;
    uint64_t length = 0, other = 0;
    if (dbus_wire_rules_text(rules, id, NULL, 0, &length) != DBUS_WIRE_NO_ROOM ||
        dbus_wire_rules_text(rules, id, (uint8_t *)text, (size_t)length, &other) != DBUS_WIRE_NO_ROOM || other != length ||
        dbus_wire_rules_text(rules, id, (uint8_t *)text, (size_t)length + 1, &length) != DBUS_WIRE_OK || strlen(text) != length)
        return 0;
    return add(rules, text, (size_t)length, id) == DBUS_WIRE_OK && dbus_wire_rules_remove(rules, &first) == DBUS_WIRE_OK &&
           dbus_wire_rules_text(rules, &first, NULL, 0, &other) == DBUS_WIRE_NO_RULE &&
           dbus_wire_rules_text(rules, id, (uint8_t *)again, sizeof again, &other) == DBUS_WIRE_OK && strcmp(text, again) == 0;
}

/* Notes the owner of a name, as org.a.B=:1.7. */
static uint32_t note(struct dbus_wire_rules *rules, const char *word) {
    const char *sign = strchr(word, '=');
    if (sign == NULL) return DBUS_WIRE_REFUSED;
    return dbus_wire_rules_owner(rules, word, (size_t)(sign - word), sign + 1, strlen(sign + 1));
}

int main(int count_of_words, char **words) {
    static uint8_t bytes[1 << 20];
    struct dbus_wire_rules rules = {0};
    struct dbus_wire_rule_id id, found;
    struct dbus_wire_checked told;
    uint64_t matches = 0;
    size_t count, at = 0;
    int i;

    if (count_of_words < 2 || add(&rules, words[1], strlen(words[1]), &id) != DBUS_WIRE_OK) return 2;
    if (!add_again(&rules, &id)) return 4;
    for (i = 2; i < count_of_words; i++)
        switch (note(&rules, words[i])) {
        case DBUS_WIRE_OK: break;
        case DBUS_WIRE_REFUSED: return 2;
        default: return 3;
        }
    count = fread(bytes, 1, sizeof bytes, stdin);
    while (at < count) {
        uint32_t answer = dbus_wire_rules_matching(&rules, bytes + at, count - at, NULL, &found, 1, &matches, &told);
        if (answer == DBUS_WIRE_PARTIAL || answer == DBUS_WIRE_REFUSED) break;
        if (answer != DBUS_WIRE_WHOLE) return 3;
        if (matches > 0) {
            if (found.number != id.number) return 4;
            fwrite(bytes + at, 1, (size_t)told.length, stdout);
        }
        at += (size_t)told.length;
    }
    dbus_wire_rules_free(&rules);
    if (dbus_wire_rules_matching(&rules, bytes, at, NULL, &found, 1, &matches, NULL) !=
            (at > 0 ? DBUS_WIRE_WHOLE : DBUS_WIRE_PARTIAL) ||
        (at > 0 && matches > 0))
        return 4;
    return at < count;
}
