/* Holds the library against its header: the version, the sizes of structs, each null pointer that
 * is allowed, each answer of the calls that take a message apart, and a sentence for each reason
 * that has a name. Prints the number and the name of each reason, of messages and of rules. */
#include <dbus_wire.h>

#include "expect.h"

#include <stdio.h>
#include <string.h>

/* Past the last reason. */
enum { NUMBERS = 64 };

/* A signal of little-endian bytes with the string "hi", whose last 0 is that of the literal. */
static const uint8_t SIGNAL[] = "l\4\0\1\7\0\0\0\1\0\0\0\67\0\0\0\1\1o\0\1\0\0\0/\0\0\0\0\0\0\0\2\1s\0\3\0\0\0a.b\0\0\0\0\0\3\1s\0"
                                "\1\0\0\0c\0\0\0\0\0\0\0\10\1g\0\1s\0\0\2\0\0\0hi";
enum { SIGNAL_LENGTH = sizeof SIGNAL };

static void sizes(void) {
    expect(dbus_wire_version() == DBUS_WIRE_VERSION, "the library has the header's version");
    expect(sizeof(struct dbus_wire_limits) == 16 && sizeof(struct dbus_wire_checked) == 32, "limits 16, checked 32 bytes");
    expect(sizeof(struct dbus_wire_parts) == 208 && sizeof(struct dbus_wire_text) == 24, "parts 208, text 24 bytes");
    expect(sizeof(struct dbus_wire_draft) == 208 && sizeof(struct dbus_wire_draft_text) == 24, "draft 208, draft_text 24 bytes");
    expect(sizeof(struct dbus_wire_checker) == 8 && sizeof(struct dbus_wire_taken) == 24, "checker 8, taken 24 bytes");
    expect(sizeof(struct dbus_wire_rules) == 8 && sizeof(struct dbus_wire_rule_id) == 24 && sizeof(struct dbus_wire_rule_refused) == 16,
           "rules 8, rule_id 24, rule_refused 16 bytes");
    expect(sizeof(struct dbus_wire_flat_item) == 32 && sizeof(struct dbus_wire_whole_count) == 16, "flat_item 32, whole_count 16 bytes");
    expect(sizeof(struct dbus_wire_text_checked) == 16, "text_checked 16 bytes");
    expect(sizeof(struct dbus_wire_input_place) == 16 && sizeof(struct dbus_wire_explained) == 104,
           "input_place 16, explained 104 bytes");
}

static void nulls(void) {
    struct dbus_wire_limits limits;
    struct dbus_wire_checked told, same;
    struct dbus_wire_parts parts;
    struct dbus_wire_text_checked text;
    uint64_t count;

    expect(dbus_wire_check(NULL, 0, NULL, &told) == DBUS_WIRE_PARTIAL, "no bytes are partial");
    expect(dbus_wire_parts_of(NULL, 0, NULL, &parts, NULL) == DBUS_WIRE_PARTIAL, "no bytes are partial, by parts");
    expect(dbus_wire_flatten(NULL, 0, NULL, 0, NULL, 0, &count, NULL) == DBUS_WIRE_PARTIAL, "and by flatten");
    expect(dbus_wire_wanted(NULL, 0, NULL) == 0, "no bytes state no length");
    expect(dbus_wire_read(NULL, 0, NULL, &parts, NULL, 0, &count, NULL) == DBUS_WIRE_PARTIAL, "and by both");
    expect(dbus_wire_swap(NULL, 0, NULL, 'l', NULL, 0, NULL) == DBUS_WIRE_PARTIAL, "no bytes are partial, by swap");
    expect(dbus_wire_swap(SIGNAL, SIGNAL_LENGTH, NULL, 'B', NULL, 0, &told) == DBUS_WIRE_NO_ROOM, "no room");
    expect(dbus_wire_flatten(SIGNAL, SIGNAL_LENGTH, NULL, 0, NULL, 0, &count, NULL) == DBUS_WIRE_NO_ROOM, "nor for an item");
    expect(count == 1, "of which there is one");
    expect(dbus_wire_from_json(NULL, 0, NULL, 1, NULL, 0, &told) == DBUS_WIRE_REFUSED && told.offset == 0 &&
               told.reason == DBUS_WIRE_REASON_NOT_JSON,
           "no bytes are no line of JSON");
    expect(dbus_wire_text_check(DBUS_WIRE_TEXT_STRING, NULL, 0, &text) == DBUS_WIRE_OK, "the empty text is a STRING");
    expect(dbus_wire_reason_name(DBUS_WIRE_REASON_KIND, NULL, 0) == 4, "a name's length without room");

    dbus_wire_specification_limits(&limits);
    expect(dbus_wire_check(SIGNAL, SIGNAL_LENGTH, NULL, &told) == DBUS_WIRE_WHOLE, "a signal is whole");
    expect(dbus_wire_check(SIGNAL, SIGNAL_LENGTH, &limits, &same) == DBUS_WIRE_WHOLE && memcmp(&told, &same, sizeof told) == 0,
           "null limits are the specification's");
    limits.message = 16;
    expect(dbus_wire_check(SIGNAL, SIGNAL_LENGTH, &limits, &same) == DBUS_WIRE_REFUSED &&
               same.reason == DBUS_WIRE_REASON_MESSAGE_TOO_LONG,
           "other limits are not");
}

/* The bytes of a struct that no call has written, by which it is seen whether one does. */
#define FRESH(thing) memset(&(thing), 0xAA, sizeof(thing))

static int is_fresh(const void *thing, size_t size) {
    const uint8_t *bytes = thing;
    while (size > 0 && bytes[size - 1] == 0xAA) size--;
    return size == 0;
}

static void answers(void) {
    uint8_t bad[SIGNAL_LENGTH];
    struct dbus_wire_checked told, same;
    struct dbus_wire_parts parts;
    struct dbus_wire_draft draft;
    struct dbus_wire_flat_item item;
    uint64_t count;
    size_t length;

    FRESH(parts), FRESH(item), FRESH(count);
    for (length = 0; length < SIGNAL_LENGTH; length++) {
        expect(dbus_wire_parts_of(SIGNAL, length, NULL, &parts, NULL) == DBUS_WIRE_PARTIAL, "a front is partial, by parts");
        expect(dbus_wire_flatten(SIGNAL, length, NULL, 0, &item, 1, &count, NULL) == DBUS_WIRE_PARTIAL, "and by flatten");
    }
    memcpy(bad, SIGNAL, SIGNAL_LENGTH);
    bad[SIGNAL_LENGTH - 1] = 1;
    expect(dbus_wire_parts_of(bad, SIGNAL_LENGTH, NULL, &parts, &told) == DBUS_WIRE_REFUSED &&
               told.offset == SIGNAL_LENGTH - 1 && told.reason == DBUS_WIRE_REASON_NUL,
           "a bad signal is refused, by parts");
    expect(dbus_wire_flatten(bad, SIGNAL_LENGTH, NULL, 0, &item, 1, &count, &same) == DBUS_WIRE_REFUSED &&
               memcmp(&told, &same, sizeof told) == 0,
           "and by flatten");
    expect(is_fresh(&parts, sizeof parts) && is_fresh(&count, sizeof count), "then nothing else is written");
    expect(dbus_wire_flatten(SIGNAL, SIGNAL_LENGTH, NULL, 1, &item, 1, &count, NULL) == DBUS_WIRE_WHOLE,
           "there is no second value");
    expect(count == 1 && is_fresh(&item, sizeof item), "and none is written");

    expect(dbus_wire_parts_of(SIGNAL, SIGNAL_LENGTH, NULL, &parts, NULL) == DBUS_WIRE_WHOLE, "a signal has parts");
    expect(parts.length == SIGNAL_LENGTH && parts.kind == DBUS_WIRE_TYPE_SIGNAL && parts.flags == 0, "it is a signal");
    expect(parts.member.is_there && SIGNAL[parts.member.offset] == 'c', "its member is c");
    expect(dbus_wire_read(SIGNAL, SIGNAL_LENGTH, NULL, &parts, &item, 1, &count, &told) == DBUS_WIRE_WHOLE &&
               told.length == parts.length,
           "it has a first value");
    expect(item.code == 's' && item.length == 2 && memcmp(SIGNAL + item.offset, "hi", 2) == 0, "which is hi");
    draft = dbus_wire_draft_of(&parts, SIGNAL);
    expect(dbus_wire_rebuild(SIGNAL, SIGNAL_LENGTH, NULL, &draft, bad, sizeof bad, &told) == DBUS_WIRE_OK &&
               told.length == SIGNAL_LENGTH && memcmp(bad, SIGNAL, SIGNAL_LENGTH) == 0,
           "of its own draft it comes back");
    draft.sender = dbus_wire_text_of("a");
    expect(dbus_wire_rebuild(SIGNAL, SIGNAL_LENGTH, NULL, &draft, bad, sizeof bad, &told) == DBUS_WIRE_REFUSED &&
               told.reason == DBUS_WIRE_REASON_BUS_NAME && told.field == DBUS_WIRE_FIELD_SENDER,
           "what it is refused for names the field");
    memset(&draft, 0, sizeof draft);
    expect(dbus_wire_build(&draft, NULL, NULL, 0, &told) == DBUS_WIRE_REFUSED && told.reason == DBUS_WIRE_REASON_BYTE_ORDER,
           "a draft of zeros names no byte order");
    draft.order = 'l';
    expect(dbus_wire_build(&draft, NULL, NULL, 0, &told) == DBUS_WIRE_REFUSED && told.reason == DBUS_WIRE_REASON_KIND &&
               dbus_wire_rebuild(NULL, 0, NULL, &draft, NULL, 0, NULL) == DBUS_WIRE_PARTIAL &&
               dbus_wire_reply_to(NULL, 0, NULL, &draft, NULL, 0, NULL) == DBUS_WIRE_PARTIAL,
           "no type is 0, and no bytes are partial, by builders");
}

/* Lines of JSON with no serial, under limits and with a field that is missing. */
static void lines(void) {
    static const char reply[] = "{\"type\":\"method_return\",\"reply_serial\":1}", missing[] = " {\"type\":\"method_return\"}";
    static const struct dbus_wire_limits limits = {23, UINT32_MAX, UINT32_MAX, DBUS_WIRE_FDS_ANY};
    uint8_t out[32];
    struct dbus_wire_checked told;
    struct dbus_wire_parts parts;

    FRESH(out);
    expect(dbus_wire_from_json(reply, sizeof reply - 1, NULL, 7, out, sizeof out, &told) == DBUS_WIRE_OK && told.length == 24 &&
               told.order == 'l' && dbus_wire_parts_of(out, 24, NULL, &parts, NULL) == DBUS_WIRE_WHOLE && parts.serial == 7,
           "a line with no serial has the one that is given");
    expect(is_fresh(out + 24, sizeof out - 24), "no byte after its message is written");
    FRESH(out);
    expect(dbus_wire_from_json(reply, sizeof reply - 1, NULL, 0, out, sizeof out, &told) == DBUS_WIRE_REFUSED &&
               told.reason == DBUS_WIRE_REASON_ZERO_SERIAL,
           "0 is none");
    expect(dbus_wire_from_json(reply, sizeof reply - 1, &limits, 7, out, sizeof out, &told) == DBUS_WIRE_REFUSED &&
               told.reason == DBUS_WIRE_REASON_MESSAGE_TOO_LONG && told.offset == 0,
           "its message may be over a limit");
    expect(dbus_wire_from_json(missing, sizeof missing - 1, NULL, 7, out, sizeof out, &told) == DBUS_WIRE_REFUSED &&
               told.reason == DBUS_WIRE_REASON_FIELD_MISSING && told.field == DBUS_WIRE_FIELD_REPLY_SERIAL && told.offset == 1,
           "a reply needs a REPLY_SERIAL");
    expect(is_fresh(out, sizeof out), "then nothing is written");
}

/* What of a refused signal is whole before its fault: the header fields of the whole one, but for
 * their array. */
static void fields_before(const uint8_t *bad) {
    struct dbus_wire_flat_item all[32], some[32];
    struct dbus_wire_whole_count count = {7, 7};
    struct dbus_wire_checked told;
    uint8_t cut[SIGNAL_LENGTH];
    uint64_t all_count;

    expect(dbus_wire_flatten_fields(SIGNAL, SIGNAL_LENGTH, NULL, 0, all, 32, &all_count, NULL) == DBUS_WIRE_OK && all_count == 17,
           "a signal has four fields");
    expect(dbus_wire_flatten_whole(SIGNAL, SIGNAL_LENGTH, NULL, 0, some, 32, &count, &told) == DBUS_WIRE_NO_VALUE &&
               dbus_wire_flatten_whole(NULL, 0, NULL, 0, NULL, 0, &count, NULL) == DBUS_WIRE_PARTIAL && count.fields == 7 && count.all == 7,
           "which are not refused");
    expect(dbus_wire_flatten_whole(bad, SIGNAL_LENGTH, NULL, 0, some, 32, &count, NULL) == DBUS_WIRE_OK && count.fields == 16 &&
               count.all == 16 && memcmp(some, all + 1, 16 * sizeof *some) == 0,
           "a fault in the first value of the body leaves all of them");
    expect(dbus_wire_flatten_whole(bad, SIGNAL_LENGTH, NULL, 15, NULL, 0, &count, NULL) == DBUS_WIRE_NO_ROOM && count.all == 16,
           "of which the last has no room here");
    memcpy(cut, SIGNAL, SIGNAL_LENGTH);
    cut[43] = 1;
    expect(dbus_wire_flatten_whole(cut, SIGNAL_LENGTH, NULL, 0, some, 32, &count, &told) == DBUS_WIRE_OK && count.all == 4 &&
               told.offset == 43 && memcmp(some, all + 1, 4 * sizeof *some) == 0,
           "one in the second field leaves the first");
    cut[1] = 0;
    expect(dbus_wire_flatten_whole(cut, SIGNAL_LENGTH, NULL, 0, some, 32, &count, NULL) == DBUS_WIRE_OK && count.fields == 0 && count.all == 0,
           "and one in the first bytes leaves none");
}

/* And the values of its body that are whole, here 7 of 7 and "hi". */
static void values_before(void) {
    static const uint8_t two[] = "l\4\0\1\13\0\0\0\1\0\0\0\70\0\0\0\1\1o\0\1\0\0\0/\0\0\0\0\0\0\0\2\1s\0\3\0\0\0a.b\0\0\0\0\0\3\1s\0"
                                 "\1\0\0\0c\0\0\0\0\0\0\0\10\1g\0\2us\0\7\0\0\0\2\0\0\0hi";
    struct dbus_wire_flat_item all[2], some[32];
    struct dbus_wire_whole_count count;
    uint8_t bad[sizeof two];
    uint64_t all_count;

    expect(dbus_wire_flatten(two, sizeof two, NULL, 0, all, 2, &all_count, NULL) == DBUS_WIRE_OK && all_count == 2, "a signal has two values");
    memcpy(bad, two, sizeof two);
    bad[sizeof two - 1] = 1;
    expect(dbus_wire_flatten_whole(bad, sizeof two, NULL, 0, some, 32, &count, NULL) == DBUS_WIRE_OK && count.fields == 16 &&
               count.all == 17 && memcmp(some + 16, all, sizeof *all) == 0,
           "a fault in the second leaves the first");
    expect(dbus_wire_flatten_whole(bad, sizeof two, NULL, 16, some, 1, &count, NULL) == DBUS_WIRE_OK && memcmp(some, all, sizeof *all) == 0,
           "which stands behind the fields");
}

/* Why a signal is refused of which the last 0 is another byte: what is written in each room. */
static void explanations(void) {
    static uint8_t lines[512], cut[512];
    uint8_t bad[SIGNAL_LENGTH];
    struct dbus_wire_explained explained, same;
    struct dbus_wire_checked told;
    size_t room, at;

    FRESH(explained), FRESH(lines);
    expect(dbus_wire_explain(SIGNAL, SIGNAL_LENGTH, NULL, NULL, lines, sizeof lines, &explained, &told) == DBUS_WIRE_NO_VALUE &&
               told.length == SIGNAL_LENGTH,
           "of a message there is nothing to explain");
    expect(dbus_wire_explain(NULL, 0, NULL, NULL, NULL, 0, &explained, NULL) == DBUS_WIRE_PARTIAL, "nor of no bytes");
    expect(is_fresh(&explained, sizeof explained) && is_fresh(lines, sizeof lines), "then nothing else is written");

    memcpy(bad, SIGNAL, SIGNAL_LENGTH);
    bad[SIGNAL_LENGTH - 1] = 1;
    expect(dbus_wire_explain(bad, SIGNAL_LENGTH, NULL, NULL, lines, sizeof lines, &explained, &told) == DBUS_WIRE_OK &&
               told.offset == SIGNAL_LENGTH - 1 && told.reason == DBUS_WIRE_REASON_NUL,
           "a bad signal is explained");
    expect(strlen((const char *)lines) == explained.length && lines[explained.length - 1] == '\n', "by lines");
    expect(explained.name.length == 7 && memcmp(lines + explained.name.offset, "body[0]", 7) == 0, "its place is body[0]");
    expect(explained.head.is_there && memcmp(lines + explained.head.offset, "#1 l signal serial=1", 20) == 0, "its head is there");
    expect(memcmp(lines + explained.rule.offset, "a 0 follows a text (", 20) == 0, "its rule too");
    expect(explained.text.is_there && explained.text.length == 2 && memcmp(bad + explained.text.offset, "hi", 2) == 0,
           "it is in a text");
    fields_before(bad);
    values_before();
    for (room = 0; room < sizeof cut; room++) {
        size_t written = room <= explained.length ? room : explained.length + 1;
        FRESH(cut);
        expect(dbus_wire_explain(bad, SIGNAL_LENGTH, NULL, NULL, cut, room, &same, NULL) ==
                       (room > explained.length ? DBUS_WIRE_OK : DBUS_WIRE_NO_ROOM) &&
                   memcmp(&same, &explained, sizeof same) == 0 && memcmp(cut, lines, written) == 0,
               "as much of them as there is room for");
        for (at = written; at < sizeof cut; at++) expect(cut[at] == 0xAA, "and no byte after it");
    }
}

/* The reasons whose constants begin so, by the calls of their names and of their sentences. */
static void reasons(const char *prefix, size_t (*name_of)(uint32_t, uint8_t *, size_t), const char *(*text_of)(uint32_t)) {
    uint8_t name[32];
    uint32_t reason, other;

    for (reason = 0; reason < NUMBERS; reason++) {
        size_t length = name_of(reason, name, sizeof name);
        const char *text = text_of(reason);
        expect((length > 0) == (strcmp(text, text_of(0)) != 0), "a reason has a name if and only if it has a text");
        expect(length < sizeof name && strlen(text) > 0, "both fit");
        for (other = 0; length > 0 && other < reason; other++)
            expect(strcmp(text, text_of(other)) != 0, "each text is of one reason");
        if (length > 0) printf("%s %u %s\n", prefix, (unsigned)reason, (const char *)name);
    }
    expect(text_of(UINT32_MAX) == text_of(0), "the greatest number is no reason");
}

static void rules(void) {
    static const uint8_t text[] = "type='signal',arg0='hi'", not_utf8[] = "arg0=\xFF", name[] = "org.a.B", owner[] = ":1.7";
    struct dbus_wire_rules rules = {0};
    struct dbus_wire_rule_id signals = {0, 0, 0}, all = {0, 0, 0}, found[2];
    struct dbus_wire_rule_refused told;
    uint64_t count = 7, length = 7;
    uint32_t may = 7;

    expect(dbus_wire_rules_remove(&rules, &signals) == DBUS_WIRE_NO_RULE, "there is no rule");
    expect(dbus_wire_rules_text(&rules, &signals, NULL, 0, &length) == DBUS_WIRE_NO_RULE && length == 7, "and no text is written");
    expect(dbus_wire_rules_matching(&rules, SIGNAL, SIGNAL_LENGTH, NULL, NULL, 0, &count, NULL) == DBUS_WIRE_WHOLE && count == 0,
           "without rules none matches");
    expect(dbus_wire_rules_owner(&rules, NULL, 0, owner, sizeof owner - 1) == DBUS_WIRE_REFUSED &&
               dbus_wire_rules_owner(&rules, name, sizeof name - 1, not_utf8, sizeof not_utf8 - 1) == DBUS_WIRE_REFUSED,
           "these are no names");
    expect(dbus_wire_rules_add(&rules, not_utf8, sizeof not_utf8 - 1, &signals, &told) == DBUS_WIRE_REFUSED, "a rule is UTF-8");
    expect(told.reason == DBUS_WIRE_RULE_REASON_NOT_UTF8 && told.offset == 5 && rules.inner == NULL, "the last byte is not");
    expect(dbus_wire_rules_add(&rules, text, sizeof text - 1, &signals, &told) == DBUS_WIRE_OK, "this is a rule");
    expect(dbus_wire_rules_matching(&rules, SIGNAL, SIGNAL_LENGTH - 1, NULL, found, 2, &length, NULL) == DBUS_WIRE_PARTIAL &&
               length == 7,
           "a front is partial, by rules");
    expect(dbus_wire_rules_matching(&rules, SIGNAL, SIGNAL_LENGTH, NULL, found, 2, &count, NULL) == DBUS_WIRE_WHOLE && count == 1 &&
               found[0].number == signals.number,
           "it matches the signal");
    expect(dbus_wire_rules_may_match(&rules, SIGNAL, SIGNAL_LENGTH - 1, NULL, NULL, 0, &may, NULL) == DBUS_WIRE_PARTIAL && may == 7 &&
               dbus_wire_rules_may_match(&rules, SIGNAL, SIGNAL_LENGTH, NULL, name, sizeof name - 1, &may, NULL) == DBUS_WIRE_WHOLE &&
               may == 1,
           "and so it may match it, whoever sends it");
    expect(dbus_wire_rules_add(&rules, NULL, 0, &all, &told) == DBUS_WIRE_OK, "no text is the rule without keys");
    expect(dbus_wire_rules_text(&rules, &all, NULL, 0, &length) == DBUS_WIRE_NO_ROOM && length == 0, "whose text is empty");
    expect(dbus_wire_rules_matching(&rules, SIGNAL, SIGNAL_LENGTH, NULL, found, 1, &count, NULL) == DBUS_WIRE_NO_ROOM &&
               count == 2,
           "both match the signal, and one has room");
    expect(dbus_wire_rules_owner(&rules, name, sizeof name - 1, owner, sizeof owner - 1) == DBUS_WIRE_OK &&
               dbus_wire_rules_owner(&rules, name, sizeof name - 1, NULL, 0) == DBUS_WIRE_OK,
           "an owner comes and goes");
    expect(dbus_wire_rules_as_bus(&rules, 1) == DBUS_WIRE_OK &&
               dbus_wire_rules_matching(&rules, SIGNAL, SIGNAL_LENGTH, NULL, found, 2, &count, NULL) == DBUS_WIRE_WHOLE &&
               count == 2 && dbus_wire_rules_as_bus(&rules, 0) == DBUS_WIRE_OK,
           "and as at a bus, for it is to nobody");
    expect(dbus_wire_rules_remove(&rules, &signals) == DBUS_WIRE_OK && dbus_wire_rules_remove(&rules, &signals) == DBUS_WIRE_NO_RULE,
           "a rule is removed once");
    expect(dbus_wire_rules_matching(&rules, SIGNAL, SIGNAL_LENGTH, NULL, found, 1, &count, NULL) == DBUS_WIRE_WHOLE && count == 1 &&
               found[0].number == all.number,
           "the other is left");
    dbus_wire_rules_free(&rules);
    expect(dbus_wire_rules_may_match(&rules, SIGNAL, SIGNAL_LENGTH, NULL, NULL, 0, &may, NULL) == DBUS_WIRE_WHOLE && may == 0,
           "without rules none may match");
    dbus_wire_rules_free(&rules);
    dbus_wire_rules_free(NULL), dbus_wire_checker_free(NULL), dbus_wire_handshake_free(NULL);
    expect(rules.inner == NULL && dbus_wire_rules_remove(&rules, &all) == DBUS_WIRE_NO_RULE, "freed rules are none");
}

int main(void) {
    sizes();
    nulls();
    answers();
    lines();
    explanations();
    rules();
    reasons("REASON_", dbus_wire_inline_reason_name, dbus_wire_reason_text);
    reasons("RULE_REASON_", dbus_wire_inline_rule_reason_name, dbus_wire_rule_reason_text);
    return failures > 0;
}
