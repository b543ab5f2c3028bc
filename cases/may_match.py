#!/usr/bin/env python3
"""may_match.py [HOW-MANY [SEED]]: asks the library, by its module for Python, whether rules may match messages, and
says where a second reading of docs/MATCH-RULES.md answers otherwise: of HOW-MANY messages, 100,000 if none is named,
each with a rule, owners of names and a sender that are drawn. The exit status is 1 if something differs. PYTHONPATH has
to name the module and DBUS_WIRE_LIBRARY the library.
"""

import random
import sys

sys.dont_write_bytecode = True

from dbus_wire import ObjectPath, RuleSet, build  # noqa: E402

BUS = "org.freedesktop.DBus"
TYPES = {1: "method_call", 2: "method_return", 3: "error", 4: "signal", 5: None}
UNIQUE = (":1.1", ":1.2", ":1.3")
NAMES = ("org.a.A", "org.a.B", "org.b", BUS, *UNIQUE)
INTERFACES = ("org.a.A", "org.b", BUS)
MEMBERS = ("Get", "Set")
PATHS = ("/", "/a", "/a/b", "/ab")
TEXTS = ("", "/", "/a", "/a/", "/a/b", "org", "org.a", "org.a.B", "or", "it's, x")


def drawn_message(draw):
    """The parts of a message that some rule asks for, and its values with their types."""
    kind = draw.choice((1, 1, 1, *TYPES))
    some = lambda those, least=False: draw.choice(those) if least or draw.random() < 0.7 else None
    parts = {
        "path": some(PATHS, kind in (1, 4)),
        "interface": some(INTERFACES, kind == 4),
        "member": some(MEMBERS, kind in (1, 4)),
        "error_name": "org.a.E" if kind == 3 else None,
        "reply_serial": 1 if kind in (2, 3) else None,
        "destination": some(NAMES),
        "sender": some(NAMES),
    }
    return kind, parts, [(draw.choice("sou"), draw.choice(TEXTS)) for _ in range(draw.randrange(3))]


def drawn_rule(draw):
    """A rule as its keys with their values."""
    values = {
        "type": tuple(filter(None, TYPES.values())),
        "sender": NAMES,
        "interface": INTERFACES,
        "member": MEMBERS,
        draw.choice(("path", "path_namespace")): PATHS,
        "destination": NAMES,
        "arg0": TEXTS,
        "arg1path": TEXTS,
        "arg0namespace": TEXTS,
        "eavesdrop": ("true", "false"),
    }
    keys = draw.sample(list(values), draw.choice((0, 1, 1, 2, 2, 3)))
    return {key: draw.choice(values[key]) for key in keys}


def is_within(text, value, separator):
    return text == value or text.startswith(value + separator)


def names_of(name, owners):
    """The names of the connections that have this one: each with the unique name and all that it owns."""
    uniques = {name} | {owner for it, owner in owners.items() if it == name}
    return uniques | {it for it, owner in owners.items() if owner in uniques}


def may_hold(key, value, kind, parts, values, sender, owners):
    """The table of docs/MATCH-RULES.md, and what its section on what a message may be taken for says otherwise."""
    text = lambda n, types: values[n][1] if n < len(values) and values[n][0] in types else None
    match key:
        case "type":
            return TYPES[kind] == value
        case "sender":
            return sender is None or value == sender or owners.get(value) == sender
        case "interface":
            return parts["interface"] == value or (kind == 1 and parts["interface"] is None)
        case "destination":
            whom = parts["destination"] or (BUS if kind == 1 else None)
            return whom is not None and value in names_of(whom, owners)
        case "member" | "path":
            return parts[key] == value
        case "path_namespace":
            return parts["path"] is not None and (value == "/" or is_within(parts["path"], value, "/"))
        case "arg0":
            return text(0, "s") == value
        case "arg0namespace":
            there = text(0, "s")
            return there is not None and is_within(there, value, ".")
        case "arg1path":
            there = text(1, "so")
            if there is None or there == value:
                return there == value
            short, long = sorted((value, there), key=len)
            return short.endswith("/") and long.startswith(short)
    return True


def rule_text(rule):
    return ",".join("{}='{}'".format(key, value.replace("'", "'\\''")) for key, value in rule.items())


def built(kind, parts, values):
    """The message; an object path is a text of those, and a number stands for each other value."""
    given = [ObjectPath(text) if code == "o" else len(text) if code == "u" else text for code, text in values]
    return build(kind, 7, "".join(code for code, _ in values) or None, *given, **parts)


def main(count=100_000, seed=0):
    draw, yes, differ = random.Random(int(seed)), 0, 0
    for number in range(int(count)):
        kind, parts, values = drawn_message(draw)
        values = [(code, text if code != "o" else draw.choice(PATHS)) for code, text in values]
        rule, sender = drawn_rule(draw), draw.choice((None, *UNIQUE, "org.b"))
        owners = {name: draw.choice(UNIQUE) for name in ("org.a.A", "org.a.B", "org.b") if draw.random() < 0.5}
        wanted = all(may_hold(key, value, kind, parts, values, sender, owners) for key, value in rule.items())
        yes += wanted
        with RuleSet() as rules:
            rules.add(rule_text(rule))
            for name, owner in owners.items():
                rules.set_owner(name, owner)
            if rules.may_match(built(kind, parts, values), sender) != wanted:
                differ += 1
                print(f"{number}: {not wanted} of {rule_text(rule)} for {kind} {parts} {values}, {sender}, {owners}")
    print(f"{count} messages and rules, {yes} of which may match: {differ} differ")
    return int(differ > 0)


if __name__ == "__main__":
    sys.exit(main(*sys.argv[1:]))
