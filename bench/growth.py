#!/usr/bin/env python3
"""growth.py PROGRAM [RULES]: the seconds that `filter` of PROGRAM takes at N, 2N, 4N and 8N of what each row counts, and how many times
more at 8N than at N. The least of three runs, less what the same stream takes under one rule that matches nothing. With RULES, bench/rules.c
as `make bench-c` builds it, also the microseconds that it takes to find ten of N to 8N rules of each key, for one message.

many: N rules of N interfaces, none of which matches. learned, owned: N rules of N names, whose owners come from the
stream, or from --owner. alone: the same, of one connection. others: N rules by other senders than the one connection,
which owns N names, over 4,000 signals. keys, reach: 100 rules with N keys argN, or with the one key argN behind N
values, over 2,000 signals of 64 texts. flood is `check --resync` over N
messages of 56 bytes, each of which states all that follows and fails at its end, with a whole one behind each.
"""

import subprocess
import sys
import tempfile
from pathlib import Path

from shapes import FIELDS, signal
from speed import HERE, seconds

BUS = "org.freedesktop.DBus"
CHANGED = [(1, ("o", "/org/freedesktop/DBus")), (2, ("s", BUS)), (3, ("s", "NameOwnerChanged")), (7, ("s", BUS))]
RUNS = 3
NOTHING = ("filter", "member='Nothing'")
NAME = "org.example.Name"
SETS = (12_500, 25_000, 50_000, 100_000)
MESSAGE = signal(1, "sss", ("org.example.Name.A", "text", "/org/example/a/b"), [*FIELDS[:-1], (6, ("s", ":1.9")), FIELDS[-1]])


def filtered(rules, *options):
    return ("filter", *options, *rules)


def senders(count):
    return [f"sender='{NAME}{n}',member='Nothing'" for n in range(count)]


def owners(count, owner_of):
    return [word for n in range(count) for word in ("--owner", f"{NAME}{n}={owner_of(n)}")]


def sent(count, sender=":1.7", types="s"):
    fields = [field if field[0] != 7 else (7, ("s", sender)) for field in FIELDS]
    return b"".join(signal(serial + 1, types, "a" * len(types), fields) for serial in range(count))


def learned(count):
    """The bus's signals that each name has an owner now."""
    changes = b"".join(signal(n + 1, "sss", (f"{NAME}{n}", "", f":1.{n}"), CHANGED) for n in range(count))
    return filtered(senders(count), "--learn-owners"), changes + sent(4_000, f":1.{count - 1}")


def others(count):
    return filtered([f"sender='org.example.Other{n}'" for n in range(count)], *owners(count, lambda _: ":1.7")), sent(4_000)


def keys(count):
    held = ",".join(f"arg{n}='a'" for n in range(count - 1))
    return filtered([f"{held},arg{count - 1}='b'"] * 100), sent(2_000, types="s" * 64)


STATED, WHOLE = 56, bytes.fromhex("6c02000100000000070000000800000005017500") + b"\t\0\0\0"
STATED_FIELDS = bytes.fromhex("050175000100000008016700") + b"\x0ba(yyyyyyyy)\0"


def stating(size):
    """The first bytes of a message that states this size: an array of structs that ends before its body does."""
    body = size - STATED + 8
    head = b"l\2\0\1" + b"".join(it.to_bytes(4, "little") for it in (body, 1, len(STATED_FIELDS)))
    return (head + STATED_FIELDS).ljust(STATED - 8, b"\0") + ((body - 9) // 8 * 8).to_bytes(4, "little") + bytes(4)


def flood(count):
    size = (STATED + len(WHOLE)) * count
    places = range(0, size - 2 * STATED, STATED + len(WHOLE))
    return ("check", "--resync"), b"".join(stating(size - at - 1) + WHOLE for at in places)


OWNERS = (100, 200, 400, 800)
KEYS = (8, 16, 32, 64)
# Of each row what it counts, and the words and the stream of a count.
ROWS = {
    "many": (OWNERS, lambda n: (filtered(f"interface='{NAME}{k}'" for k in range(n)), sent(4_000))),
    "learned": (OWNERS, learned),
    "owned": (OWNERS, lambda n: (filtered(senders(n), *owners(n, ":1.{}".format)), sent(4_000, f":1.{n - 1}"))),
    "alone": (OWNERS, lambda n: (filtered(senders(n), *owners(n, lambda _: ":1.7")), sent(1_000))),
    "others": (OWNERS, others),
    "keys": (KEYS, keys),
    "reach": (KEYS, lambda n: (filtered([f"arg{n - 1}='b'"] * 100), sent(2_000, types="s" * 64))),
    "flood": ((1_000, 2_000, 4_000, 8_000), flood),
}


def measured(program, words, stream, path):
    path.write_bytes(stream)
    took, nothing = (min(seconds((program, *it), path) for _ in range(RUNS)) for it in (words, NOTHING))
    return took - nothing


def print_sets(rules_program):
    rows = (line.split(" | ") for line in (HERE / "rule_sets.txt").read_text().splitlines() if line[0] != "#")
    for key, *texts in rows:
        words = ((rules_program, str(count), NAME, *texts) for count in SETS)
        said = [subprocess.run(it, input=MESSAGE, stdout=subprocess.PIPE, check=True).stdout.split() for it in words]
        # The nanoseconds that it takes to add a rule, and to find those that match.
        cells = "".join(f"{count:>8} {float(found) / 1000:7.2f}" for count, (_, found) in zip(SETS, said))
        print(f"{key:15}{cells}   added {float(said[-1][0]) / 1000:.2f}", flush=True)


def main():
    program = sys.argv[1]
    for rules_program in sys.argv[2:]:
        print_sets(rules_program)
    with tempfile.TemporaryDirectory() as folder:
        path = Path(folder) / "stream"
        for row, (counts, made) in ROWS.items():
            times = [measured(program, *made(count), path) for count in counts]
            cells = "".join(f"{count:>6} {time:7.3f}" for count, time in zip(counts, times))
            print(f"{row:9}{cells}   {times[-1] / max(times[0], 0.001):6.1f} times", flush=True)


if __name__ == "__main__":
    main()
