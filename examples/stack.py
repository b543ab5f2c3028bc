#!/usr/bin/env python3
"""stack.py LIBRARY MOST LINES_MOST [aarch64-linux-gnu]: prints the bytes of stack that each call of the shared library, for this system or that one, needs,
and fails if one needs more than MOST, or that of a line of JSON more than LINES_MOST.

They are read from the machine code: what a function pushes and takes off the stack pointer, its return address, and the most that a
function needs that it calls or jumps to. Functions that call one another come back to one of them with one container more that is open, of
which the specification allows 64, and a line of JSON 130: the dearest such round is counted once a container, and then the dearest way
through them. No call goes by a pointer, which is seen here too. What memcpy and the like of the C library need comes on top.
"""

import collections
import functools
import re
import subprocess
import sys

# Of a machine the bytes that a call pushes, and how its code is spelled: the stack pointer; what is pushed, by its bytes if they vary; what is taken off,
# in pages or not; an alignment to 64 bytes; a call or a jump; and what is not known here.
Machine = collections.namedtuple("Machine", "address stack push take align goto other")
MACHINES = {
    "": Machine(
        8,
        "rsp",
        re.compile(r"\tpush\s"),
        re.compile(r"\tsub\s+\$0x(?P<count>[0-9a-f]+),%(?P<to>rsp|r11)(?P<pages>)$"),
        re.compile(r"\tand\s+\$0xffffffffffffffc0,%rsp$"),
        re.compile(r"\t(call|j\w+)\s+[0-9a-f]+ <(.+?)(?:\+0x[0-9a-f]+)?>$"),
        re.compile(r"\t(?:call\s+\*|and\s.*,%rsp|lea\s.*\((?!%rbp).*,%rsp$)"),
    ),
    "aarch64-linux-gnu": Machine(
        0,
        "sp",
        re.compile(r"\[sp, #-(\d+)\]!"),
        re.compile(r"\tsub\t(?P<to>sp|x\d+), sp, #0x(?P<count>[0-9a-f]+)(?P<pages>, lsl #12)?$"),
        re.compile(r"\tand\tsp, x\d+, #0xffffffffffffffc0$"),
        re.compile(r"\t(bl|b|b\.\w+|cbn?z|tbn?z)\t(?:.*, )?[0-9a-f]+ <(.+?)(?:\+0x[0-9a-f]+)?>$"),
        re.compile(r"\t(?:blr\t|and\tsp,|sub\tsp, \w+, [wx])"),
    ),
}
HEAD = re.compile(r"^[0-9a-f]+ <(.+)>:$")
CALLS = ("call", "bl")
LEVELS, LINE_LEVELS = 64, 130
OF_LINES = "dbus_wire_from_json"
# What the C compiler adds to a library, which no call reaches.
ADDED = ("_init", "_fini", "_start")


def read_functions(library, target):
    """Of each function of the library the bytes that it takes itself, and those that it calls or jumps to."""
    machine, tool = MACHINES[target], f"{target}-objdump" if target else "objdump"
    text = subprocess.run([tool, "-d", "--no-show-raw-insn", library], capture_output=True, text=True, check=True).stdout
    frames, calls, name, is_probed = {}, {}, "", False
    for line in map(str.rstrip, text.splitlines()):
        if head := HEAD.match(line):
            name = head[1]
            if name not in ADDED and "@plt" not in name:
                frames[name], calls[name] = machine.address, set()
        elif name not in frames:
            continue
        elif machine.align.search(line):
            frames[name] += 64
        elif push := machine.push.search(line):
            frames[name] += int(push[1]) if push.groups() else machine.address
        elif take := machine.take.search(line):
            # A large frame is taken page by page down to another register: the steps are no frames of their own.
            frames[name] += 0 if is_probed else int(take["count"], 16) << (12 if take["pages"] else 0)
            is_probed = take["to"] != machine.stack
        elif machine.other.search(line):
            sys.exit(f"{name}: {line.strip()} is not known here")
        elif (goto := machine.goto.search(line)) and (goto[2] != name or goto[1] in CALLS):
            calls[name].add(goto[2])
    return frames, {name: {it for it in called if it in frames} for name, called in calls.items()}


def dearest(group, frames, calls):
    """Of functions that call one another the bytes of the dearest round, and of the dearest way that comes to none twice."""
    rounds, ways = [0], [0]
    for start in group:
        left = [(start, frames[start], {start})]
        while left:
            at, count, passed = left.pop()
            ways.append(count)
            rounds += [count] * (start in calls[at])
            left += [(it, count + frames[it], passed | {it}) for it in calls[at] & group - passed]
    return max(rounds), max(ways)


def main(library, most, lines_most, target=""):
    frames, calls = read_functions(library, target)

    @functools.cache
    def reached(name):
        found, left = set(), [name]
        while left:
            for it in calls[left.pop()] - found:
                found.add(it)
                left.append(it)
        return found

    @functools.cache
    def need(name):
        group = {it for it in reached(name) if name in reached(it)}
        levels = LINE_LEVELS if any("json" in it for it in group) else LEVELS
        rounds, way = dearest(group, frames, calls)
        own = rounds * levels + way if group else frames[name]
        return own + max((need(it) for member in group | {name} for it in calls[member] - group), default=0)

    needs = {name: need(name) for name in sorted(frames) if name.startswith("dbus_wire_")}
    for name, count in needs.items():
        print(f"{name} needs at most {count:,} bytes of stack")
    return 0 if needs and all(count <= int(lines_most if name == OF_LINES else most) for name, count in needs.items()) else 1


if __name__ == "__main__":
    sys.exit(main(*sys.argv[1:]))
