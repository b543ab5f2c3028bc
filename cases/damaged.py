#!/usr/bin/env python3
"""damaged.py PROGRAM: changes each byte of each message of the samples in three ways, and asks the program dbus-wire what `--keep-going` saves. A change of
any byte but those that say where the message ends loses that message at most. The exit status is 1 if more is lost.

The bytes that say where a message ends are its order byte and the lengths of its body and its header fields: 0, 4 to 7 and 12 to 15. If one of these is
changed, what follows is read from another place on, or not at all. Then the messages before it are there, and how many are lost is counted and told.

With `--resync` a change of any byte loses that message at most, unless the length that it changes leads to a later message; and 5 bytes that are cut out
or 7 that are put in lose two at most. Both are counted and told, of some bytes of each message, or of each byte if the word `all` follows PROGRAM.

With `--limit` too it ends after the last message that is wanted, though its input stays open:
behind a damaged one once that is there after the stated size, or twice the window.
"""

import concurrent.futures as futures
import os
import pathlib
import subprocess
import sys

sys.dont_write_bytecode = True

SAMPLES = pathlib.Path(__file__).resolve().parent.parent / "samples"
PLACED = (0, 4, 5, 6, 7, 12, 13, 14, 15)
# What a byte is changed by.
CHANGES = (0x01, 0x80, 0xFF)


# How many bytes are stepped over between those that are asked of, and how many messages after one are there.
STEP = 23
BEHIND = 6
CUT, PUT = 5, b"\x6c\x01\x00\x01lB\x00"


def ran(program, data, option="--keep-going"):
    """What `filter` writes of some bytes by this option, and how many messages it refuses."""
    done = subprocess.run([program, "filter", option, ""], input=data, capture_output=True)
    return done.stdout, sum(it.startswith(b"refused at ") for it in done.stderr.splitlines())


def messages_of(data):
    """The messages of a capture without a fault."""
    found, at = [], 0
    while at < len(data):
        order = "little" if data[at] == ord("l") else "big"
        body, fields = (int.from_bytes(data[at + it : at + it + 4], order) for it in (4, 12))
        end = at + 16 + -(-fields // 8) * 8 + body
        found.append(data[at:end])
        at = end
    return found


def changed(message, at, change):
    return message[:at] + bytes([message[at] ^ change]) + message[at + 1 :]


def count_left(written, damaged, next_one):
    """Whether each pair of a damaged message and the next one gave both or the next one alone, and how many of the damaged ones are there."""
    at = left = 0
    for one in damaged:
        if written.startswith(one + next_one, at):
            left += 1
            at += len(one)
        if not written.startswith(next_one, at):
            return None
        at += len(next_one)
    return left if at == len(written) else None


def one_message(program, message):
    """Each byte of a message that does not say where it ends is changed. After each of these messages comes a whole one."""
    damaged = [changed(message, at, it) for at in range(len(message)) if at not in PLACED for it in CHANGES]
    written, refused = ran(program, b"".join(it + message for it in damaged))
    left = count_left(written, damaged, message)
    return len(damaged), left is not None and left + refused == len(damaged)


def one_end(program, messages, number):
    """Each byte of a message that says where it ends is changed: how many messages are lost each time, or None if one of those before it is."""
    before = b"".join(messages[:number])
    lost = []
    for at in PLACED:
        for change in CHANGES:
            parts = [*messages[:number], changed(messages[number], at, change), *messages[number + 1 :]]
            written = ran(program, b"".join(parts))[0]
            lost.append(len(messages) - len(messages_of(written)) if written.startswith(before) else None)
    return lost


def is_saved(program, messages, number, damaged, most):
    """Whether all messages are there but so many, from the damaged one on, if it and those behind it are read by `--resync`."""
    before, behind = messages[max(0, number - 1) : number], messages[number + 1 : number + 1 + BEHIND]
    written = ran(program, b"".join([*before, damaged, *behind]), "--resync")[0]
    return written.startswith(b"".join(before)) and written.endswith(b"".join(behind[most - 1 :]))


def one_resync(program, messages, number, step):
    """How many changes of a message lose more than it, and how many cuts and insertions more than two."""
    message = messages[number]
    places = range(number % step, len(message), step)
    changes = [not is_saved(program, messages, number, changed(message, at, it), 1) for at in places for it in CHANGES]
    moves = [not is_saved(program, messages, number, it, 2) for at in places for it in (message[:at] + message[at + CUT :], message[:at] + PUT + message[at:])]
    return len(changes), sum(changes), len(moves), sum(moves)


def is_ended(program, wanted, data, *words):
    """Whether `filter` writes what is wanted and ends, while its input stays open."""
    pipes = {"stdin": subprocess.PIPE, "stdout": subprocess.PIPE, "stderr": subprocess.DEVNULL}
    with subprocess.Popen([program, "filter", "--resync", *words, ""], **pipes) as ran:
        try:
            ran.stdin.write(data)
            ran.stdin.flush()
            ran.wait(20)
        except subprocess.TimeoutExpired:
            ran.kill()
        return ran.returncode in (0, 1) and ran.stdout.read() == wanted


def count_waiting(program):
    """How many runs wait for more than the last message wanted, or, if the stated size leads to none, twice the window."""
    message = messages_of((SAMPLES / "session.dbus").read_bytes())[0]
    damaged, missized, window = changed(message, 3, 0xFF), changed(message, 4, 0x80), 2 * len(message)
    inputs = (message + damaged, ()), (damaged + message, ()), (missized + 3 * message, (f"--resync-window={window}",))
    return sum(not is_ended(program, message, data, "--limit=1", *words) for data, words in inputs)


def one_sample(program, name, step):
    messages = messages_of((SAMPLES / name).read_bytes())
    with futures.ThreadPoolExecutor(os.cpu_count()) as pool:
        all_of = list(pool.map(lambda it: one_message(program, it), messages))
        ends = sum(pool.map(lambda it: one_end(program, messages, it), range(0, len(messages), 16)), [])
        by_resync = [sum(it) for it in zip(*pool.map(lambda it: one_resync(program, messages, it, step), range(len(messages))))]
    wrong = sum(not is_well for _, is_well in all_of) + ends.count(None)
    lost = sorted(it for it in ends if it is not None)
    print(f"{name}: {len(messages)} messages, {sum(it for it, _ in all_of)} changes that lose one at most; of {len(ends)} that say where a message ends "
          f"{sum(it <= 1 for it in lost)} do, and half lose {lost[len(lost) // 2]} or more; {wrong} wrong")
    changes, lost_by_changes, moves, lost_by_moves = by_resync
    print(f"{name}: with --resync {lost_by_changes} of {changes} changes lose more than one message, and {lost_by_moves} of {moves} cuts and insertions more than two")
    return wrong


def main():
    program = sys.argv[1]
    step = 1 if sys.argv[2:] == ["all"] else STEP
    waiting = count_waiting(program)
    print(f"with --resync and --limit {waiting} of 3 runs wait though all is there that they need")
    names = ("session.dbus", "big-endian.dbus", "calls.dbus")
    sys.exit(waiting + sum(one_sample(program, it, step) for it in names) > 0)


main()
