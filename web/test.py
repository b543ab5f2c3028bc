#!/usr/bin/env python3
"""test.py PROGRAM MODULE PAGE: compares what the page gives with what dbus-wire writes, over the samples and the
bytes of cases: by the module in Node, and by the page in a headless Chromium, if there is one. BROWSER names
another. The exit status is 1 if something differs.

What is compared of each input: the lines of `json --resync`, or `--keep-going` if it is a capture, with
`--handshake` if it begins as one side of a connection; those of `list` with it, of 100 cells and of as many as
they take; the number, offset, place and reason of each fault, and its explanation; and the place of the fault of
a file. Of the page also: the cells of the first row and the last; which messages it shows by a rule and a word,
what it saves of them, and what the command that it gives writes; and which calls its choices show, and its
tables of members and of counts, by what `calls` and `count` write. It reads each second input by gzip. Of
rules: which messages of the samples `filter` writes; and what the cases say of rules and of messages that
match. Of calls and names: the lines of `list` of random sessions, which tell both. Of both sides of random
connections: the lines of each, and by `calls` of all of it which messages are a call and its reply.
"""

import concurrent.futures as futures
import functools
import gzip
import itertools
import json
import os
import pathlib
import random
import re
import shutil
import struct
import subprocess
import sys
import tempfile

HERE = pathlib.Path(__file__).resolve().parent
ROOT = HERE.parent
sys.dont_write_bytecode = True
sys.path.insert(0, str(ROOT / "cases"))

from browser import Browser  # noqa: E402
from read_cases import DATA, read_bytes, read_cases, read_parts  # noqa: E402

REFUSED = re.compile(r"refused at (\d+): (\S+) in message (\d+) at (\d+)(?: in packet \d+)?\n((?:  .*\n){3,4})?")
CUT = re.compile(rb"^capture: \d+ cut packets? passed over$", re.M)
FAULT = re.compile(r"^capture refused at (\d+): ", re.M)
# The last line of `count`, if messages have times.
TIMES = re.compile(r"^\d+ messages in .*\n", re.M)
# The files with bytes of messages, and the columns that have them.
COLUMNS = {"messages": (2, 3), "faults": (2, 3), "streams": (2,), "printed": (2,)}
# What is asked of each message of the samples.
RULES = ("", "type='error'", "type='signal',sender='org.freedesktop.DBus'", "interface='org.freedesktop.DBus',member='Hello'", "path_namespace='/org'",
         "destination=':1.4'", "arg0namespace='org.example'", "arg0path='/org/'", "sender=':1.1',eavesdrop='true'", "type='signal',arg0=''")
# Of the messages of random sessions.
TYPES = ("method_call", "method_call", "method_return", "method_return", "error", "signal")
# What the page's choices are to `calls`.
CHOICES = ("--slower 0", "--unanswered", "--errors")
DAMAGED = 30
# How many sessions are random, of how many messages, out of how many; and how many Node is asked for at once.
SESSIONS, SESSION, DRAWN, AT_ONCE = 10000, 40, 4000, 500
# How many connections are given as their two sides, how many of them to a page, and how these begin.
CONNECTIONS, CHOSEN = 500, 20
HANDSHAKES = (b"\0AUTH ANONYMOUS\r\nBEGIN\r\n", b"OK 0123456789abcdef0123456789abcdef\r\n")
MOST_REPORTED = 5
# What is compared of an input, made of its rows: its messages as JSON and as lines; and of what is refused number,
# offset, place, reason and explanation; and which messages are a call and its reply.
ANSWERS = """(rows) => {
  const answers = { lines: "", listed: "", cut: "", refused: [], fault: rows.readers[0].fileFault, pairs: [] };
  for (const row of Array(rows.count).keys()) {
    const { number, offset, reader, isWhole, isCall, pair } = rows.at(row);
    if (isWhole) {
      const said = rows.said(row);
      answers.lines += rows.json(row);
      answers.listed += rows.line(row, said, 0);
      answers.cut += rows.line(row, said, 100);
      answers.pairs.push(...(isCall && pair >= 0 ? [[row, pair]] : []));
    } else {
      const at = offset + reader.next(offset).at;
      answers.refused.push([number, offset, at, reader.reason(offset), reader.explain(number, offset)]);
    }
  }
  return { ...answers, ordered: [...rows.ordered()] };
}"""
# What a page is asked of an input, with a rule and a word: what is shown of the first row and the last, after a mark went
# through some values; the numbers of the messages that it shows by both, what is saved of them, and their command; those of
# the calls that each choice shows, by the words of `calls`; and the tables of members and of counts.
SEEN = """(async () => {
  const press = (key) => find("list").dispatchEvent(new KeyboardEvent("keydown", { key, bubbles: true }));
  const seen = ["n", "End"].map((key) => {
    press(key);
    ["b", "b", "b", "B", "b"].forEach(press);
    const row = find(`row-${state.active}`), texts = ["pre", ".line"].map((it) => find("details").querySelector(it)?.textContent);
    return row ? [[...row.children].map((cell) => cell.textContent), ...texts] : null;
  });
  [find("rule").value, find("words").value] = ["type='method_call'", "DBus"];
  await filter();
  const calls = state.shown.map((it) => state.rows.at(it)).filter((it) => it.isWhole).map((it) => it.number);
  const saved = [...new Uint8Array(await pcap().arrayBuffer())];
  const asked = { ...(ANSWERS)(state.rows), seen, calls, saved, command: command(), chosen: {} };
  find("rule").value = find("words").value = "";
  for (const choice of [...Object.keys(CALLS), ""]) {
    find("only").value = choice;
    await filter();
    Object.assign(asked.chosen, choice && { [CALLS[choice]]: state.shown.map((it) => it + 1) });
  }
  for (const table of [members, counts]) {
    await table();
    asked.chosen[table.name] = find("details").querySelector("pre").textContent;
  }
  return JSON.stringify(asked);
})()""".replace("ANSWERS", ANSWERS)


def inputs():
    """Each input's name and bytes."""
    for path in sorted((ROOT / "samples").iterdir()):
        if path.suffix in (".dbus", ".pcap", ".pcapng", ".sent"):
            yield path.name, path.read_bytes()
    for file, columns in COLUMNS.items():
        for case in read_cases(DATA / f"{file}.txt"):
            for column in columns:
                yield f"{file}.txt {case[0]} {column}", read_bytes(case[column])
    for case in read_cases(DATA / "captures.txt"):
        yield f"captures.txt {case[0]}", read_parts(case[1], DATA)
    # Calls behind a message that is refused, at its header fields.
    calls = (ROOT / "samples" / "calls.dbus").read_bytes()
    yield "calls.dbus, the first refused", calls[:20] + b"\xff\xff" + calls[22:]
    # Damage: bytes that are gone, come or change.
    draws = random.Random(97)
    for name in ("session.dbus", "calls.dbus", "big-endian.dbus"):
        data = (ROOT / "samples" / name).read_bytes()
        for number in range(DAMAGED):
            at, count = draws.randrange(len(data)), draws.choice((1, 5, 200))
            new = draws.choice((b"", b"\0", draws.randbytes(count), data[at:at + count] * 2))
            yield f"{name}, damaged {number} at {at}", data[:at] + new + data[at + count:]
            yield f"{name}, damaged {number} at {at}, in packets", pcap(data[:at] + new + data[at + count:], draws)
        yield f"{name}, of type 0", data[:1] + b"\0" + data[2:]
    for name in ("calls.pcap", "calls.pcapng"):
        data = (ROOT / "samples" / name).read_bytes()
        for number in range(DAMAGED):
            at = draws.randrange(len(data))
            yield f"{name}, damaged {number} at {at}", data[:at] + draws.randbytes(1) + data[at + 1:]
    # What each side sends, with messages behind it, and cut off within its last line.
    message = (ROOT / "samples" / "big-endian.dbus").read_bytes()
    for case in read_cases(DATA / "handshakes.txt"):
        for side, column in (("client", 3), ("server", 4)):
            sent = read_bytes(case[column])
            yield f"handshakes.txt {case[0]} {side}", sent + message
            yield f"handshakes.txt {case[0]} {side} cut", sent[:-3]


def pcap(data, draws):
    """A pcap file that has the bytes in packets, which begin where messages do or do not. Some are read in parts."""
    lengths = [draws.choice((1, 16, 169, 400)) for _ in range(len(data) // 100)]
    ends = [0, *itertools.accumulate(lengths)] if draws.randrange(5) else [0]
    ends += [at for at in range(len(data)) if data[at:at + 4] in (b"l\1\0\1", b"l\4\1\1", b"l\2\1\1")]
    ends = sorted({it for it in ends if it < len(data)}) + [len(data)]
    packets = [data[start:end] for start, end in itertools.pairwise(ends)]
    # A long one: the messages once more, and many times.
    packets.append(data * draws.choice((0, 1, 1 + 140000 // len(data))))
    heads = (struct.pack("<4I", 1, at, len(it), len(it)) for at, it in enumerate(packets))
    return bytes.fromhex("4d3cb2a1020004000000000000000000ffffff07e7000000") + b"".join(itertools.chain(*zip(heads, packets)))


def is_capture(data):
    return data[:4].hex() in ("d4c3b2a1", "a1b2c3d4", "4d3cb2a1", "a1b23c4d", "0a0d0d0a")


def side_of(data):
    """The words by which the program reads the input, as its first byte says."""
    side = "client" if data[:1] == b"\0" else "server" if data[:1] and data[0] in b"ADEOR" else None
    return ["--handshake", side] if side else []


def written(program, data):
    """What the program writes of an input, as the module's answers; None if it begins with a handshake that is refused."""
    going, side = ["--keep-going" if is_capture(data) else "--resync"], side_of(data)
    ran = subprocess.run([program, "json", "--explain", *going, *side], input=data, capture_output=True)
    if CUT.search(ran.stderr):
        # The page shows a file up to a packet that was cut, as the program does that does not go on.
        going = []
        ran = subprocess.run([program, "json", "--explain", *side], input=data, capture_output=True)
    said = ran.stderr.decode()
    if said.startswith("handshake refused"):
        return None
    lists = ([program, "list", "--width", it, *going, *side] for it in ("0", "100"))
    listed, cut = (subprocess.run(it, input=data, capture_output=True).stdout.decode() for it in lists)
    refused = [[int(number), int(offset), int(place), reason, why] for place, reason, number, offset, why in REFUSED.findall(said)]
    fault = FAULT.search(said)
    answers = {"lines": ran.stdout.decode(), "listed": listed, "cut": cut, "refused": refused, "fault": int(fault[1]) if fault else None}
    return {**answers, "chosen": calls_of(program, data, [*going, *side])}


def calls_of(program, data, how):
    """The numbers of the calls that `calls` lists, the slowest first, its table, and those of `count`."""
    run = lambda *words: subprocess.run([program, *words, *how], input=data, capture_output=True).stdout.decode()
    rows = {it: [json.loads(row) for row in run("calls", *it.split(), "--json").splitlines()] for it in CHOICES}
    for it in CHOICES:
        rows[it].sort(key=lambda row: (-row["milliseconds"] if it == CHOICES[0] else 0, row["number"]))
    numbers = {it: [row["number"] for row in rows[it]] for it in CHOICES}
    return {**numbers, "members": run("calls", "--members"), "counts": TIMES.sub("", run("count"))}


def compared(answers):
    """What of the answers is compared."""
    return answers and {it: answers[it] for it in ("lines", "listed", "cut", "fault", "refused")}


def leaves_of(said):
    """The values of JSON that have no parts, in their order."""
    parts = said.values() if isinstance(said, dict) else said if isinstance(said, list) else None
    return [said] if parts is None else [*itertools.chain(*map(leaves_of, parts))]


def is_said(value, part, order):
    """Whether these bytes say the value of a message of this order."""
    if isinstance(value, float):
        return value == struct.unpack("<d" if order == "little" else ">d", part)[0]
    if isinstance(value, int):
        return value in (int.from_bytes(part, order), int.from_bytes(part, order, signed=True))
    # A NaN is its bits.
    return value in (part.decode(errors="replace"), part.hex(), f"{int.from_bytes(part, order):016x}")


def untied(all_inputs, given):
    """How many messages have values that the script ties to other bytes, of inputs of raw messages."""
    count, wrong = 0, []
    for (name, data), answers in zip(all_inputs, given):
        if answers is None or is_capture(data) or side_of(data):
            continue
        for line, tied in zip(answers["lines"].splitlines(), answers["tied"], strict=True):
            said = json.loads(line)
            message, order = data[said["offset"]:said["offset"] + said["length"]], "little" if said["order"] == "l" else "big"
            # The first ones are of where it stands, and of the bytes before its fields.
            values = [*zip(leaves_of(said), tied, strict=True)][7:]
            count += 1
            if not all(it is None or is_said(value, message[it[0]:it[1]], order) for value, it in values):
                wrong.append((name, values))
    for name, values in wrong[:MOST_REPORTED]:
        print(f"{name}: the script ties {values}")
    print(f"values and bytes: {count - len(wrong)} messages as the bytes say, {len(wrong)} not")
    return len(wrong)


def differs(kind, all_inputs, wanted, given):
    """How many inputs have other answers; the first are told."""
    wrong = [at for at in range(len(all_inputs)) if compared(wanted[at]) != compared(given[at])]
    for at in wrong[:MOST_REPORTED]:
        print(f"{all_inputs[at][0]}: {kind} gives {compared(given[at])}, dbus-wire writes {compared(wanted[at])}")
    print(f"{kind}: {len(all_inputs) - len(wrong)} inputs as dbus-wire has them, {len(wrong)} not")
    return len(wrong)


def unseen(program, folder, all_inputs, all_wanted, given):
    """How many inputs have a first or a last row that shows other than their answers, or show, save or name by a command
    other messages by a match rule."""
    wrong = 0
    (folder / "dbus-wire").symlink_to(pathlib.Path(program).resolve())
    for (name, _), wanted, answers in zip(all_inputs, all_wanted, given):
        if answers is None:
            continue
        if answers["chosen"] != wanted["chosen"]:
            wrong += 1
            print(f"{name}: the page chooses {answers['chosen']}, dbus-wire {wanted['chosen']}")
        lines = [json.loads(it) for it in answers["lines"].splitlines()]
        calls = [it for it in lines if it["type"] == "method_call" and "dbus" in json.dumps(it).lower()]
        if answers["calls"] != [it["number"] for it in calls] or not is_taken(folder, answers, calls):
            wrong += 1
            print(f"{name}: the page shows {answers['calls']} as calls with a word, and gives {answers['command']}")
        listed, cut = (answers[it].split("\n")[:-1] for it in ("listed", "cut"))
        listed = {it["number"]: both for it, *both in zip(lines, listed, cut, strict=True)}
        refused = {it[0]: it for it in answers["refused"]}
        numbers = sorted([*listed, *refused])
        for number, seen in zip((numbers[:1] + numbers[-1:]), answers["seen"]):
            row, said, line = seen
            if number in listed:
                is_right = json.loads(said) == next(it for it in lines if it["number"] == number)
                # Of names that are long the cut line has no more.
                is_right &= line == listed[number][0] and in_cells(row) in [it.replace(" ", "") for it in listed[number]]
            else:
                _, offset, place, reason, why = refused[number]
                told = f"refused at {place}: {reason} in message {number} at {offset}"
                is_right = said == why and line == row[5] == told
            if not is_right or row[0] != str(number):
                wrong += 1
                print(f"{name}: the page shows {seen} of message {number}")
    return wrong


def in_cells(row):
    """The line of `list` that the cells of a row are the parts of, without its spaces."""
    number, time, sender, destination, arrow, info, size = row
    return f"{number}{time}{size}{sender}>{destination}{arrow}{info}".replace(" ", "")


def is_taken(folder, answers, calls):
    """Whether what the page saves has these messages, and its command writes them."""
    how = {"cwd": folder, "env": {**os.environ, "PATH": f"{folder}:{os.environ['PATH']}"}, "stdout": subprocess.PIPE}
    saved = subprocess.run(["dbus-wire", "json"], input=bytes(answers["saved"]), **how).stdout
    written = subprocess.run(["sh", "-c", answers["command"]], stderr=subprocess.DEVNULL, **how).stdout
    saved, written = ([without_place(json.loads(it)) for it in lines.splitlines()] for lines in (saved, written))
    wanted = [without_place(it) for it in calls]
    return written == wanted and saved == [{"time": "0.000000000", **it} for it in wanted]


def without_place(said):
    return {key: value for key, value in said.items() if key not in ("number", "offset")}


def matching(program, data, rule):
    """The numbers of the messages that the program filters out of raw messages."""
    rest = subprocess.run([program, "filter", rule], input=data, capture_output=True, check=True).stdout
    lines = subprocess.run([program, "json"], input=data, capture_output=True, check=True).stdout.splitlines()
    found, end = [], len(data)
    # Each message that is written is the last one of the input that ends so and was not found yet.
    for it in map(json.loads, reversed(lines)):
        bytes_of = data[it["offset"]:end]
        end = it["offset"]
        if rest.endswith(bytes_of):
            rest = rest[:-len(bytes_of)]
            found.insert(0, it["number"])
    assert not rest
    return found


def asked_rules(program):
    """Each input and rule that is asked of it, and the numbers of the messages that match, or why the rule is none."""
    for path in sorted((ROOT / "samples").glob("*.dbus")):
        data = path.read_bytes()
        for rule in RULES:
            yield data, rule.encode(), matching(program, data, rule)
    for name, rule, owners, little, big, answer in read_cases(DATA / "matches.txt"):
        for column in (little, big):
            if not owners:
                yield read_bytes(column), read_bytes(rule), [1] if answer == "yes" else []
    for name, text, said in read_cases(DATA / "rules.txt"):
        yield b"", read_bytes(text), [] if said.startswith("accepted") else said


def rules_differ(program, answers):
    """How many rules are answered otherwise than the program or the cases do."""
    asked = [it for it in asked_rules(program) if is_utf8(it[1])]
    given = answers("".join(f"{data.hex()} {rule.hex()}\n" for data, rule, _ in asked))
    wrong = [(rule, wanted, it["matching"]) for (_, rule, wanted), it in zip(asked, given, strict=True) if it["matching"] != wanted]
    for rule, wanted, found in wrong[:MOST_REPORTED]:
        print(f"{rule.decode()}: the script finds {found}, dbus-wire {wanted}")
    print(f"the script of rules: {len(asked) - len(wrong)} answers as dbus-wire has them, {len(wrong)} not")
    return len(wrong)


def session_messages(program):
    """Messages of three connections with each other and the bus, of few serials and names."""
    draws = random.Random(98)
    bus, names = "org.freedesktop.DBus", ("org.example.A", "org.example.B")
    unique = (":1.1", ":1.2", ":1.3")

    def one():
        kind, sender = draws.choice(TYPES), draws.choice((*unique, *unique, bus, bus, "org.example.A", None))
        said = {"type": kind, "flags": draws.choice((0, 0, 0, 1)), "serial": draws.randint(1, 3), "sender": sender,
                "path": "/a", "interface": draws.choice((bus, bus, "org.example.I")),
                "destination": draws.choice((*unique, *unique, *names, bus, bus, None)),
                "member": draws.choice(("RequestName", "GetNameOwner", "Get"))}
        values = draws.choice(([draws.choice(names)], [draws.choice(unique)], [draws.randint(1, 4)], []))
        if kind == "signal":
            said["member"] = draws.choice(("NameOwnerChanged", "NameOwnerChanged", "NameAcquired", "NameLost", "Got"))
            if said["member"] == "NameOwnerChanged":
                values = [draws.choice((*names, *unique)), draws.choice((*unique, "")), draws.choice((*unique, ""))]
        if kind in ("method_return", "error"):
            said = {it: said[it] for it in ("type", "flags", "serial", "sender", "destination")}
            said["reply_serial"] = draws.randint(1, 3)
        if kind == "error":
            said["error_name"] = "org.example.Error"
        if said.get("member") == "RequestName":
            values = [draws.choice(names), 0]
        types = "".join("u" if isinstance(it, int) else "s" for it in values)
        return {"order": draws.choice("lB"), **said, "signature": types, "body": values}

    return cut_up(program, [one() for _ in range(DRAWN)])


def sessions_differ(program, pool, answers):
    """How many random sessions are listed otherwise than the program does."""
    draws, messages = random.Random(99), session_messages(program)
    sessions = [b"".join(draws.choices(messages, k=SESSION)) for _ in range(SESSIONS)]
    listed = lambda it: subprocess.run([program, "list", "--width", "0"], input=it, stdout=subprocess.PIPE).stdout.decode()
    given_of = lambda at: [it["listed"] for it in answers("".join(f"{it.hex()}\n" for it in sessions[at:at + AT_ONCE]))]
    wanted = list(pool.map(listed, sessions))
    given = [*itertools.chain(*pool.map(given_of, range(0, SESSIONS, AT_ONCE)))]
    wrong = [both for both in zip(wanted, given, strict=True) if both[0] != both[1]]
    for want, found in wrong[:MOST_REPORTED]:
        print(f"of a session the script lists\n{found}and dbus-wire\n{want}")
    replies, names = (sum(len(re.findall(it, one, re.M)) for one in wanted) for it in (r" to #\d", r" :1\.\d\("))
    told = f"with {replies} replies and {names} names, {len(wrong)} not"
    print(f"calls and names: {SESSIONS - len(wrong)} sessions as dbus-wire lists them, {told}")
    return len(wrong)


def connection(draws):
    """Messages of a client, its bus and two peers, as the bus sees them, each with whether the client sent it."""
    bus, peers, serials, waiting = "org.freedesktop.DBus", (":1.2", ":1.3"), {}, {True: [], False: []}
    for _ in range(SESSION):
        is_sent = draws.random() < 0.5
        who = ":1.1" if is_sent else draws.choice((*peers, bus))
        serials[who] = serials.get(who, 0) + 1
        said = {"order": draws.choice("lB"), "type": draws.choice(TYPES), "flags": draws.choice((0, 0, 0, 1)),
                "serial": serials[who], "sender": who, "signature": "", "body": [],
                "destination": draws.choice((*peers, bus, "org.example.A")) if is_sent else ":1.1"}
        if said["type"] in ("method_return", "error"):
            if not waiting[not is_sent]:
                continue
            call = waiting[not is_sent].pop(draws.randrange(len(waiting[not is_sent])))
            # A reply comes from whom the call is to, in each case.
            other = call["destination"] if call["destination"][0] == ":" else bus
            said |= {"reply_serial": call["serial"], "destination": call["sender"]}
            said |= {"sender": ":1.1" if is_sent else other}
            said |= {"error_name": "org.example.Error"} if said["type"] == "error" else {}
        else:
            said |= {"path": "/a", "interface": "org.example.I", "member": "Get"}
            if said["type"] == "method_call" and said["flags"] == 0:
                waiting[is_sent].append(said)
        yield said, is_sent


def without_none(said):
    return {key: it for key, it in said.items() if it is not None}


def cut_up(program, messages):
    """The bytes of each message."""
    lines = "".join(f"{json.dumps(without_none(it))}\n" for it in messages).encode()
    data = subprocess.run([program, "encode"], input=lines, stdout=subprocess.PIPE, check=True).stdout
    lines = subprocess.run([program, "json"], input=data, stdout=subprocess.PIPE, check=True).stdout.splitlines()
    places = [json.loads(it)["offset"] for it in lines]
    return [data[start:end] for start, end in itertools.pairwise([*places, len(data)])]


def side_answers(program, parts):
    """Of a connection, as bytes that the bus sees and that were sent, and whether the client sent them: the two sides,
    their lines, and which rows are a call and its reply by what `calls` says of all of it."""
    run = lambda word, data: subprocess.run([program, *word], input=data, stdout=subprocess.PIPE).stdout.decode()
    sides = [b"".join(sent for _, sent, is_sent in parts if is_sent == of) for of in (True, False)]
    sent = [is_sent for *_, is_sent in parts]
    rows = [sum(sent[:at]) if of else sum(sent) + at - sum(sent[:at]) for at, of in enumerate(sent)]
    calls = map(json.loads, run(["calls", "--json"], b"".join(seen for seen, *_ in parts)).splitlines())
    pairs = sorted([rows[it["number"] - 1], rows[it["reply"] - 1]] for it in calls if "reply" in it)
    return sides, {"lines": "".join(run(["json"], it) for it in sides), "pairs": pairs}


def is_in_order(answers, first):
    """Whether the rows of a list of two sides are all there, each side's in order, and each reply behind its call."""
    place = {row: at for at, row in enumerate(answers["ordered"])}
    sides = [row for row in answers["ordered"] if row < first] + [row for row in answers["ordered"] if row >= first]
    return sides == [*range(len(place))] and all(place[call] < place[reply] for call, reply in answers["pairs"])


def connections(program, pool):
    """Random connections: both files, what the program says of them, and how many messages the first one has."""
    draws = random.Random(100)
    drawn = [[*connection(draws)] for _ in range(CONNECTIONS)]
    messages = [said for it in drawn for said, _ in it]
    seen = iter(cut_up(program, messages))
    sent = iter(cut_up(program, [it if it["sender"] != ":1.1" else {**it, "sender": None} for it in messages]))
    all_parts = [[(next(seen), next(sent), is_sent) for _, is_sent in it] for it in drawn]
    for parts, (sides, wanted) in zip(all_parts, pool.map(functools.partial(side_answers, program), all_parts)):
        files = [start + it for start, it in zip(HANDSHAKES, sides)]
        yield files, wanted, sum(is_sent for *_, is_sent in parts)


def sides_differ(how, all_sides, given):
    """How many connections, given as what either side sent, are read otherwise than the program reads them."""
    wrong = 0
    for (_, wanted, first), found in zip(all_sides, given, strict=True):
        compared = {it: sorted(found[it]) if it == "pairs" else found[it] for it in wanted}
        wrong += compared != wanted or not is_in_order(found, first)
    pairs = sum(len(wanted["pairs"]) for _, wanted, _ in all_sides)
    told = f"{len(given) - wrong} connections as dbus-wire reads them, with {pairs} replies, {wrong} not"
    print(f"{how}: both sides of {told}")
    return wrong


def sides_shown(chromium, folder, both):
    """What the page gives of both files of a connection, chosen together, the server's first."""
    folder.mkdir()
    files = [folder / "received", folder / "sent"]
    for file, data in zip(files, reversed(both)):
        file.write_bytes(data)
    assert chromium.choose(*files)
    return json.loads(chromium.value(f"JSON.stringify(({ANSWERS})(state.rows))"))


def is_utf8(data):
    try:
        data.decode()
    except UnicodeDecodeError:
        return False
    return True


def run_node(words, text):
    ran = subprocess.run(["node", *words], input=text.encode(), stdout=subprocess.PIPE, check=True)
    return [json.loads(it) for it in ran.stdout.decode().splitlines()]


def node_words():
    """Node's words for memory of 64 bits, where that is an experiment."""
    flag = "--experimental-wasm-memory64"
    return [flag] if subprocess.run(["node", flag, "-e", ""], capture_output=True).returncode == 0 else []


def main(program, module, page):
    all_inputs = list(inputs())
    with futures.ThreadPoolExecutor(len(os.sched_getaffinity(0))) as pool:
        wanted = list(pool.map(lambda it: written(program, it[1]), all_inputs))
        answers = functools.partial(run_node, [*node_words(), HERE / "answers.js", module, ANSWERS])
        given = answers("".join(f"{data.hex()}\n" for _, data in all_inputs))
        wrong = differs("the module in Node", all_inputs, wanted, given) + rules_differ(program, answers)
        wrong += untied(all_inputs, given) + sessions_differ(program, pool, answers)
        all_sides = [*connections(program, pool)]
        given = answers("".join(f"{','.join(it.hex() for it in both)}\n" for both, *_ in all_sides))
        wrong += sides_differ("the module in Node", all_sides, given)
    browser = os.environ.get("BROWSER") or shutil.which("chromium") or shutil.which("google-chrome")
    if not browser:
        print("there is no Chromium here: the page was not tried in one")
        return 1 if wrong else 0
    with tempfile.TemporaryDirectory(prefix="dbus-wire-") as folder:
        files = [pathlib.Path(folder) / str(at) for at in range(len(all_inputs))]
        for at, (file, (_, data)) in enumerate(zip(files, all_inputs)):
            file.write_bytes(gzip.compress(data) if at % 2 else data)
        with Browser(browser, page) as chromium:
            shown = [json.loads(chromium.value(SEEN)) if chromium.choose(it) else None for it in files]
            chosen = enumerate(both for both, *_ in all_sides[:CHOSEN])
            given = [sides_shown(chromium, pathlib.Path(folder) / f"sides{at}", both) for at, both in chosen]
        how = f"the page in {pathlib.Path(browser).name}"
        wrong += differs(how, all_inputs, wanted, shown) + sides_differ(how, all_sides[:CHOSEN], given)
        wrong += unseen(program, pathlib.Path(folder), all_inputs, wanted, shown)
    return 1 if wrong else 0


if __name__ == "__main__":
    if len(sys.argv) != 4:
        sys.exit(__doc__)
    sys.exit(main(*sys.argv[1:]))
