#!/usr/bin/env python3
"""weight.py [--all | --check | --write]: what the product weighs, and the budgets that bench/weight.txt has for it.

A line there is of one thing and has its numbers. Blank lines and comments are no lines of a crate.

    crate NAME: lines of src/, definitions and proofs, wide lines of proofs (over 140 columns), wrong bodies
    page NAME: words and wide lines (over 100 columns) of a page that is written by hand
    all manual, header, help: the same of the manual page, the comments of the header and the texts of help
    generated NAME: the same of what scripts write of a page
    all scripts: wide lines (over 120 columns)
    all bench: lines of Python
    all types: how many names of types, public or `pub(crate)`, two crates have
    all clauses: how many clauses of public calls no wrong body guards (bench/guards.py)

Without a word it prints sums, the numbers that differ from their budget or from the last tag's, and how many files the
last option and the last command took: those of all commits that name it, as `--NAME` or `dbus-wire NAME`, in their
message or in a line that comes or goes. With --all it prints each number. --write makes all budgets what is there now.

--check is what the gate does (docs/CHANGING.md). The exit status is 1 if a number is over its budget, or is so far below
that it writes the lower budget, or if a commit since the last tag raises a budget in another way than it may.
"""

import collections
import itertools
import re
import sys

import definitions
import graph
import options
import reasons
from crate_list import PARTS, ROOT, folder_of, read_crates
from edits import edits_in
from guards import unguarded
from history import commits_since, git, is_whole, last_tag, message_of, parents_of
from lint import scripts

FILE = "bench/weight.txt"
Budget = collections.namedtuple("Budget", "most back reason", defaults=(0, None, ""))
# A budget is lowered if more than this share of it is left over.
MOST_LEFT = 0.03
NO_LINE = {".rt": re.compile(r"\s*(//.*)?$"), ".antt": re.compile(r"\s*(--.*)?$")}
TYPE = re.compile(r"^pub(?:\(crate\))? (?:struct|enum|trait|type) (\w+)", re.M)
PAGES = "*.md docs/*.md cases/*.md cases/peers/*.md python/*.md rust/*.md samples/*.md man/dbus-wire.1"
# What scripts write of a page, without the groups.
WHOLE = (re.compile(r".+", re.S),)
GENERATED = {
    **dict.fromkeys(("docs/PEERS.md", "docs/SPECIFICATION.md", "docs/WORKED-EXAMPLES.md"), WHOLE),
    "docs/ARCHITECTURE.md": (graph.PICTURE,),
    "docs/DEFINITIONS.md": (definitions.LIST,),
    **{file: [it for name, it, _ in reasons.tables() if name == file] for file in reasons.LISTS},
}
# The texts in other files.
TEXTS = {
    "header": ("include/dbus_wire.h", re.compile(r"/\*.*?\*/|//.*?$", re.S | re.M)),
    "help": ("crates/cli_options/src/help.rt", re.compile(r'"((?:[^"\\]|\\.)*)"')),
}
# Tests, cases, and what scripts write.
ASIDE = re.compile(
    r"cases/|examples/|\w+/tests/|bench/\w+\.txt|docs/(PEERS|SPEC|WORKED)"
    r"|crates/(\w+/(wrong|runs)|case_\w+|library_tests|examples)"
)


def lines_of(folder):
    """The lines of the sources in a folder, without blank ones and comments."""
    files = [it for it in folder.rglob("*") if it.suffix in NO_LINE]
    return [it for file in files for it in file.read_text().splitlines() if not NO_LINE[file.suffix].match(it)]


def count_wide(lines, columns):
    return sum(len(line) > columns for line in lines)


def told(text):
    """The numbers of a text. Requests of a manual page are no words."""
    words = re.sub(r"^\.[A-Z]+", "", text, flags=re.M).split()
    return {"words": len(words), "wide": count_wide(text.splitlines(), 100)}


def crates():
    for crate in read_crates():
        parts = [lines_of(folder_of(crate) / part) for part in PARTS]
        sizes = dict(zip(("src", "definitions", "proofs"), map(len, parts)))
        yield f"crate {crate}", {**sizes, "wide": count_wide(parts[2], 140), "wrong": len(edits_in(crate))}


def pages():
    for path in (it for pattern in PAGES.split() for it in sorted(ROOT.glob(pattern))):
        name, text = path.relative_to(ROOT).as_posix(), path.read_text()
        by_hand = text
        for written in GENERATED.get(name, ()):
            by_hand = written.sub(lambda it: "".join(it.groups()), by_hand, count=1)
        if by_hand:
            yield "all manual" if path.suffix == ".1" else f"page {name}", told(by_hand)
        if by_hand != text:
            yield f"generated {name}", {it: number - told(by_hand)[it] for it, number in told(text).items()}
    for name, (file, part) in TEXTS.items():
        yield f"all {name}", told("\n".join(part.findall((ROOT / file).read_text())))


def others():
    files = {it: it.read_text().splitlines() for it in scripts(".py", ".sh", ".js", ".pl")}
    yield "all scripts", {"wide": sum(count_wide(it, 120) for it in files.values())}
    yield "all bench", {"lines": sum(len(it) for file, it in files.items() if file.match("bench/*.py"))}
    sources = ("\n".join(lines_of(folder_of(crate) / "src")) for crate in read_crates())
    owners = collections.Counter(name for text in sources for name in {*TYPE.findall(text)})
    yield "all types", {"twice": sum(count > 1 for count in owners.values())}
    yield "all clauses", {"unguarded": unguarded()}


def weigh():
    """Each number that there is, by its row and its word."""
    rows = itertools.chain(crates(), pages(), others())
    return {(row, word): number for row, its in rows for word, number in its.items()}


def parsed(text):
    """The budgets that a text of the file has."""
    found = {}
    for line in text.splitlines():
        row, numbers, reason = re.fullmatch(r"(.*?): (.*?)(?: # (.*))?", line).groups()
        for word, most, back in re.findall(r"(\w+) (\d+)(?: back to (\d+))?", numbers):
            found[row, word] = Budget(int(most), int(back) if back else None, reason)
    return found


def write(now, budgets, keys):
    """Writes the budgets, those of the keys as they are now."""
    rows, reasons = collections.defaultdict(list), {}
    for (row, word), number in now.items():
        most, back, reason = budgets.get((row, word), Budget())
        rows[row].append(f"{word} {number if (row, word) in keys else most}")
        if back is not None and number > back:
            rows[row][-1] += f" back to {back}"
            reasons[row] = f" # {reason}"
    lines = (f"{row}: {', '.join(its)}{reasons.get(row, '')}\n" for row, its in rows.items())
    (ROOT / FILE).write_text("".join(lines))


def budgets_at(commit):
    return parsed(git("show", f"{commit}:{FILE}")) if commit else {}


def since():
    """The last tag, or else the first commit that has budgets, or nothing."""
    return last_tag() or "".join(commits_since("", FILE)[-1:])


def is_bad_raise(commit):
    """Whether a budget is higher than in all commits before, and another file is changed too or nothing is said."""
    before = [it for parent in parents_of(commit) if (it := budgets_at(parent))]
    highest = {key: max(it.get(key, Budget()).most for it in before) for key in budgets_at(commit) if before}
    if all(budgets_at(commit)[key].most <= most for key, most in highest.items()):
        return False
    is_alone = git("show", "--format=", "--name-only", commit).split() == [FILE]
    return not is_alone or not message_of(commit, "%b").strip()


def is_low(number, budget):
    return budget.most - number > MOST_LEFT * budget.most or budget.back is not None and number <= budget.back


def sums(numbers):
    """The numbers of all crates, and of all pages of a kind, added up; and the others."""
    found = collections.Counter()
    for (row, word), number in numbers.items():
        found[row if row.startswith("all ") else f"{row.split()[0]} *", word] += number
    return found


def show(now, budgets, is_shown):
    """Prints the sums, and the numbers that `is_shown` names by what is there, is budgeted and was at the tag."""
    tag, highest = since(), {key: it.most for key, it in budgets.items()}
    tagged = {key: it.most for key, it in budgets_at(tag).items()} if tag else now
    print(f"{'':52}{'now':>10}{'budget':>10}{f'since {tag}' if tag else 'no history':>20}")
    for tables in ([*map(sums, (now, highest, tagged))], (now, highest, tagged)):
        for key in {**tables[0], **tables[1]}:
            number, most, was = (it.get(key, 0) for it in tables)
            if tables[0] is not now or is_shown(number, most, was) and not key[0].startswith("all "):
                print(f"{' '.join(key):52}{number:10,}{most:10,}{number - was:+20,}")
    for (row, word), it in budgets.items():
        if it.back is not None:
            print(f"{row} {word} has to come back to {it.back:,}: {it.reason}")


def check():
    """Prints the ledger in short, lowers budgets, and says whether all are kept, and whether all raises are right."""
    now, budgets = weigh(), parsed((ROOT / FILE).read_text())
    show(now, budgets, lambda number, most, _: number > most or is_low(number, Budget(most)))
    over = [key for key in now if now[key] > budgets.get(key, Budget()).most]
    low = [key for key, it in budgets.items() if is_low(now.get(key, 0), it)]
    raised = [it for it in commits_since(since(), FILE) if is_bad_raise(it)]
    if low:
        write(now, budgets, low)
    said = [f"{' '.join(it)} is over its budget" for it in over]
    said += [f"{' '.join(it)} is far below its budget, which {FILE} has lower now: commit it" for it in low]
    said += [f"commit {it} raises a budget: it has to change {FILE} alone, and say what for" for it in raised]
    said += [] if is_whole() else ["the history is not here, or not whole: raises before it are not looked at"]
    print(*said or ["all is within its budget"], sep="\n", flush=True)
    return not over and not low, not raised


def touched(names, pattern, before):
    """Prints how many files the one of these names took that came last into the texts of help."""
    came = git("log", "--reverse", "-p", "--format=", "--", "cases/data/*.help") if is_whole() else ""
    for name in [it for it in dict.fromkeys(re.findall(pattern, came, re.M)) if it in names][-1:]:
        word = before + name
        commits = {it for how in (f"--grep={word}", f"-S{word}") for it in git("log", "-F", "--format=%h", how).split()}
        files = {it for commit in commits for it in git("show", "--format=", "--name-only", commit).splitlines()}
        aside = sum(bool(ASIDE.match(it)) for it in files)
        print(f"{word}: {len(commits)} commits touched {len(files) - aside} files; tests, cases, made ones: {aside}")


def main(*words):
    if words == ("--check",):
        return 0 if all(check()) else 1
    now, budgets = weigh(), parsed((ROOT / FILE).read_text())
    if words == ("--write",):
        write(now, budgets, now)
        return 0
    show(now, budgets, lambda *numbers: words == ("--all",) or len({*numbers}) > 1)
    touched(set().union(*options.options().values()), r"^\+  (?:-\w, |    )(--[a-z-]+)", "")
    touched(options.commands(), r"^\+  ([a-z]+)  ", "dbus-wire ")
    return 0


if __name__ == "__main__":
    sys.exit(main(*sys.argv[1:]))
