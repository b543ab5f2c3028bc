#!/usr/bin/env python3
"""specification.py [--check | FILE.html]: writes docs/SPECIFICATION.md out of specification.txt.

The exit status is 1 if a definition, a case or a row of docs/PEERS.md is not there, a case has another answer, a rule
or a choice lacks a definition or cases of a side, a sentence is in no row, or a definition file cites at its head none
of the sections whose rules it says. With --check nothing is written, and it
is 1 if the page is not current. With the D-Bus Specification as HTML, which Debian's dbus-1-doc has, each sentence that
is counted is printed with its rows, and it is 1 if a section that has some is not there or has another number of them.
"""

import collections
import functools
import html
import itertools
import pathlib
import re
import sys
import textwrap

sys.dont_write_bytecode = True

from read_cases import DATA, read_bytes, read_cases  # noqa: E402

sys.path.insert(0, str(DATA.parents[1] / "bench"))

from crate_list import ROOT, text_of  # noqa: E402
from pages import write_or_check  # noqa: E402

ROWS = DATA.parent / "specification.txt"
PAGE, PEERS = ROOT / "docs" / "SPECIFICATION.md", ROOT / "docs" / "PEERS.md"
# Each kind of row, and how the page says it; and the last parts of the page.
KINDS = {"rule": "**{}**", "choice": "**{}** (*profile*)", "beyond": "*Beyond:* {}", "same": '*Said again:* "{}".'}
FIRST = "Introduction"
WHOLE, BACK = "Sections that are beyond as a whole", "The way back: of which sections each file says rules"
SECTION = re.compile(r"(==|--) (.+): (\d+)")
ROW = re.compile(rf"({'|'.join(KINDS)})((?: \d+(?:-\d+)?)*): (.+)")
CITED = re.compile(r"(.+): (\w+)((?: \w+)+)")
# A sentence is counted if one of these words is in it.
COUNTED = re.compile(r"\b(must|may|should|shall|always|never|cannot|can't|invalid|not allowed)\b", re.I)
# What of the specification is no sentence of a section, and where sentences end.
ASIDE = re.compile(r'<pre.*?</pre>|<div class="footnotes">.*|<div class="toc">.*?</dl></div>', re.S)
BLOCK = re.compile(r"</?(?:p|li|td|th|dt|dd|ul|ol|tr|div|table|dl)\b[^>]*>")
END = re.compile(r"(?<=[.!?])\)?\s+(?=[A-Z(\"“])")
# The columns with the answers, if that is not the last one. `single` are signatures read as one type.
ANSWERS = dict.fromkeys(("signatures", "client_lines", "server_lines"), slice(2, 3)) | {"values": slice(5, None)}
ANSWERS |= {"single": slice(3, None), "calls": slice(4, None), "filter": slice(4, None)}

ITEM = textwrap.TextWrapper(100, "* ", "  ", break_long_words=False, break_on_hyphens=False)
Row = collections.namedtuple("Row", "at section kind numbers said by taken refused peers")


def plain(source):
    """The text of a part of a page in HTML."""
    return " ".join(html.unescape(re.sub(r"<[^>]+>", "", source)).split())


def numbers_of(text):
    return [n for a, _, z in (it.partition("-") for it in text.split()) for n in range(int(a), int(z or a) + 1)]


def part_of(word, rest):
    """What a line below a row adds: words of a definition; answer, file and names of cases; rows of docs/PEERS.md."""
    found = CITED.fullmatch(rest) if word in ("taken", "refused") else None
    parts = {"by": [rest.split()] if rest.count(" ") > 1 else [], "peers": rest.split(", ")}
    return [(found[1], found[2], found[3].split())] if found else parts.get(word, [])


def read_rows(faults):
    """The page's beginning, the number of sentences of each section, and the rows: one without words of a section that
    is beyond as a whole."""
    head, counts, rows = [], {}, []
    for at, line in enumerate(ROWS.read_text().splitlines(), 1):
        section, row, (word, _, rest) = SECTION.fullmatch(line), ROW.fullmatch(line), line.strip().partition(" ")
        if section:
            counts[section[2]] = int(section[3])
        if row or section and word == "--":
            said = (row[1], numbers_of(row[2]), row[3]) if row else ("beyond", numbers_of(f"1-{section[3]}"), "")
            rows.append(Row(at, [*counts][-1], *said, [], [], [], []))
        elif line.startswith("  ") and part_of(word, rest):
            getattr(rows[-1], word).extend(part_of(word, rest))
        elif word == ">":
            head.append(rest)
        elif line and line[0] != "#" and not section:
            faults.append(f"{at}: no section, row or part of a row")
    return "\n".join(head), counts, rows


def told(sent, status, state):
    """What an end sent last, and its state; or that it has begun or is closed."""
    lines = [it for it in read_bytes(sent or '""').lstrip(b"\0").decode().split("\r\n") if it] or ["nothing"]
    return re.sub(" [0-9a-f]{32}", "", f"{lines[-1] if status == 'talking' else status}, {state}")


@functools.cache
def answers_of(file):
    """The answer to each case of a file."""
    path = DATA / f"{'signatures' if file == 'single' else file}.txt"
    if file == "dialogues":
        return {name: told(sent, *ends) for name, _, _, sent, _, *ends in read_cases(path)}
    rows = read_cases(path) if path.exists() else ()
    return {case[0]: " ".join(case[ANSWERS.get(file, slice(-1, None))]).strip() or "nothing" for case in rows}


def has(text, words):
    return re.search(rf"(?<!\w){re.escape(words)}(?!\w)", text)


def path_of(crate, file, *_):
    return f"{crate}/src/{file}" if file.endswith(".rt") else f"{crate}/specs/{file}.antt"


def is_said(crate, file, name, *words):
    """Whether a file defines the name, with these words in one line."""
    if not (ROOT / "crates" / path_of(crate, file)).exists():
        return False
    defines = rf"^ *(?:(?:abbrev|unfoldable|mutual|pub|const|record|data) +)*{name}\b.*(?:\n.+)*"
    found = "\n".join(re.findall(defines, text_of(path_of(crate, file)), re.M))
    return any(all(has(line, word) for word in words) for line in found.splitlines())


@functools.cache
def peers_of(name):
    """The peers that docs/PEERS.md has for a reason, or in the rows and items of a case."""
    head, text = [], PEERS.read_text()
    items = re.findall(r"^\* \*\*([\w-]+)\*\*(, .*?)(?=\n\* |\n\n|\Z)", text, re.M | re.S)
    found = [peer for peer, cases in items if f"`{name}`" in cases]
    for line in text.splitlines():
        cells = [it.strip() for it in line.strip("|").split("|")] if line.startswith("|") else []
        head = head if cells and head else cells
        if cells and cells[0] == name:
            found += [peer for peer, cell in zip(head[1:], cells[1:]) if cell and peer != "for instance"]
        elif cells and head[0] == "peer" and f"`{name}`" in cells[-1]:
            found.append(cells[0])
    return [*dict.fromkeys(found)]


def faults_of(row):
    yield from (f"no definition {' '.join(words)}" for words in row.by if not is_said(*words))
    for answer, file, name in ((answer, file, it) for answer, file, names in row.taken + row.refused for it in names):
        found = answers_of(file).get(name)
        if found is None or not has(found, answer):
            yield f"{file} has no case {name}" if found is None else f"{file} {name}: {found}, and not {answer}"
    yield from (f"docs/PEERS.md has no peers of {it}" for it in row.peers if not peers_of(it))
    if row.kind in ("rule", "choice") and not (row.by and row.taken and row.refused):
        yield "no definition, or no cases of one side"


def uncounted(counts, rows):
    """The sentences that are in no row, the numbers of none, and the sections that are not there."""
    for title, count in counts.items():
        numbers = {number for row in rows if row.section == title for number in row.numbers}
        yield from (f'"{title}": sentence {it}' for it in sorted(numbers ^ {*range(1, count + 1)}))
    yield from (f"{row.at}: no section {row.said}" for row in rows if row.kind == "same" and row.said not in counts)


def without_section(rows):
    """The definition files that cite at their head none of the sections whose rules they say."""
    said = sorted({path_of(*words) for row in rows for words in row.by if not words[1].endswith(".rt")})
    for path in said:
        lines = itertools.takewhile(lambda it: it.startswith("--"), text_of(path).splitlines())
        head = " ".join(it.removeprefix("-- ") for it in lines)
        titles = {row.section for row in rows if path in map(lambda it: path_of(*it), row.by)}
        if not any(f'"{it}"' in head for it in titles):
            yield f"{path} cites none of its sections at its head"


def told_row(row):
    words = [KINDS[row.kind].format(row.said)] + [f"[{len(row.numbers)}]"] * bool(row.numbers)
    by = ", ".join(f"`{path_of(*it)}` (`{it[2]}`)" for it in row.by)
    words += [f"By {by}."] if by else []
    for side, cases in (("Taken", row.taken), ("Refused", row.refused)):
        groups = [f"{answer}: {file} " + ", ".join(f"`{it}`" for it in names) for answer, file, names in cases]
        words += [f"*{side}* {'; '.join(groups)}."] if groups else []
    peers = "; ".join(f"{', '.join(peers_of(it))} (`{it}`)" for it in row.peers)
    return ITEM.fill(" ".join(words + [f"*Peers* {peers}."] * bool(peers)))


def page(head, counts, rows):
    kinds = collections.Counter(row.kind for row in rows)
    lists, files = collections.defaultdict(list), collections.defaultdict(dict)
    for row in rows:
        text = told_row(row) if row.said else ITEM.fill(f"{row.section} [{len(row.numbers)}]")
        lists[row.section if row.said else WHOLE].append(text)
        for words in row.by:
            files[path_of(*words)][f'"{row.section}"'] = None
    lists[BACK] = [ITEM.fill(f"`{it}`: {', '.join(files[it])}") for it in sorted(files)]
    parts = "".join(f"\n## {title}\n\n" + "\n".join(lists[title]) + "\n" for title in lists)
    total = f"{kinds['rule']} rules, {kinds['choice']} choices, {sum(counts.values())} sentences."
    return f"{head}\n\n{total}\n{parts}"


def sections_of(source):
    """The title and the text of each section. A title that comes again has the one above it."""
    parts = re.split(r"<h[2-6][^>]*>(.*?)</h[2-6]>", ASIDE.sub(" ", source), flags=re.S)
    above, titles = "", [*map(plain, parts[1::2])]
    for title, text in list(zip(titles, parts[2::2]))[titles.index(FIRST) :]:
        above = above if titles.count(title) > 1 else title
        yield title if title == above else f"{title} ({above})", text


def print_sentences(path, counts, rows):
    """Prints the sentences with their rows, and returns whether all are in a section of the rows."""
    found = {}
    for title, text in sections_of(path.read_text(errors="replace")):
        found[title] = [it for block in BLOCK.split(text) for it in END.split(plain(block)) if COUNTED.search(it)]
        for number, sentence in enumerate(found[title], 1):
            said = [f"\n    {it.kind}: {it.said}" for it in rows if it.section == title and number in it.numbers]
            print(f"{title} {number}: {sentence}", *said, sep="")
    return {title: len(its) for title, its in found.items() if its or title in counts} == counts


def main(*words):
    faults = []
    head, counts, rows = read_rows(faults)
    if words not in ((), ("--check",)):
        sys.exit(0 if print_sentences(pathlib.Path(*words), counts, rows) else 1)
    faults += [f"{row.at}: {it}" for row in rows for it in faults_of(row)]
    faults += [*uncounted(counts, rows), *without_section(rows)]
    what = "docs/SPECIFICATION.md is not current: make definitions writes it"
    write_or_check({} if faults else {PAGE: page(head, counts, rows)}, what, [f"{ROWS.name} {it}" for it in faults])


if __name__ == "__main__":
    main(*sys.argv[1:])
