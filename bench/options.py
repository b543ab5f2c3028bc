#!/usr/bin/env python3
"""options.py [--check]: writes the synopsis of the manual page, which command takes which option there, and what shells
complete after a command.

It makes them of the texts of help, cases/data/*.help, which the program prints, and of the comments of the flags.
"""

import collections
import re

from crate_list import ROOT, text_of
from pages import write_or_check

DATA = ROOT / "cases/data"
PROGRAM = "dbus-wire"
MANUAL, BASH = ROOT / "man/dbus-wire.1", ROOT / "completions/dbus-wire.bash"
ZSH, FISH = ROOT / "completions/_dbus-wire", ROOT / "completions/dbus-wire.fish"
OPTION = re.compile(r"(?<![\w-])(--[a-z]+(?:-[a-z]+)*)")
# A line of help: the option, with its letter if it has one, or the rules; the value, and the text.
HELP_LINE = re.compile(r"^  (?:-[a-zA-Z], |    |[<[])(--[a-z-]+|RULE)(?:[]>]\.\.\.)?(?: <(.*?)>)? +(.*)", re.M)
LIMITS = {"--max-message", "--max-array", "--max-depth", "--fds"}
SYNOPSIS = re.compile(r"(?<=\n\.SH SYNOPSIS\n\.nf\n).*?(?=\\fBdbus\\-wire help)", re.S)
TAKES = re.compile(r"(?<=\n\.SS Which command takes which\n).*?(?=\.SS )", re.S)
VALUES = re.compile(r"(?<=    case \$option in\n).*?(?=    esac\n)", re.S)
CASES = re.compile(r"(?<=    case \$command in\n).*?(?=        help\))", re.S)
SEEN = re.compile(r"(?:complete -c dbus-wire -n '__fish_seen_subcommand_from (?!help').*\n)+")
# Its place among the flags, what shells say, the unit of its value, and the words that this can be, for zsh and others.
Option = collections.namedtuple("Option", "place name value shown unit words plain is_many")


def commands():
    """The commands that the help of the program names."""
    return dict.fromkeys(re.findall(r"^  ([a-z]+)  ", (DATA / f"{PROGRAM}.help").read_text(), re.M)).keys()


def options():
    """The options of each command that has any, by the texts of help, and those of the program."""
    return {it.stem: {name[0] for name in HELP_LINE.findall(it.read_text())} - {"RULE"} for it in DATA.glob("*.help")}


def options_of(command):
    """The options of a command, and its rules. A variant is known by the text of help in its row."""
    variants, _, rows = text_of("cli_options/src/flag.rt").partition("pub(crate) fn argument")
    comments = {name: it for it, name in re.findall(r"    /// (.*)\n    (\w+),", variants)}
    flags = {it[1].replace("\\\\", "\\"): it[0] for it in re.findall(r'Flag::(\w+) =>.*?\.help\(\s*"((?:[^"\\]|\\.)*)"', rows, re.S)}
    for name, value, text in HELP_LINE.findall((DATA / f"{command}.help").read_text()):
        if name != "--help":
            shown, unit, words = re.fullmatch(r"(.*?)(?:: (.*?)(?: = (.*))?)?", comments[flags[text]]).groups("")
            place, plain = [*comments].index(flags[text]), re.sub(r"\\:\S*", "", words)
            yield Option(place, name, value, shown, unit, words, plain, "any number" in text)


def synopsis(command):
    """The line of the manual page for a command: its usage."""
    usage = re.search(r"^Usage: (.*) < FILE", (DATA / f"{command}.help").read_text(), re.M)[1].replace("-", "\\-")
    bold = re.sub(r"^\S+ \S+|\\-\\-\w+", r"\\fB\g<0>\\fP", usage)
    return re.sub(r"<?\b([A-Z]{2,})\b>?", r"\\fI\1\\fP", bold) + "\n"


def takers(seen):
    """The rows of the manual page: commands, and the options that these take and no other does."""
    users, rows = collections.defaultdict(set), collections.defaultdict(list)
    for it in sorted(seen):
        users["\\fILIMITS\\fP" if it.name in LIMITS else it.name.replace("-", "\\-")].update(seen[it])
    for name in users.keys() - {"RULE"}:
        rows[", ".join(it for it in commands() if it in users[name])].append(name)
    told = sorted(rows.items(), key=lambda it: (-it[0].count(","), it))
    return "".join(f".TP\n.B {its}\n{', '.join(sorted(names))}\n" for its, names in told)


def zsh(it):
    """What zsh is told of an option."""
    words = f"(({it.words}))" if it.words != it.plain else f"({it.words})" if it.words else ""
    value = f":{it.unit}:{words}" if it.value else ""
    told = f"{'*' * it.is_many}{it.name}{'=' * bool(value)}[{it.shown[0].lower()}{it.shown[1:]}]{value}"
    return f" \\\n                '{'*:match rule:_dbus-wire-rule' if it.name == 'RULE' else told}'"


def made():
    """The files as they are to be."""
    tables, seen, values = collections.defaultdict(str), collections.defaultdict(list), collections.defaultdict(dict)
    for command in (it for it in commands() if it != "help"):
        its = sorted(options_of(command))
        words = " ".join(it.name for it in its if it.name != "RULE")
        tables[MANUAL, SYNOPSIS] += synopsis(command)
        ruled = "is_ruled=1 " * any(it.name == "RULE" for it in its)
        tables[BASH, CASES] += f"        {command}) {ruled}options='{words} -h --help' ;;\n"
        tables[ZSH, CASES] += f"        {command})\n            _arguments $help{''.join(map(zsh, its))}\n            ;;\n"
        for it in its:
            seen[it].append(command)
            values[it.plain or " "].update({it.name: None} if it.value else {})
    tables[BASH, VALUES] = "".join(f"        {' | '.join(its)}) values='{it}' ;;\n" for it, its in values.items())
    for it in sorted(seen):
        how = f"-x -a '{it.plain}'" if it.plain else "-x" if it.value else "-f"
        told = "-f -a '(__dbus_wire_rule)'" if it.name == "RULE" else f"-l {it.name[2:]} {how} -d '{it.shown}'"
        tables[FISH, SEEN] += f"complete -c {PROGRAM} -n '__fish_seen_subcommand_from {' '.join(seen[it])}' {told}\n"
    tables[MANUAL, TAKES] = takers(seen)
    texts = {path: path.read_text() for path, _ in tables}
    for (path, part), table in tables.items():
        texts[path] = part.sub(lambda _: table, texts[path], count=1)
    return texts


def faults():
    """What is not named that has to be, or is named and is not there."""
    parts = re.split(r"^\.SH (.*)\n", MANUAL.read_text().replace("\\-", "-").replace("\\fI", " "), flags=re.M)
    heads = {name: re.findall(r"^\.TP\n(.*)", part, re.M) for name, part in zip(parts[1::2], parts[2::2])}
    rows = [
        ("the manual page's commands", commands(), {it.split()[1] for it in heads["COMMANDS"]}),
        ("the manual page's options", set().union(*options().values()), {*OPTION.findall(" ".join(heads["OPTIONS"]))}),
        ("the files of help", commands() - {"help"}, options().keys() - {PROGRAM}),
        *((it.name, commands(), commands() & {*re.findall("[a-z]+", it.read_text())}) for it in (BASH, ZSH, FISH)),
    ]
    for command in commands() - {"help"}:
        cases = "\n".join((DATA / f"{it}.txt").read_text() for it in (command, "words"))
        tried = {*OPTION.findall(" ".join(re.findall(rf"^[^#\n].*? \| {command} (.*?)(?: \| |$)", cases, re.M)))}
        rows.append((f"the cases of {command}", options()[command], options()[command] & tried))
    told = "{}: {} is missing", "{}: {} is not in the help"
    return [told[it in found].format(where, it) for where, wanted, found in rows for it in wanted ^ found]


if __name__ == "__main__":
    write_or_check(made(), "the synopsis or what shells complete is not current: bench/options.py writes it", faults())
