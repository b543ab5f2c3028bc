"""Files that scripts write, or parts of them. With --check such a script writes nothing, and its exit status is 1 if one
is not current."""

import sys
import textwrap


def item(line):
    """An item of a list of a page, in lines of at most 100 columns."""
    return textwrap.fill(f"* {line}", 100, subsequent_indent="  ", break_long_words=False, break_on_hyphens=False)


def write_or_check(texts, what, faults=()):
    """Writes the texts of these files; or, if --check is the only word of the command, says `what` if one has another.
    Ends with the status 1 if it said something, or told of a fault."""
    is_check = sys.argv[1:] == ["--check"]
    is_current = all(path.exists() and path.read_text() == text for path, text in texts.items())
    for path, text in () if is_check else texts.items():
        path.write_text(text)
    told = [*faults, *([what] if is_check and not is_current else [])]
    print(*told, sep="\n", end="\n" if told else "", file=sys.stderr)
    sys.exit(1 if told else 0)
