"""What git knows of the commits that are here."""

import subprocess

from crate_list import ROOT


def git(*words):
    """What git writes, or nothing if it does not know."""
    ran = subprocess.run(["git", "-C", ROOT, *words], capture_output=True, text=True)
    return "" if ran.returncode else ran.stdout


def is_whole():
    """Whether the history is here from its beginning on."""
    return (ROOT / ".git").exists() and git("rev-parse", "--is-shallow-repository").strip() == "false"


def last_tag():
    return git("describe", "--tags", "--abbrev=0").strip()


def commits_since(tag, file, last="HEAD"):
    """The commits up to the last that changed a file, the later ones first, since a tag if there is one."""
    return git("rev-list", "--abbrev-commit", f"{tag}..{last}" if tag else last, "--", file).split()


def parents_of(commit):
    return git("rev-parse", f"{commit}^@").split()


def message_of(commit, part="%B"):
    """The message of a commit, or with `%b` its body."""
    return git("log", "-1", f"--format={part}", commit)
