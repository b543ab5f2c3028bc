#!/usr/bin/env python3
"""test.py [FOLDER]: loads the completions in bash, zsh and fish, those of this folder or those that are installed below FOLDER, and asks each shell
what it completes: the commands, the options of each command, and values. What is right are the commands and options of the texts of help.

bash and zsh run in a terminal, in which the Tab key is pressed. A shell that is not there is an error. The exit status is 1 if one completes
something else.
"""

import fcntl
import os
import pathlib
import pty
import re
import select
import shutil
import struct
import subprocess
import sys
import termios
import time

HERE = pathlib.Path(__file__).resolve().parent
sys.path.insert(0, str(HERE.parent / "bench"))
from options import commands, options  # noqa: E402

PROMPT = "@@"
# A shell that has written nothing for this long has written all.
QUIET = 0.4
PATIENCE = 30
ESCAPES = re.compile(r"\x1b\[[0-9;?]*[a-zA-Z]|\x1b[=>]|[\x07\x0f]")
# More rows and columns than any list has.
WINDOW = struct.pack("HHHH", 200, 160, 0, 0)

KEYS = {"type", "sender", "interface", "member", "path", "path_namespace", "destination", "arg0", "arg0path", "arg0namespace"}

# The lines before Tab, and what each completes, of a match rule its last part.
VALUES = {
    "swap --to ": {"l", "B"},
    "swap --fds ": {"any", "below-count"},
    "check --fds=": {"any", "below-count"},
    "show --handshake ": {"client", "server"},
    "handshake --side=": {"client", "server"},
    "filter ": KEYS,
    "filter type=": {"signal", "method_call", "method_return", "error"},
    "filter type=signal,": KEYS - {"type"},
    "filter type=signal,arg": {"arg0", "arg0path", "arg0namespace"},
}


def last_part(word):
    """What a word adds to the line: the option, or the last part of OPTION=VALUE and KEY=VALUE,KEY=.."""
    return re.split("[=,]", word.rstrip("="))[-1]


def wanted():
    """Each line, and what is completed there."""
    yield "", commands()
    yield "help ", commands()
    for command, words in options().items():
        if command in commands():
            yield f"{command} --", words
    yield from VALUES.items()


class Terminal:
    """A shell in a terminal."""

    def __init__(self, words, setup):
        self.pid, self.end = pty.fork()
        if self.pid == 0:
            os.environ.update(TERM="dumb", LC_ALL="C.UTF-8", PS1=PROMPT)
            os.execvp(words[0], words)
        fcntl.ioctl(self.end, termios.TIOCSWINSZ, WINDOW)
        # The mark is written by the shell, and is not what the terminal echoes.
        self.send(f"{setup}; PS1={PROMPT}; echo rea''dy\n")
        self.read("ready")

    def send(self, text):
        os.write(self.end, text.encode())

    def read(self, mark=None):
        """What is written until the mark and then nothing more comes."""
        text, since = "", time.monotonic()
        while time.monotonic() - since < PATIENCE:
            is_more, _, _ = select.select([self.end], [], [], QUIET)
            if is_more:
                text += os.read(self.end, 65536).decode(errors="replace")
            elif mark is None or mark in text:
                return ESCAPES.sub("", text)
        raise TimeoutError(f"the shell does not write {mark}, but: {text}")

    def completed(self, line):
        """The words that Tab lists after this line."""
        self.send(f"dbus-wire {line}\t")
        text = self.read()
        # Away with the line, and with the list's end.
        self.send("\x15")
        self.read()
        listed = text.replace("\r", "\n").partition("\n")[2].rpartition(PROMPT)[0]
        return {last_part(it) for it in listed.split()}

    def close(self):
        os.close(self.end)
        os.waitpid(self.pid, 0)


class Fish:
    """fish, which says by itself what it completes."""

    def __init__(self, file):
        self.file = file

    def completed(self, line):
        script = f'source "{self.file}"; complete -C "dbus-wire {line}"'
        listed = subprocess.run(["fish", "--no-config", "-c", script], capture_output=True, text=True, check=True, stdin=subprocess.DEVNULL).stdout
        return {last_part(it.partition("\t")[0]) for it in listed.splitlines()}

    def close(self):
        pass


def files(folder):
    """Where the completion of each shell is: here, or as a distribution installs it."""
    if folder is None:
        return HERE / "dbus-wire.bash", HERE, HERE / "dbus-wire.fish"
    share = pathlib.Path(folder).resolve() / "usr/share"
    return share / "bash-completion/completions/dbus-wire", share / "zsh/vendor-completions", share / "fish/vendor_completions.d/dbus-wire.fish"


def shells(folder):
    bash, zsh, fish = files(folder)
    lists = "bind 'set show-all-if-ambiguous on' 'set completion-query-items 0' 'set page-completions off' 'set enable-bracketed-paste off'"
    yield "bash", lambda: Terminal(["bash", "--norc", "--noprofile", "-i"], f"{lists}; source '{bash}'")
    plain = "setopt no_always_last_prompt no_auto_menu no_list_ambiguous no_prompt_sp; LISTMAX=0; zstyle ':completion:*' verbose no"
    yield "zsh", lambda: Terminal(["zsh", "-f", "-i"], f"fpath=('{zsh}' $fpath); autoload -Uz compinit; compinit -D -u; {plain}")
    yield "fish", lambda: Fish(fish)


def faults(name, shell):
    """The lines after which the shell completes something else than is wanted."""
    for line, right in wanted():
        found = shell.completed(line)
        # `dbus-wire -` completes options too, which some shells list with the commands.
        found -= {"-h", "-V", "--help", "--version"} - right
        if found != right:
            yield f"{name}: `dbus-wire {line}` completes {sorted(found - right)} wrongly, and not {sorted(right - found)}"


def main(folder=None):
    wrong, count = [], len(list(wanted()))
    for name, start in shells(folder):
        if shutil.which(name) is None:
            wrong.append(f"there is no {name}: its completion is not tried (apt-get install {name})")
            continue
        shell = start()
        wrong += faults(name, shell)
        shell.close()
    print("\n".join(wrong) or f"bash, zsh and fish complete {count} lines as the help has it")
    return 1 if wrong else 0


if __name__ == "__main__":
    sys.exit(main(*sys.argv[1:]))
