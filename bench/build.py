#!/usr/bin/env python3
"""build.py NAME [WORD..]: proves and builds the crate NAME and all that it uses, side by side, and says how far it is. Words after NAME are for its own
build, as --target.

`rt lib` locks each library below its crate, so crates that share one would wait for each other. Each is therefore built in a folder
out/building/NAME, into which its files and the built libraries below it are linked, and what that makes is put back. First come
the crates with the longest chain of others behind them, by bench/minutes.txt, which has the processor minutes of each
crate's proof and so gives the time that is left; a processor that no other crate waits for joins in.
"""

import collections
import concurrent.futures as futures
import contextlib
import fcntl
import os
import re
import shutil
import statistics
import subprocess
import sys
import time

from crate_list import PARTS, ROOT, copy_parts, folder_of, lanes, libraries_below, read_crates, read_lines

# More jobs than that seldom shorten one check.
MOST_JOBS = 4

Running = collections.namedtuple("Running", "name jobs began")


def read_minutes(names):
    """The processor minutes of each crate, and the median for one that the table lacks."""
    table = dict(re.findall(r"^(\w+) +(\S+)$", (ROOT / "bench" / "minutes.txt").read_text(), re.M))
    return {name: float(table.get(name, statistics.median(map(float, table.values())))) for name in names}


@contextlib.contextmanager
def locked(name):
    """Waits until no other run works in the crate's folder, and keeps others out, as rt does."""
    held = os.open(folder_of(name), os.O_RDONLY)
    try:
        fcntl.flock(held, fcntl.LOCK_EX)
        yield
    finally:
        os.close(held)


def build_apart(name, libraries, jobs):
    """The status of `rt lib` of a library in a folder of its own, and what it said."""
    apart = ROOT / "out" / "building" / name
    with locked(name):
        shutil.rmtree(apart, ignore_errors=True)
        (folder_of(name) / "out").mkdir(exist_ok=True)
        for it in (*libraries, name):
            parts = (*PARTS, "out" if it == name else "out/rlib")
            copy_parts(it, apart / "crates" / it, parts, symlinks=True, copy_function=os.link)
        lines = read_lines()
        (apart / "crates.txt").write_text("".join(f"{lines[it]}\n" for it in (*libraries, name)))
        try:
            words = ["rt", "lib", "--jobs", str(jobs)]
            ran = subprocess.run(words, cwd=apart / "crates" / name, stdout=subprocess.PIPE, stderr=subprocess.STDOUT, text=True)
        finally:
            # A proof that broke off goes on from what it made.
            shutil.rmtree(folder_of(name) / "out", ignore_errors=True)
            shutil.move(apart / "crates" / name / "out", folder_of(name) / "out")
            shutil.rmtree(apart)
    return ran.returncode, ran.stdout


def build_last(name, words, jobs):
    """The status of a static library's or a program's build, where it lies, and what rt said. A program is run with its stored input."""
    folder = folder_of(name)
    if not (folder / "src" / "main.rt").exists():
        ran = subprocess.run(["rt", "lib", *words, "--jobs", str(jobs)], cwd=folder, stdout=subprocess.PIPE, stderr=subprocess.STDOUT, text=True)
        return ran.returncode, ran.stdout
    arguments, given = ((folder / it).read_bytes() if (folder / it).exists() else b"" for it in ("args", "stdin"))
    words = ["rt", "run", *words, "--jobs", str(jobs), "--", *arguments.decode().split("\n")[:-1]]
    ran = subprocess.run(words, cwd=folder, input=given, capture_output=True)
    return ran.returncode, ran.stderr.decode(errors="replace")


class Build:
    """The build of a crate: which crates it needs, which of them are left, running and done."""

    def __init__(self, target, words):
        uses = read_crates()
        self.libraries = {name: libraries_below(name, uses) for name in (*libraries_below(target, uses), target)}
        self.minutes = read_minutes(self.libraries)
        behind = collections.Counter(self.minutes)
        for name in reversed(self.libraries):
            for library in uses[name]:
                behind[library] = max(behind[library], self.minutes[library] + behind[name])
        self.target, self.words = target, words
        self.left = sorted(self.libraries, key=lambda it: -behind[it])
        self.running = {}
        self.done = []
        self.proved = set()
        self.began = time.monotonic()

    def start(self, pool, processors):
        """Starts the crates that can be built now, and shares out the processors among them."""
        ready = [it for it in self.left if all(library in self.done for library in self.libraries[it])]
        for number, name in enumerate(ready):
            idle = processors - sum(it.jobs for it in self.running.values())
            if idle == 0:
                return
            jobs = max(1, min(MOST_JOBS, idle // (len(ready) - number)))
            self.left.remove(name)
            call = (build_last, name, self.words, jobs) if name == self.target else (build_apart, name, self.libraries[name], jobs)
            self.running[pool.submit(*call)] = Running(name, jobs, time.monotonic())

    def end(self, future):
        """Takes in a crate's build that ended, says how far all is, and whether the crate is built."""
        ran, (status, said) = self.running.pop(future), future.result()
        if status:
            print(f"{ran.name} is not built; rt says:\n{said}", flush=True)
            return False
        self.done.append(ran.name)
        how = "stood already"
        if "logic=proved" in said:
            self.proved.add(ran.name)
            how = f"proved in {time.monotonic() - ran.began:.0f} s"
        left = f", {self.time_left()}" if self.left or self.running else ""
        print(f"[{len(self.done)}/{len(self.libraries)}] {ran.name} {how}{left}", flush=True)
        return True

    def time_left(self):
        """By the work that is left, and the time that the work took that is done."""
        now = time.monotonic()
        begun = {it.name: min((now - it.began) / 60 * it.jobs, self.minutes[it.name]) for it in self.running.values()}
        done = sum(self.minutes[it] for it in self.proved) + sum(begun.values())
        left = sum(self.minutes[it] for it in (*self.left, *begun)) - sum(begun.values())
        left *= (now - self.began) / 60 / done if self.proved else 1 / lanes()
        return f"{left:.0f} min left" if left >= 1 else "less than a minute left"


def main(target, *words):
    build, processors, well = Build(target, words), lanes(), True
    with futures.ThreadPoolExecutor(processors) as pool:
        while build.running or (well and build.left):
            if well:
                build.start(pool, processors)
            for future in futures.wait(build.running, return_when=futures.FIRST_COMPLETED).done:
                well = build.end(future) and well
    return 0 if well else 1


if __name__ == "__main__":
    try:
        sys.exit(main(*sys.argv[1:]))
    except KeyboardInterrupt:
        sys.exit("broken off; what is proved is kept")
