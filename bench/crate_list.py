"""What the scripts share: the crates of crates.txt, which has a line `NAME: LIBRARY ..` for each, lowest first, and the machine."""

import functools
import os
import pathlib
import shutil

ROOT = pathlib.Path(__file__).resolve().parent.parent
# About the memory that a check takes.
GIGABYTES_A_CHECK = 2
# The folders of a crate that a check reads.
PARTS = ("src", "specs", "proofs")


@functools.cache
def read_lines():
    """The line of each crate, in the order of the list."""
    lines = [it for it in (ROOT / "crates.txt").read_text().splitlines() if ":" in it and it[0] != "#"]
    return {line.split(":")[0].split()[0]: line for line in lines}


@functools.cache
def read_crates():
    """Of each crate, the libraries of this repository that its line names."""
    lines = read_lines()
    return {name: [it for it in line.split(":")[1].split() if it in lines] for name, line in lines.items()}


def libraries_below(name, uses):
    """The libraries below a crate, each after those that it uses."""
    return list(dict.fromkeys(it for used in uses[name] for it in (*libraries_below(used, uses), used)))


def asked_programs():
    """The programs of which cases/run.py has questions."""
    return [name for name in read_crates() if (ROOT / "cases" / f"ask_{name}.py").exists()]


@functools.cache
def folder_of(name):
    return ROOT / "crates" / name


def text_of(file):
    """The text of a file of crates/."""
    return (ROOT / "crates" / file).read_text()


def copy_parts(name, to, parts=PARTS, **how):
    """Copies what a check of the crate reads, or other folders of it, into a folder."""
    for part in parts:
        if (folder_of(name) / part).is_dir():
            shutil.copytree(folder_of(name) / part, to / part, **how)


def lanes():
    """How many checks fit side by side: one a processor, if memory is there for each."""
    with open("/proc/meminfo") as file:
        kilobytes = next(int(line.split()[1]) for line in file if line.startswith("MemAvailable:"))
    return max(1, min(len(os.sched_getaffinity(0)), kilobytes // 1024**2 // GIGABYTES_A_CHECK))
