"""What the programs in Python share: they answer what `cases/run.py` asks of messages by what a library reads of their bytes."""

import signal
import sys

SECONDS = 10


def answer_lines(read):
    """`read` has the bytes of a message, and returns its length and what encodes it again, or None if it wants more; or it raises an error."""
    signal.signal(signal.SIGALRM, lambda *_: sys.exit("no answer in time"))
    for line in sys.stdin:
        kind, *words = line.split()
        if kind not in ("message", "again") or len(words) > 1:
            print("?", flush=True)
            continue
        signal.alarm(SECONDS)
        try:
            said = read(bytes.fromhex(words[0].replace("-", "")))
            print("partial" if said is None else f"whole {said[0]}" if kind == "message" else said[1]().hex(), flush=True)
        except Exception as fault:
            print(f"no: {type(fault).__name__}: {fault}".replace("\n", " ")[:200], flush=True)
