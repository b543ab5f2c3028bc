"""What is asked of the program `case_engines`, which answers more than any implementation can."""

import about_messages
import about_streams

PARTS = (about_messages.FILES, about_streams.FILES)


def joined(askers):
    """What all of these ask of a case."""

    def ask(case, folder):
        for asker in askers:
            yield from asker(case, folder)

    return ask


FILES = {name: joined([part[name] for part in PARTS if name in part]) for name in {**PARTS[0], **PARTS[1]}}
