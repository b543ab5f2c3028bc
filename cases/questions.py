"""What the modules ask_*.py share, each of which says what is asked of cases, and which answers are wanted."""

import collections

# A question to an engine: its name, the words of the question, and the answer that is wanted: a text, or a function of the answers to the case's
# questions so far, its own among them, each by its engine; or None, if it is only noted.
Question = collections.namedtuple("Question", "engine words wanted")

# What errors say of values, by the words that columns have.
FAULTS = {
    "TooDeep": "more containers are open at once than the limit on depth",
    "Mixed": "a part has no type that fits its place",
    "Name": "a path or a signature is none, or a text has U+0000",
    "ArrayTooLong": "an array is over the limit on arrays",
    "TooLong": "the value ends past the limit on messages",
}


def hexed(data):
    """Bytes as a question or an answer spells them."""
    return data.hex() or "-"


def words_of(*words):
    """A question of these words, without those that are empty."""
    return " ".join(word for word in words if word)


def from_place(first, before, place=None, outcome=None):
    """What an engine answers at places from the first on, if it answers so before this place and so from there on."""
    if place is None:
        return f"{first} {before}"
    return f"{first} {before}, {place} {outcome}" if first < place else f"{place} {outcome}"
