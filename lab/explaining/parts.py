"""What a difference is, and the parts of which a command and a decision are made."""
from typing import NamedTuple, Optional


class Part(NamedTuple):
    """A named part of a payload: where it stands, its size, and the tag of the data object that it holds, if any."""
    name: str
    at: int
    size: int
    tag: Optional[str] = None


class Difference(NamedTuple):
    """One thing in which what stood there is not what was due: the part by name, what is to be said, and the sentence of the documents.
    Bytes at the places `stood` differ; those that were due at the places `due` are missing."""
    part: str
    words: str
    source: str
    stood: tuple = ()
    due: tuple = ()


def count(number, one, many=None):
    return f"{number} {one if number == 1 else many or one + 's'}"


def offsets(places):
    """Places in words: offset 4, offsets 4 to 7."""
    if not places:
        return ""
    first, last = min(places), max(places)
    return f"offset {first}" if first == last else f"offsets {first} to {last}"
