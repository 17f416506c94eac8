"""Tapes as bytes: blocks written by the layout of 01, "The tape", and the entries of one that the judge can read. What a tape is worth is
never decided here: that is the judge's word."""
import zlib
from typing import NamedTuple

from lab import kinds
from lab.files import BLOCK
from lab.numbers import MOST

LONGEST = 496


class Entry(NamedTuple):
    """One entry: its kind's word, and its payload."""
    kind: str
    payload: bytes


class NoTape(ValueError):
    """An entry cannot be stored, or bytes are no whole blocks; the text says why."""


def block(number, session, entry):
    if not 0 <= session <= MOST or entry.kind not in kinds.WORDS:
        raise NoTape(f"{entry.kind} is no kind of entry" if 0 <= session <= MOST else "no session number")
    if len(entry.payload) > LONGEST:
        raise NoTape(f"{entry.kind} of {len(entry.payload)} bytes: a block has room for {LONGEST}")
    head = number.to_bytes(4, "big") + session.to_bytes(4, "big") + bytes([kinds.NAMED[entry.kind].number, 0])
    data = (head + len(entry.payload).to_bytes(2, "big") + entry.payload).ljust(BLOCK - 4, b"\0")
    return data + zlib.crc32(data).to_bytes(4, "big")


def written(session, entries):
    return b"".join(block(number, session, entry) for number, entry in enumerate(entries))


def entries(data):
    """The session number and the entries of a tape, whose blocks the judge has read: asked only of one that is not UNREADABLE."""
    blocks = [data[at:at + BLOCK] for at in range(0, len(data), BLOCK)]
    made = [Entry(kinds.KINDS[one[8]].name, one[12:12 + int.from_bytes(one[10:12], "big")]) for one in blocks]
    session = int.from_bytes(data[4:8], "big")
    if written(session, made) != data:
        raise NoTape("its blocks are not those of its entries")
    return session, made
