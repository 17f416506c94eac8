"""Data objects and object lists, read as 01, "Data objects" and "The commands", say."""
from typing import NamedTuple, Optional

MOST_ASKED = 252


class Object(NamedTuple):
    """An object: its tag in hexadecimal, where its value begins, the value, and its members where it is constructed."""
    tag: str
    at: int
    value: bytes
    inner: Optional[list]


def tag_end(data, at):
    """Where the tag at a place ends, or None where there is none."""
    if at >= len(data) or data[at] == 0:
        return None
    if data[at] & 0x1F != 0x1F:
        return at + 1
    return at + 2 if at + 1 < len(data) and data[at + 1] < 0x80 else None


def length_at(data, at):
    """A length, and where it ends; None where there is none."""
    first = data[at] if at < len(data) else 0xFF
    if first < 0x80:
        return first, at + 1
    more = {0x81: 1, 0x82: 2}.get(first)
    if more is None or at + 1 + more > len(data):
        return None
    return int.from_bytes(data[at + 1:at + 1 + more], "big"), at + 1 + more


def read(data, base=0):
    """The objects of a list in their order, or None where it is no list."""
    found, at = [], 0
    while at < len(data):
        if data[at] == 0:
            at += 1
            continue
        end = tag_end(data, at)
        length = end and length_at(data, end)
        if not length or length[1] + length[0] > len(data):
            return None
        value = data[length[1]:length[1] + length[0]]
        inner = read(value, base + length[1]) if data[at] & 0x20 else None
        if data[at] & 0x20 and inner is None:
            return None
        found.append(Object(data[at:end].hex().upper(), base + length[1], value, inner))
        at = length[1] + length[0]
    return found


def wanted(data):
    """The entries of an object list: tag and length; None where it cannot be filled (reason 9)."""
    found, at = [], 0
    while at < len(data):
        end = tag_end(data, at)
        if end is None or end >= len(data):
            return None
        found.append((data[at:end].hex().upper(), data[end]))
        at = end + 1
    return found if sum(length for _, length in found) <= MOST_ASKED else None


def first(members, tag):
    """The value of the first member with this tag, or None."""
    return next((one.value for one in members or () if one.tag == tag), None)


def body(answer):
    """An answer without its two status bytes; empty where it has fewer."""
    return answer[:-2]


def files_in(afl):
    """The records that an AFL names, in their order: SFI and record; None where it is no AFL."""
    if not afl or len(afl) % 4:
        return None
    return [(afl[k] >> 3, record) for k in range(0, len(afl), 4) for record in range(afl[k + 1], afl[k + 2] + 1)]
