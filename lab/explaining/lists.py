"""Object lists filled (01, "The commands"; 02, R-6): the value of each entry, and which had none."""
from typing import NamedTuple

from lab import terminal
from lab.explaining import names, objects

LEFT = ("9F02", "9F03", "9F1A", "5F2A", "9A", "9C", "5F24", "5F25")
FROM_RECORDS = ("5A", "5F24", "5F25", "9F08", "9F0D", "9F0E", "9F0F")


class Filled(NamedTuple):
    """One entry of a list with what it was filled with; `supplied` is whether there was a value for it."""
    tag: str
    value: bytes
    supplied: bool

    def in_words(self):
        return f"{self.tag}({len(self.value)})" + (f" {names.TAGS[self.tag]}" if self.tag in names.TAGS else "")


def fitted(tag, value, length):
    """A value cut or filled up to a length."""
    if tag in LEFT:
        return value[-length:].rjust(length, b"\0") if length else b""
    return value[:length].ljust(length, b"\xFF" if tag == "5A" else b"\0")


def known(learnt, tvr, tsi, response):
    """The values that a list can be filled from, by tag; the response code from the second request on."""
    found = {**terminal.by_tag(learnt.start), "95": tvr, "9B": tsi}
    if learnt.aip is not None:
        found["82"] = learnt.aip
    found.update({tag: learnt.facts[tag] for tag in FROM_RECORDS if tag in learnt.facts})
    if response is not None:
        found["8A"] = response
    return found


def filled(data, values):
    """Each entry of a list filled, or None where the list cannot be."""
    entries = objects.wanted(data)
    if entries is None:
        return None
    return [Filled(tag, fitted(tag, values[tag], length) if tag in values else bytes(length), tag in values) for tag, length in entries]


def rule_of(tag, derived, name):
    """The rule by which an entry of a list was filled."""
    if not any(entry.supplied for entry in derived.entries if entry.in_words() == name):
        return f"{derived.list_tag} asks for it, and what is not known, or not yet, gives zeros"
    how = "cut or filled up with zeros on the left" if tag in LEFT else "cut on the right, filled up with 'FF'" if tag == "5A" \
        else "cut or filled up with zeros on the right"
    return f"{derived.list_tag} asks for it; the value, {how}"


def in_words(data):
    """An object list: 9F02(6) 95(5)."""
    entries = objects.wanted(data)
    if entries is None:
        return f"malformed, or asks for over {objects.MOST_ASKED} bytes"
    return " ".join(f"{tag}({length})" for tag, length in entries) or "empty"
