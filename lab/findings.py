"""The lines of the proved programs, each checked in full against its form before it is used, the line feed too."""
import re
from typing import NamedTuple

from lab import kinds
from lab.numbers import MOST

NUMBER = rb"(0|[1-9][0-9]{0,19})"
VERDICT = rb"(PASS|FAIL|INCONCLUSIVE|UNREADABLE)"
JUDGED = re.compile(VERDICT + b" " + NUMBER + b" " + NUMBER + b" " + NUMBER + rb"\n")
ENTRY = re.compile(NUMBER + b" " + VERDICT + b" " + NUMBER + b" " + NUMBER)
COUNTS = re.compile(rb"PASS " + NUMBER + rb" FAIL " + NUMBER + rb" INCONCLUSIVE " + NUMBER + rb" UNREADABLE " + NUMBER
                    + rb" TOTAL " + NUMBER + rb"\n")
GOOD = re.compile(rb"good " + NUMBER + rb"\n")
REFUSED = re.compile(rb"refused " + NUMBER + rb" (too long|torn|check|number|verdict|zeros|twice)\n")
BLOCK = re.compile(rb"BLOCK " + NUMBER + b" " + NUMBER + b" " + NUMBER + b" " + NUMBER + rb" (-|(?:[0-9A-F]{2})+)\n")
DUE = re.compile(rb"DUE " + NUMBER + rb" ([A-Z]+)(?: ([0-9A-F]+))?\n")
OCTETS = re.compile(r"(?:[0-9A-F]{2})+")
COUNT = re.compile(NUMBER.decode())
END = re.compile(rb"END " + NUMBER + b" " + NUMBER + rb"\n")
REPLIES = (b"entered\n", b"no verdict\n", b"no number\n", b"already entered\n", b"full\n")


class Finding(NamedTuple):
    """What the judge says of a tape."""
    verdict: str
    place: int
    code: int
    zeros: int

    def line(self):
        return f"{self.verdict} {self.place} {self.code} {self.zeros}"


class Entry(NamedTuple):
    """What a book holds of a tape."""
    number: int
    verdict: str
    place: int
    code: int

    def line(self):
        return f"{self.verdict} {self.place} {self.code}"


def finding(line):
    """The judge's line, or None where it is not one."""
    found = JUDGED.fullmatch(line)
    return found and Finding(found.group(1).decode(), *(int(found.group(k)) for k in (2, 3, 4)))


def due(line, index):
    """What is due at an entry, from the program's line of it: its kind, and its bytes or how many are wanted. None where it is no such
    line of a kind that can be due."""
    found = DUE.fullmatch(line)
    if not found or int(found.group(1)) != index:
        return None
    name, value = found.group(2).decode(), found.group(3) and found.group(3).decode()
    told = kinds.NAMED[name].told if name in kinds.NAMED else None
    if told == kinds.ALONE and value is None:
        return {"kind": name}
    if told == kinds.BYTES and value is not None and OCTETS.fullmatch(value):
        return {"kind": name, "bytes": value}
    if told == kinds.COUNT and value is not None and COUNT.fullmatch(value):
        return {"kind": name, "count": int(value)}
    return None


def entry(line):
    """A line of a book's list without its line feed, or None."""
    found = ENTRY.fullmatch(line)
    if not found:
        return None
    made = Entry(int(found.group(1)), found.group(2).decode(), int(found.group(3)), int(found.group(4)))
    return made if max(made.number, made.place, made.code) <= MOST else None


def numbers(form, line):
    """The numbers of a line that has a form, or None."""
    found = form.fullmatch(line)
    return found and [int(word) for word in found.groups() if word.isdigit()]
