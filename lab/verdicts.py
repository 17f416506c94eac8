"""The JSON Lines of bin/judge, read strictly: each line checked in full against its form, or an error with its number."""
import hashlib
import json
import operator
import os
import re
from typing import NamedTuple, Optional

from lab import files, kinds
from lab.numbers import MOST
from lab.reports import MEMBERS
from lab.words import Undone, text

VERDICTS = ("PASS", "FAIL", "INCONCLUSIVE", "UNREADABLE")
CODES = range(1, 10)
LARGEST = 2 ** 64 - 1
SHA256 = re.compile(r"[0-9a-f]{64}")
DIGITS = {"masked": re.compile(r"[0-9A-F*]*"), "whole": re.compile(r"[0-9A-F]*")}
NO_KIND = re.compile(r"kind [0-9]{1,3}")
KINDS = kinds.WORDS
COUNTED = tuple(kind.name for kind in kinds.KINDS if kind.told == kinds.COUNT)
TOLD = ("COMMAND", "DECISION")
IN_ORDER = operator.itemgetter(*MEMBERS[1:])
NEEDED = set(MEMBERS)
KNOWN = NEEDED | {"due", "stood", "pan", "error", "tape_hex"}


class Line(NamedTuple):
    """What one line says. The verdict is one of the four, or ERROR, where place, code and zeros are None. `masked`: the bytes of `due` and
    `stood` show no account number; a line that does not say so may have them whole."""
    name: bytes
    number: Optional[int]
    session: Optional[int]
    size: Optional[int]
    sha256: Optional[str]
    verdict: str
    place: Optional[int]
    code: Optional[int]
    zeros: Optional[int]
    judge: str
    due: Optional[dict]
    stood: Optional[dict]
    masked: bool
    error: Optional[str]


class List(NamedTuple):
    """A whole file of them, its sha256 and its number of bytes."""
    lines: list
    sha256: str
    size: int


class NotOfTheForm(ValueError):
    """A line is none of bin/judge's; the text says why."""


def once(pairs):
    made = dict(pairs)
    if len(made) != len(pairs):
        raise NotOfTheForm("a member stands there twice")
    return made


def no_number(word):
    raise NotOfTheForm(f"{word} is no number")


READER = json.JSONDecoder(object_pairs_hook=once, parse_constant=no_number)


def must(true, why):
    if not true:
        raise NotOfTheForm(why)


def is_number(value, most):
    return type(value) is int and 0 <= value <= most


def name_of(told):
    """The bytes of the tape's name; where they are no UTF-8 they stand in tape_hex, and `tape` is how they are shown."""
    must(type(told["tape"]) is str, "tape is no text")
    if "tape_hex" not in told:
        return told["tape"].encode()
    must(type(told["tape_hex"]) is str and re.fullmatch("(?:[0-9a-f]{2})+", told["tape_hex"]), "tape_hex is not hexadecimal")
    name = bytes.fromhex(told["tape_hex"])
    must(text(name) == told["tape"], "tape and tape_hex are two names")
    return name


def are_bytes(value, pan):
    return type(value) is str and len(value) % 2 == 0 and DIGITS[pan].fullmatch(value)


def check_due(due, pan):
    """What lab_tapes says is due: a kind, with its bytes or with how many are wanted where it tells them."""
    must(type(due) is dict and due.get("kind") in ("NOTHING", *KINDS), "due is no entry")
    if due["kind"] in TOLD:
        must(set(due) == {"kind", "bytes"} and are_bytes(due["bytes"], pan), "due has no bytes")
    elif due["kind"] in COUNTED:
        must(set(due) == {"kind", "count"} and is_number(due["count"], MOST), "due has no count")
    else:
        must(set(due) == {"kind"}, "due has more than a kind")


def check_stood(stood, pan):
    must(type(stood) is dict and set(stood) == {"kind", "bytes"} and type(stood["kind"]) is str, "stood is no entry")
    must(stood["kind"] in KINDS or NO_KIND.fullmatch(stood["kind"]), "stood has no kind")
    must(are_bytes(stood["bytes"], pan), "stood has no bytes")


def check_entries(told):
    """What was due and what stood there, and whether account numbers are masked in their bytes: a line that does not say so has none."""
    pan = told.get("pan", "whole")
    must(type(pan) is str and pan in DIGITS, "pan is neither masked nor whole")
    if "due" in told:
        check_due(told["due"], pan)
    if "stood" in told:
        check_stood(told["stood"], pan)
    must("pan" not in told or any("bytes" in told.get(one, ()) for one in ("due", "stood")), "pan, and no bytes to have one")


def check_finding(told, verdict):
    """Place, code and zeros as the judge's line has them, and beside them what was due and what stood there where it failed or ended."""
    must(is_number(told["place"], LARGEST) and is_number(told["code"], LARGEST) and is_number(told["zeros"], LARGEST),
         "place, code or zeros is no number")
    if verdict == "UNREADABLE":
        must(told["code"] in CODES and told["zeros"] == 0, "an UNREADABLE without its code, or with zeros")
    else:
        must(told["code"] == 0, "a code without UNREADABLE")
    must(("due" in told) == (verdict in ("FAIL", "INCONCLUSIVE")) and ("stood" in told) == (verdict == "FAIL"),
         "what was due or what stood there is missing, or stands where none is told; judge the tapes again into a new list")
    check_entries(told)


def line_of(row):
    """The line that some bytes are, its line feed included."""
    must(row.endswith(b"\n"), "it does not end with a line feed")
    told = READER.decode(row.decode("utf-8"))
    must(type(told) is dict, "it is no object")
    must(told.keys() >= NEEDED, "a member is missing")
    must(told.keys() <= KNOWN, "it has a member that no line has")
    verdict, known = told["verdict"], told["sha256"] is not None
    must(verdict in VERDICTS or verdict == "ERROR", "its verdict is none")
    must(told["number"] is None or is_number(told["number"], MOST), "number is no tape's number")
    must(told["session"] is None or is_number(told["session"], MOST), "session is no session's number")
    must(type(told["judge"]) is str and told["judge"], "it names no judge")
    must((told["bytes"] is not None) == known and (known or verdict == "ERROR"), "bytes or sha256 is missing")
    if known:
        must(is_number(told["bytes"], LARGEST), "bytes is no number")
        must(type(told["sha256"]) is str and SHA256.fullmatch(told["sha256"]), "sha256 is none")
    must(("error" in told) == (verdict == "ERROR"), "ERROR without a word, or a word without ERROR")
    if verdict == "ERROR":
        must(type(told["error"]) is str and told["error"] and not {"due", "stood", "pan"} & set(told), "ERROR with what is no error's")
        must((told["place"], told["code"], told["zeros"]) == (None, None, None), "ERROR with a place, a code or zeros")
    else:
        check_finding(told, verdict)
    return Line(name_of(told), *IN_ORDER(told), told.get("due"), told.get("stood"), told.get("pan") == "masked", told.get("error"))


def read(name):
    """All lines of a file. Any that is not of the form makes the whole file one that says nothing."""
    try:
        descriptor = files.open_file(name)
    except files.Unusable as why:
        raise Undone(f"{text(name)}: {why}") from None
    before, lines, digest, size = files.state(descriptor), [], hashlib.sha256(), 0
    with os.fdopen(descriptor, "rb") as file:
        for count, row in enumerate(file, 1):
            try:
                lines.append(line_of(row))
            except (ValueError, RecursionError) as why:
                said = why if isinstance(why, NotOfTheForm) else "it is no JSON in UTF-8"
                raise Undone(f"{text(name)}: line {count} is not a finding of bin/judge: {said}") from None
            digest.update(row)
            size += len(row)
        if files.state(file.fileno()) != before or size != before[2]:
            raise Undone(f"{text(name)}: has changed while it was read")
    if not lines:
        raise Undone(f"{text(name)}: no line in it, so no tape")
    return List(lines, digest.hexdigest(), size)
