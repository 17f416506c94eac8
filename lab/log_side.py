"""The side file of a log: what no card's log has, in the tape's order. A line each:

    # words            a remark
    LEVEL APDU         the log's commands and answers are whole, as the terminal had them; or
    LEVEL TPDU         they are those of T=0: GET RESPONSE and '6C' stand between, and are put together by exchange_t0
    LE hex             a command that the log has without Le was sent with this one; T=0 does not transmit it, so that TPDU asks for it
    START hex          the terminal's data
    EXCHANGES n        the next n exchanges of the log: each a command and its answer, the last one perhaps without
    HOST hex, RESULTS hex, DECISION hex, SILENCE       entries of the tape that stand there

LEVEL stands first, LE behind it, START before all exchanges. Nothing is added to what stands there: a session without DECISION has none.
"""
import re
from typing import NamedTuple

from lab import kinds
from lab.log_reading import joined
from lab.tapes import Entry

# What a card's log has itself.
OF_THE_CARD = ("COMMAND", "ANSWER")
WORDS = [kind for kind in kinds.WORDS if kind not in OF_THE_CARD]
LINE = re.compile(r"([A-Z]+)(?: ([0-9A-Za-z]+))?")


class NoSide(ValueError):
    """A side file is none, or does not fit its log; the text says why."""


class Side(NamedTuple):
    """What a side file says: the level, Le or None, and items: entries, and numbers of exchanges."""
    level: str
    le: bytes
    items: list


def bytes_in(digits):
    if digits and not re.fullmatch(r"(?:[0-9A-Fa-f]{2})+", digits):
        raise NoSide(f"{digits[:60]}: not bytes in hexadecimal")
    return bytes.fromhex(digits or "")


def item(word, value):
    if word == "EXCHANGES":
        if not value or not re.fullmatch(r"[1-9][0-9]{0,5}", value):
            raise NoSide("EXCHANGES and a number from 1 on")
        return int(value)
    if word not in WORDS or word == "SILENCE" and value:
        raise NoSide(f"{word}: no line of a side file, which has LEVEL, LE, EXCHANGES, {', '.join(WORDS)}")
    return Entry(word, bytes_in(value))


def head(lines):
    """LEVEL, and LE where there is one, taken off."""
    at, word, value = lines.pop(0) if lines else (1, "", None)
    if word != "LEVEL" or value not in ("APDU", "TPDU"):
        raise NoSide(f"line {at}: LEVEL APDU or LEVEL TPDU stands first")
    le = None
    if lines and lines[0][1] == "LE":
        le = bytes_in(lines[0][2])
        if len(le) != 1:
            raise NoSide(f"line {lines[0][0]}: LE is one byte")
        lines.pop(0)
    if value == "TPDU" and le is None:
        raise NoSide(f"line {at}: LEVEL TPDU needs LE behind it, since T=0 does not transmit it")
    return value, le


def read(text):
    rows = text.split("\n")
    if rows.pop() != "":
        raise NoSide(f"line {len(rows) + 1}: the last line is not whole")
    lines = []
    for at, row in enumerate(rows, 1):
        found = LINE.fullmatch(row)
        if not found and not row.startswith("#"):
            raise NoSide(f"line {at}: no line of a side file")
        lines += [(at, *found.groups())] if found else []
    level, le = head(lines)
    items = []
    for at, word, value in lines:
        try:
            items.append(item(word, value))
        except NoSide as why:
            raise NoSide(f"line {at}: {why}") from None
    if not items or not isinstance(items[0], Entry) or items[0].kind != "START":
        raise NoSide("START is missing: it stands behind LEVEL and LE, before all exchanges")
    return Side(level, le, items)


def joined_with(side, exchanges):
    """The entries of a tape: those of the side file, and the log's exchanges where it places them."""
    made, left = [], list(exchanges)
    for one in side.items:
        if isinstance(one, Entry):
            made.append(one)
            continue
        if one > len(left):
            raise NoSide(f"the log has {len(exchanges)} exchanges, and the side file places more")
        for exchange in left[:one]:
            made.append(Entry("COMMAND", exchange.command))
            made += [Entry("ANSWER", exchange.answer)] if exchange.answer is not None else []
        left = left[one:]
    if left:
        raise NoSide(f"the log has {len(exchanges)} exchanges, and the side file places {len(exchanges) - len(left)} of them")
    return made


def apart(entries):
    """The exchanges of a tape's entries, each (command, answer or None), and the side file that places them."""
    exchanges, items = [], []
    for at, entry in enumerate(entries):
        if entry.kind == "ANSWER":
            if not at or entries[at - 1].kind != "COMMAND":
                raise NoSide(f"entry {at}: an answer, and no command before it: no log can say so")
            exchanges[-1] = (exchanges[-1][0], entry.payload)
        elif entry.kind == "COMMAND":
            exchanges.append((entry.payload, None))
            items = items[:-1] + [items[-1] + 1] if items and isinstance(items[-1], int) else items + [1]
        else:
            items.append(entry)
    return exchanges, items


def written(items):
    """A side file; read again it says the same."""
    lines = [f"EXCHANGES {one}" if isinstance(one, int) else f"{one.kind} {joined(one.payload)}".rstrip() for one in items]
    text = "\n".join(["LEVEL APDU", *lines]) + "\n"
    if read(text).items != items:
        raise NoSide("its entries are none that a side file can say")
    return text
