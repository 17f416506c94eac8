"""Logs of a card's exchanges, read line by line. A line that a format does not have is an error with its number, never passed over. What is
kept are commands and answers, and nothing else: not times, names of readers, or words beside the bytes."""
import re
from typing import NamedTuple, Optional

# Bytes with a space between them; words of which nothing is kept.
SPACED, WORDS = "((?:[0-9A-F]{2} )*[0-9A-F]{2})", r"[^\x00-\x1f\x7f]*"


class Exchange(NamedTuple):
    """A command, its answer or None where the log ends behind the command, and the number of the command's line."""
    command: bytes
    answer: Optional[bytes]
    line: int = 0


class NotOfTheFormat(ValueError):
    """A line is none of the format's, or stands where it cannot; or an exchange is none that the format can say."""


class Gathering:
    """The exchanges of a log as its lines come. What a log has before the first exchange and behind the last stands nowhere else."""

    def __init__(self):
        self.exchanges, self.open, self.ended, self.protocol = [], None, False, None

    def head(self):
        if self.exchanges or self.open:
            raise NotOfTheFormat("stands behind an exchange: one log holds one session")

    def tail(self):
        self.ended = True

    def command(self, data, line):
        if self.open or self.ended:
            raise NotOfTheFormat("a command, and the one before it has no answer" if self.open else "a command behind the end")
        self.open = Exchange(data, None, line)

    def answer(self, data):
        if not self.open or len(data) < 2:
            raise NotOfTheFormat("an answer, and no command before it" if not self.open else "an answer without a status")
        self.exchanges.append(self.open._replace(answer=data))
        self.open = None

    def all(self):
        return self.exchanges + ([self.open] if self.open else [])


def spaced(data):
    return " ".join(f"{byte:02X}" for byte in data)


def joined(data):
    return data.hex().upper()


class Format:
    """A format: `forms` are its lines, each a pattern and the method that takes a line of it; the first that fits. `tpdu` says whether its
    commands may be those of T=0."""
    tpdu = False

    def __init__(self):
        self.into = Gathering()

    def read(self, text):
        """The exchanges of a whole log and the protocol that it names, or None."""
        rows = text.split("\n")
        if rows.pop() != "":
            raise NotOfTheFormat(f"line {len(rows) + 1}: the last line is not whole")
        for at, row in enumerate(rows, 1):
            try:
                self.take(row, at)
            except NotOfTheFormat as why:
                raise NotOfTheFormat(f"line {at}: {why}") from None
        self.close(len(rows))
        return self.into.all(), self.into.protocol

    def take(self, row, at):
        for form, method in self.forms:
            found = re.fullmatch(form, row, re.DOTALL)
            if found:
                return getattr(self, method)(at, *found.groups())
        raise NotOfTheFormat("no line of this format" + (": a carriage return stands at its end" if row.endswith("\r") else ""))

    def close(self, count):
        """The log has ended."""

    def head(self, at):
        self.into.head()

    def tail(self, at):
        self.into.tail()

    def protocol(self, at, number):
        self.into.head()
        self.into.protocol = number

    def command(self, at, digits):
        self.into.command(bytes.fromhex(digits), at)

    def answer(self, at, digits):
        self.into.answer(bytes.fromhex(digits))
