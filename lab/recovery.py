"""What `recover_tape` says of any bytes: its lines, checked in full, and what they come to."""
import contextlib
import subprocess
import tempfile
from typing import NamedTuple

from lab import findings

PROGRAM = "recover_tape"


class Unread(Exception):
    """The program's list is not whole; the text is what it said on standard error."""


class Ranges:
    """Numbers in the order they come, neighbours drawn together: 0-3, 5."""

    def __init__(self):
        self.pairs = []

    def add(self, first, last):
        if self.pairs and self.pairs[-1][1] + 1 == first:
            self.pairs[-1][1] = last
        else:
            self.pairs.append([first, last])

    def __str__(self):
        return ", ".join(str(a) if a == b else f"{a}-{b}" for a, b in self.pairs)


class Left(NamedTuple):
    """What is left: how many blocks were found in how many steps, the bytes behind them, the steps without one, each session's numbers."""
    found: int
    steps: int
    tail: int
    gaps: Ranges
    sessions: dict

    def whole(self):
        return not self.gaps.pairs and self.tail == 0

    def lines(self):
        told = [f"{self.found} blocks found in {self.steps} steps, {self.tail} bytes after them"]
        if self.gaps.pairs:
            told.append(f"no block found at steps {self.gaps}")
        return told + [f"session {session}: blocks {numbers}" for session, numbers in self.sessions.items()]


def summary(lines):
    """What the lines come to; None where a line has not its form, or they do not end with END."""
    found, step, gaps, sessions, ended = 0, 0, Ranges(), {}, None
    for line in lines:
        block = findings.BLOCK.fullmatch(line)
        if ended is not None or not (block or findings.END.fullmatch(line)):
            return None
        if not block:
            ended = findings.numbers(findings.END, line)
            continue
        at, number, session = (int(block.group(k)) for k in (1, 2, 3))
        if at < step:
            return None
        if step < at:
            gaps.add(step, at - 1)
        found, step = found + 1, at + 1
        sessions.setdefault(session, Ranges()).add(number, number)
    if ended is None or ended[0] < step:
        return None
    if step < ended[0]:
        gaps.add(step, ended[0] - 1)
    return Left(found, ended[0], ended[1], gaps, sessions)


@contextlib.contextmanager
def listed(words, descriptor):
    """The program's lines, in a file to read from the start, and what they come to."""
    with tempfile.TemporaryFile() as lines:
        done = subprocess.run(words, stdin=descriptor, stdout=lines, stderr=subprocess.PIPE, start_new_session=True)
        lines.seek(0)
        told = summary(lines)
        if told is None or done.stderr or done.returncode != 0:
            raise Unread(done.stderr.decode("utf-8", "backslashreplace").strip())
        lines.seek(0)
        yield lines, told
