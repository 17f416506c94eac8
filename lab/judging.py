"""Many tapes judged: as many `lab_tapes` as there are processors, and their answers in the order asked."""
import collections
import concurrent.futures
import itertools
import os
import queue
from typing import NamedTuple, Optional

from lab import files, findings, numbers, programs
from lab.words import Undone

PROGRAM = "lab_tapes"
# Tapes that are handed out together, and how many of these may be under way for each program.
TOGETHER, AHEAD = 16, 4


class Judged(NamedTuple):
    """What came of a tape: a finding, or why there is none. `masked`: what was due and what stood there show no account number."""
    name: bytes
    number: Optional[int] = None
    session: Optional[int] = None
    size: Optional[int] = None
    sha256: Optional[str] = None
    finding: Optional[findings.Finding] = None
    error: Optional[str] = None
    known: bool = False
    due: Optional[dict] = None
    stood: Optional[dict] = None
    masked: bool = False


class Judge:
    """One `lab_tapes` with a place for the tape at hand."""

    def __init__(self, words, with_due=False, then=None, plain=False):
        """`then` is handed the judge and each tape that has its verdict, while the judge holds it, and says what is made of it. `plain`: by the
        plain judge and not by the quick one; what was due is always said by the plain one, which judges the tape once more."""
        self.words, self.copy, self.talk, self.with_due, self.told = words, files.Copy(), None, with_due, []
        self.then, self.word = then, b"PLAIN " if plain else b"JUDGE "

    def judge(self, name, number, known):
        """`known` is asked, with name, number and sha256, whether the finding is there already."""
        try:
            size, sha256, head, place = self.copy.take(name)
        except files.Unusable as why:
            return Judged(name, number, error=str(why))
        except OSError as error:
            return Judged(name, number, error="cannot be copied: " + (error.strerror or str(error)))
        session = int.from_bytes(head[4:8], "big") if len(head) == 512 else None
        have = Judged(name, number, session, size, sha256)
        old = known and known(have)
        if old:
            return have._replace(finding=old, known=True)
        try:
            judged = self.answered(have, place)
        except programs.Ended as why:
            self.talk = None
            return have._replace(error=f"no verdict: {PROGRAM} ended without an answer ({why})")
        return self.then(self, judged) if self.then and not judged.error else judged

    def answered(self, have, place):
        if self.talk is None:
            self.talk = programs.Talk(self.words)
        answer = self.talk.ask(self.word + place + b"\n")
        end = b" " + place + b"\n"
        if answer.startswith(b"ERROR ") or not answer.endswith(end):
            return have._replace(error="no verdict: " + answer.decode("utf-8", "backslashreplace").strip())
        found = findings.finding(answer[:-len(end)] + b"\n")
        if found is None:
            return have._replace(error="no verdict: not a line of the judge's")
        session = None if found.verdict == "UNREADABLE" else have.session
        have = have._replace(finding=found, session=session)
        return self.followed(have, place, answer) if self.with_due and found.verdict in ("FAIL", "INCONCLUSIVE") else have

    def followed(self, have, place, verdict):
        """The same with what was due where the tape fails or ends, and what stood there; behind a closing silence, what it was the silence of.
        The program judges the tape once more; where it does not say the same, there is no finding."""
        line, told = self.talk.ask(b"DUE " + place + b"\n"), []
        while line.startswith(b"DUE "):
            told.append(findings.due(line, len(told)))
            line = self.talk.more()
        if line != verdict or None in told or len(told) != have.finding.place + 1:
            return have._replace(finding=None, error="no verdict: what was due was not told as the verdict is")
        self.told = told
        if have.finding.verdict == "FAIL":
            return have._replace(due=told[-1], stood=self.copy.entry(have.finding.place))
        return have._replace(due=told[-2] if told[-1]["kind"] == "NOTHING" else told[-1])

    def close(self):
        if self.talk is not None:
            self.talk.close()
        self.copy.close()


class Judges:
    """Judges side by side."""

    def __init__(self, jobs=None, known=None, with_due=False, then=None, plain=False):
        [words] = programs.ready(PROGRAM)
        self.count = jobs or os.cpu_count() or 1
        self.known = known
        self.free = queue.SimpleQueue()
        self.all = [Judge(words, with_due, then, plain) for _ in range(self.count)]
        for judge in self.all:
            self.free.put(judge)
        self.threads = concurrent.futures.ThreadPoolExecutor(self.count)

    def some(self, asked):
        judge = self.free.get()
        try:
            return [judge.judge(name, number, self.known) for name, number in asked]
        finally:
            self.free.put(judge)

    def in_order(self, asked):
        """What came of each (name, number), in lists, in the order asked."""
        asked, under_way = iter(asked), collections.deque()

        def hand_out():
            together = list(itertools.islice(asked, TOGETHER))
            if together:
                under_way.append(self.threads.submit(self.some, together))

        for _ in range(self.count * AHEAD):
            hand_out()
        try:
            while under_way:
                judged = under_way.popleft().result()
                hand_out()
                yield judged
        finally:
            for future in under_way:
                future.cancel()

    def close(self):
        self.threads.shutdown(wait=True, cancel_futures=True)
        for judge in self.all:
            judge.close()

    def __enter__(self):
        return self

    def __exit__(self, *why):
        self.close()


def expanded(words):
    """The names that words stand for: files as they are, the tapes below folders, `-` for names on standard input. With each folder that
    holds no tape, and what cannot be looked into, as an error."""
    names, errors = [], []
    for word in words:
        if word == b"-":
            try:
                listed = files.names_in(files.read_input())
            except OSError as error:
                raise Undone("standard input: " + error.strerror) from None
            if not listed:
                errors.append((b"-", "no names on standard input"))
            inner, missed = expanded([b"./-" if name == b"-" else name for name in listed])
            names += inner
            errors += missed
        elif os.path.isdir(word):
            found, missed = files.below(word)
            errors += [(os.fsencode(error.filename), "cannot be looked into: " + error.strerror) for error in missed]
            if not found and not missed:
                errors.append((word, "no tapes in this folder"))
            names += found
        else:
            names.append(word)
    return names, errors


def with_numbers(names):
    return [(name, numbers.number_in_name(name)) for name in names]
