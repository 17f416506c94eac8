"""The tapes that a report opens, explained from their own bytes by the lines of bin/explain; or why not.

A tape is explained where the file that its line names is there, has the sha256 of the line and is judged as the line says. One that has
changed since, or is judged otherwise, is said and not explained: the line stands, and what would be shown would not be of its bytes.
"""
import html
import itertools
import os
from typing import NamedTuple

from lab import files, judging, programs, recovery, report_tapes
from lab.explaining import layout
from lab.explaining.explained import explain
from lab.words import Undone

# So many tapes are explained, in so many bytes of the report; a longer file is left to bin/explain. Entries before the place: as there.
MOST, ROOM, LONGEST, LAST = 500, 600_000, 1 << 20, 2
# Why a tape is not explained: all but the first leave something undone.
GONE, CHANGED, OTHERWISE, UNABLE = "gone", "changed", "otherwise", "unable"


class Told(NamedTuple):
    """What came of a tape: its lines, each with whether it is to be marked; or what kind of reason there is for none, in words."""
    lines: list = []
    kind: str = ""
    why: str = ""


class NotTold(Exception):
    """A tape is not explained."""

    def __init__(self, kind, why):
        super().__init__(kind, why)
        self.told = Told(kind=kind, why=why)


def key(tape):
    return tape.name, tape.sha256


def in_turn(opened):
    """The tapes that are listed: the first of each group, then the second of each, and so on."""
    lists = [tapes for groups in opened.values() for _, tapes in groups]
    return (tape for some in itertools.zip_longest(*lists) for tape in some if tape is not None)


def look(tape):
    """Whether the file can be the tape, before it is read."""
    try:
        descriptor = files.open_file(tape.name)
    except files.Unusable as why:
        raise NotTold(UNABLE if os.path.lexists(tape.name) else GONE, f"the file {why}") from None
    size = os.fstat(descriptor).st_size
    os.close(descriptor)
    if size != tape.size:
        raise NotTold(CHANGED, f"the file has {size:,} bytes now, and had {tape.size:,} when it was judged")
    if size > LONGEST:
        raise NotTold(UNABLE, f"a file of {size:,} bytes is left to bin/explain")


class Explainer:
    """The programs, started when the first tape needs them, and what came of each tape."""

    def __init__(self):
        self.told, self.done, self.room = {}, 0, ROOM
        self.judge, self.recover, self.fault = None, None, None

    def ready(self):
        if self.judge is None and self.fault is None:
            try:
                words, self.recover = programs.ready(judging.PROGRAM, recovery.PROGRAM)
                self.judge = judging.Judge(words, with_due=True)
            except Undone as why:
                self.fault = str(why)
        if self.fault is not None:
            raise NotTold(UNABLE, self.fault)

    def lines(self, tape):
        look(tape)
        self.ready()
        judged = self.judge.judge(tape.name, None, None)
        if judged.sha256 is not None and judged.sha256 != tape.sha256:
            raise NotTold(CHANGED, f"the file has other bytes now than were judged: sha256 {judged.sha256}")
        if judged.error:
            raise NotTold(UNABLE, judged.error)
        if judged.finding != report_tapes.finding(tape):
            raise NotTold(OTHERWISE, f"the same bytes are judged otherwise here: {judged.finding.line()}")
        try:
            found = explain(self.judge, judged, self.recover, LAST, show=False)
            return [(line, style == "wrong") for line, style in layout.body_lines(judged.finding, found)]
        except Exception as error:
            # Its own words may hold bytes of the tape.
            raise NotTold(UNABLE, f"could not be explained: {type(error).__name__}") from None

    def take(self, tape):
        try:
            told = Told(self.lines(tape))
        except NotTold as why:
            told = why.told
        self.told[key(tape)] = told
        self.done += not told.kind
        self.room -= sum(len(html.escape(line).encode()) + 1 for line, _ in told.lines)

    def has_room(self):
        return self.room > 0 and self.done < MOST

    def count(self, kind):
        return sum(told.kind == kind for told in self.told.values())

    def of(self, kind):
        """The names of the tapes that have come to a kind of reason, each with its words."""
        return [(name, told.why) for (name, _), told in self.told.items() if told.kind == kind]

    def undone(self):
        """What is said on standard error, and makes a report one in which something was not done."""
        said = ((CHANGED, "changed since judged"), (OTHERWISE, "judged otherwise now"), (UNABLE, "that could not be explained"))
        return ", ".join(f"{self.count(kind)} {words}" for kind, words in said if self.count(kind))

    def close(self):
        if self.judge is not None:
            self.judge.close()


def explained(opened):
    """What came of the tapes that a report lists, as many as have room."""
    made = Explainer()
    try:
        for tape in in_turn(opened):
            if not made.has_room():
                break
            made.take(tape)
    finally:
        made.close()
    return made


def by_whom(made):
    """For the foot of a report."""
    if made is None:
        return ["no tape was opened (--list-only)"]
    if made.judge is None:
        return ["no tape"]
    return [f"{made.done:,} tapes, each from the bytes with the sha256 of its line, by {programs.judge_version(judging.PROGRAM)}",
            layout.DISPLAY]
