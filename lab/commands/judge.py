"""bin/judge: the verdict of each tape."""
import os
import sys
import time

from lab import judging, numbers, programs, reports
from lab.explaining.explained import masked
from lab.words import NOT_ALL, UNDONE, Undone, command, shown, voice

USAGE = """
bin/judge [--jsonl FILE [--show-pan]] [--junit FILE] [--jobs N] [--plain] NAME ..    judges tapes
bin/judge [..] --samples    judges the bundled samples; so does bin/judge alone

NAME is a file, a folder (every *.tape below it), or - for names on standard input, a line each or with a zero byte behind each.
A line a tape, in the order asked: name, verdict, place, code, and how many list entries were filled with zeros. The place is the number
of entries for PASS and INCONCLUSIVE, the entry that cannot be for FAIL, the block for UNREADABLE. Where a name holds a line feed or a
backslash, the line begins with a backslash and they stand as \\n and \\\\.

--jsonl FILE  a JSON object a line: tape, number, session, bytes, sha256, verdict, place, code, zeros, judge; of a FAIL what was due at its
              place (due) and what stood there (stood), of an INCONCLUSIVE what was waited for (due). Where FILE is there it is gone on
              with: a tape that stands in it with the same sha256 by the same judge is not judged again. Digits of account numbers are
              stars in the bytes of due and stood, as bin/explain shows them, and pan says so
--show-pan    .. account numbers whole: for a list that stays where the tapes are
--junit FILE  a report for build servers: FAIL is a failure, anything else that is not PASS an error
--jobs N      so many judges side by side; as many as processors if not said
--plain       by the plain judge, a block at a time, and not by the quick one; both promise the same. In a list of --jsonl the judge is then
              another one

Example:  bin/judge --jsonl night.jsonl /data/night
Status:   0 every tape is PASS; 1 some tape is not; 2 some tape could not be judged, or something could not be written, or nothing was
          asked for
"""


def samples():
    folder = os.fsencode(os.path.join(programs.ROOT, "samples"))
    return [os.path.join(folder, name) for name in sorted(os.listdir(folder)) if name.endswith(b".tape")]


def names_asked(asked):
    if asked.get("--samples"):
        if asked.rest:
            raise Undone("--samples and names do not go together")
        return samples()
    if not asked.rest:
        if len(sys.argv) > 1:
            raise Undone("no tape is named (--samples judges the bundled samples)")
        voice.note("no tape is named: these are the bundled samples")
        return samples()
    names, errors = judging.expanded(asked.rest)
    for name, why in errors:
        voice.fault(shown(name), b": ", why)
    return names


def jobs_asked(asked):
    try:
        jobs = numbers.number(asked.get("--jobs", b"0"), 256)
    except numbers.NoNumber as why:
        raise Undone(f"--jobs: {why}") from None
    if "--jobs" in asked.options and jobs == 0:
        raise Undone("--jobs: at least one")
    return jobs or None


class Run:
    """The tapes of one command, as their findings come."""

    def __init__(self, count, lines, junit):
        self.count, self.lines, self.junit = count, lines, junit
        self.done = self.other = 0
        self.looked = 0.0

    def take(self, judged):
        self.done += 1
        if judged.error:
            self.other += 1
            voice.fault(shown(judged.name), b": ", judged.error)
        else:
            if judged.finding.verdict != "PASS":
                self.other += 1
                voice.worse(NOT_ALL)
            voice.line(reports.line(judged))
        if self.lines:
            self.lines.add(judged)
        if self.junit:
            self.junit.add(judged)
        if time.monotonic() - self.looked > 0.2:
            self.looked = time.monotonic()
            voice.progress(f"{self.done} of {self.count}, {self.other} not PASS")


def main(asked):
    jobs, names = jobs_asked(asked), names_asked(asked)
    if not names:
        return voice.worse(UNDONE)
    if asked.get("--show-pan") and not asked.get("--jsonl"):
        raise Undone("--show-pan is for --jsonl: the lines here have no bytes of a tape")
    programs.ready(judging.PROGRAM)
    lines = junit = None
    plain = bool(asked.get("--plain"))
    if asked.get("--jsonl"):
        lines = reports.JsonLines(asked.get("--jsonl"), programs.judge_version(judging.PROGRAM) + " plain" * plain)
    if asked.get("--junit"):
        junit = reports.JUnit(asked.get("--junit"))
    run = Run(len(names), lines, junit)
    then = masked if lines and not asked.get("--show-pan") else None
    with judging.Judges(jobs, lines and lines.finding, with_due=lines is not None, then=then, plain=plain) as judges:
        for some in judges.in_order(judging.with_numbers(names)):
            for judged in some:
                run.take(judged)
    if run.done != len(names):
        raise Undone(f"only {run.done} of {len(names)} tapes came back")
    if lines:
        lines.close()
    if junit:
        junit.close()
    voice.clear()


def start():
    command(USAGE, [judging.PROGRAM], main, flags=("--samples", "--show-pan", "--plain"), valued=("--jsonl", "--junit", "--jobs"))
