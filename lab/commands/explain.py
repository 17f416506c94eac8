"""bin/explain: tapes in words."""
import json
import os

from lab import judging, numbers, programs, recovery
from lab.explaining import layout, records
from lab.explaining.explained import explain
from lab.words import NOT_ALL, Undone, command, printable, voice

USAGE = """
bin/explain [--last N] [--json] [--show-pan] NAME ..    tapes in words: what was due, what stood there, what is waited for

NAME is a file, a folder (every *.tape below it), or - for names on standard input, a line each or with a zero byte behind each.
FAIL: what was due at its place and what stood there, marks under the bytes that differ, each difference by name, and its sentence of 01 or
02. INCONCLUSIVE: what was waited for and of whom. UNREADABLE: the test that fails, what is there and what would be right, and what is left.
PASS: the session in words. Verdict, place, code, zeros and what was due are the proved programs' words, of the very bytes with the sha256
that is shown. All other words are display over those bytes; so are the lines `because`, which stand only where they lead to exactly what
was due. Where they do not, the bytes are shown and it is said.

--last N      so many entries before the place, or at the end; 0 is all of them, 2 if not said
--json        a JSON object a line and tape
--show-pan    account numbers whole. Without it the first six and the last four digits are shown, and nothing of names and tracks
Colours are used on a terminal, and not where NO_COLOR is set.

Fields of --json:
{}

Example:  bin/explain samples/floor-limit-not-seen.tape
Status:   0 every tape is explained and PASS; 1 some is not PASS; 2 some could not be judged or explained, or nothing was asked for
"""
LAST = 2


def last_asked(asked):
    try:
        return numbers.number(asked.get("--last", b"%d" % LAST))
    except numbers.NoNumber as why:
        raise Undone(f"--last: {why}") from None


def in_colour():
    """On a terminal that knows colours, and where nobody said that there be none."""
    return os.isatty(1) and not os.environ.get("NO_COLOR") and os.environ.get("TERM") != "dumb"


class Run:
    """The tapes of one command."""

    def __init__(self, asked):
        self.last, self.json, self.show = last_asked(asked), asked.get("--json"), bool(asked.get("--show-pan"))
        judge, self.recover = programs.ready(judging.PROGRAM, recovery.PROGRAM)
        self.judge, self.version = judging.Judge(judge, with_due=True), programs.judge_version(judging.PROGRAM)
        self.colour, self.first = in_colour(), True

    def take(self, name):
        judged = self.judge.judge(name, None, None)
        if judged.error:
            return voice.fault(printable(name), ": ", judged.error)
        try:
            found = explain(self.judge, judged, self.recover, self.last, self.show)
            said = self.said(judged, found)
        except Exception as error:
            return voice.fault(printable(name), f": {judged.finding.line()}, and could not be explained: {type(error).__name__}: {error}")
        if judged.finding.verdict != "PASS":
            voice.worse(NOT_ALL)
        voice.line(said)

    def said(self, judged, found):
        if self.json:
            return json.dumps(records.record(judged, found, self.version), separators=(",", ":"))
        between, self.first = "" if self.first else "\n", False
        return between + layout.painted(layout.text_lines(printable(judged.name), judged, found), self.colour)


def main(asked):
    if not asked.rest:
        raise Undone("no tape is named")
    names, errors = judging.expanded(asked.rest)
    for name, why in errors:
        voice.fault(printable(name), ": ", why)
    if not names:
        return
    run = Run(asked)
    try:
        for name in names:
            run.take(name)
    finally:
        run.judge.close()


def start():
    usage = USAGE.format("\n".join("  " + line for line in records.FIELDS.strip().splitlines()))
    command(usage, [judging.PROGRAM, recovery.PROGRAM], main, flags=("--json", "--show-pan"), valued=("--last",))
