"""bin/campaign: tapes judged, and entered in a folder of books."""
import os
import re
import time

from lab import books, judging, numbers, programs
from lab.words import NOT_ALL, Undone, command, shown, text, voice

USAGE = """
bin/campaign BOOKS [NUMBER=]TAPE ..    judges tapes and enters them in the books of a folder

BOOKS is a folder, made where it is missing: 0001.book, 0002.book and so on, 4,096 entries each, and beside each the sha256 of its tapes
(sha256sum -c BOOKS/0001.sha256). TAPE is a file, a folder (every *.tape below it), or - for names on standard input. The number of a
tape is the one in front of it, or the digits right before .tape at the end of its name (night-000417.tape is 417).

A line a tape: number, what the judge says, what became of it, its name. `entered` is said when the entry is on the disk. `already
entered` is said where the very tape stands in a book under its number: it is not judged again, so after an interruption the same command
goes on. Another tape under that number is judged and said, and not entered. The last line has the four counts of all books.

Example:  bin/campaign night /data/night
Status:   0 every tape is in a book and is PASS; 1 some is not PASS, or another tape has its number; 2 some could not be judged or
          entered, or nothing was asked for
"""
TAPE_LIKE = re.compile(rb"[0-9]+=.*|.*\.tape|-", re.DOTALL)


class Run:
    """One campaign under way."""

    def __init__(self, campaign, count):
        self.campaign, self.count, self.done, self.looked = campaign, count, 0, 0.0

    def known(self, judged):
        """The finding that is there for the very tape, or None."""
        held = self.campaign.entry(judged.number)
        return held[0] if held and held[1] and held[1][0] == judged.sha256 else None

    def take(self, some):
        """What came of some tapes: what is new is entered; each is said in the order asked."""
        new = [one for one in some if not one.error and not one.known and not self.campaign.entry(one.number)]
        entered, fresh = self.campaign.enter(new), {one.number for one in new}
        for one in some:
            self.done += 1
            if one.error:
                voice.fault(shown(one.name), b": ", one.error)
            elif one.known:
                self.say(one, "already entered")
            elif one.number in fresh:
                self.say(next(entered), "entered")
            else:
                self.other(one)
        if time.monotonic() - self.looked > 0.2:
            self.looked = time.monotonic()
            voice.progress(f"{self.done} of {self.count}: ", shown(some[-1].name))

    def say(self, one, became):
        if one.finding.verdict != "PASS":
            voice.worse(NOT_ALL)
        voice.line(f"{one.number} {one.finding.line()}: {became}: ", shown(one.name))

    def other(self, one):
        """A number that a book has of another tape, or of one that is not known."""
        voice.worse(NOT_ALL)
        entry, tape = self.campaign.entry(one.number)
        if tape is None:
            why = f"its number stands in a book with {entry.line()}, and of which tape is not known"
        elif tape[1] == os.path.abspath(one.name):
            why = f"the tape has changed since it was entered with {entry.line()}"
        else:
            why = f"its number stands in a book with {entry.line()}, of another tape: {text(tape[1])}"
        voice.line(f"{one.number} {one.finding.line()}: not entered: ", shown(one.name))
        voice.note(shown(one.name), f": not entered: {why}")


def numbered(rest):
    """Each tape with its number. What has none, or one that others have too, is said and left out before the first is judged."""
    tapes, seen = [], {}
    for word in rest:
        front = numbers.in_front(word)
        names, errors = ([front[1]], []) if front else judging.expanded([word])
        for name, why in errors:
            voice.fault(shown(name), b": ", why)
        for name in names:
            digits = front[0] if front else numbers.in_name(name)
            try:
                if digits is None:
                    raise numbers.NoNumber("no number: no digits stand right before .tape, and none in front as NUMBER=TAPE")
                number = numbers.number(digits)
            except numbers.NoNumber as why:
                voice.fault(shown(name), b": ", digits and f"{digits.decode()[:40]}: " or "", str(why))
                continue
            same = seen.setdefault(number, [])
            if not any(os.path.abspath(other) == os.path.abspath(name) for other in same):
                same.append(name)
                tapes.append((name, number))
    twice = {number for number, names in seen.items() if len(names) > 1}
    for name, number in tapes:
        if number in twice:
            voice.fault(shown(name), f": {number} is the number of another tape that is named here too; neither is judged")
    return [(name, number) for name, number in tapes if number not in twice]


def main(asked):
    if not asked.rest:
        raise Undone("no folder of books is named, and no tape")
    folder, rest = asked.rest[0], asked.rest[1:]
    if TAPE_LIKE.fullmatch(folder) or os.path.isfile(folder):
        raise Undone(f"{text(folder)} is no folder of books: the folder is named first, then the tapes")
    if not rest:
        raise Undone("no tape is named")
    tapes = numbered(rest)
    if not tapes:
        raise Undone("no tape is left to be judged")
    programs.ready(judging.PROGRAM, books.PROGRAM)
    campaign = books.Campaign(folder)
    try:
        campaign.begin()
        run = Run(campaign, len(tapes))
        with judging.Judges(known=run.known) as judges:
            for some in judges.in_order(tapes):
                run.take(some)
        if run.done != len(tapes):
            raise Undone(f"only {run.done} of {len(tapes)} tapes came back")
        try:
            told = campaign.counts()
        except books.Refused as why:
            raise Undone(str(why)) from None
        voice.line("PASS %d FAIL %d INCONCLUSIVE %d UNREADABLE %d TOTAL %d" % tuple(told))
    finally:
        campaign.close()


def start():
    command(USAGE, [judging.PROGRAM, books.PROGRAM], main)
