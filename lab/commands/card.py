"""bin/card: a session with a card in a reader."""
import contextlib
import json
import os
import re
import time

from lab import exchange, files, judging, numbers, pcsc, programs, readers, reports, sessions
from lab.words import NOT_ALL, Interrupted, Undone, command, text, voice

USAGE = """
bin/card --reader TEXT --start FILE [--host HEX] [--results HEX] [--wait SECONDS] [--within SECONDS] [--over] TAPE SESSION

Plays a session with the card in a reader: waits for the card, resets it, reads its answer to reset, has the kernel play, records, and has
the tape judged. The line is that of bin/judge. Beside the tape TAPE.json says reader, answer to reset, protocol, times, why there was
silence, and the sha256. What is there is not touched without --over.

--reader TEXT     the reader's name, or a part that no other reader's name has
--start FILE      a line START HEX, as bin/start makes it
--host HEX        the issuer's reply, where the kernel asks for one; --results HEX the results of cardholder verification. Where a word is
                  asked for that was not given, the session stops there
--wait SECONDS    for the card; 60 if not said
--within SECONDS  for each answer; 30 if not said

Silence is: no answer in time, an error of the reader, a card pulled or reset, a refusal of the T=0 layer, and an answer of fewer than two
bytes. It closes the session without a decision, and the tape is INCONCLUSIVE. Needed: pcscd, and its library libpcsclite.so.1.

Example:  bin/start amount=125.00 > start.txt; bin/card --reader ACS --start start.txt --host 013030 session-7.tape 7
Status:   0 the tape is PASS; 1 it is not; 2 no session, or it stopped for want of a word, or something could not be written; 3 the answer
          to reset is refused, and there is no session
"""
PROGRAMS = ("play", "hand_answer", "exchange_t0", "read_atr", judging.PROGRAM)
# Above the statuses of every command: the card was there, and no session may begin with it.
NOT_ACCEPTED = 3
START = re.compile(rb"START ((?:[0-9A-Fa-f]{2})+)\n?")
OCTETS = re.compile(rb"(?:[0-9A-Fa-f]{2})*")
MOST_SECONDS = 86400


class Wanted:
    """What was asked for, all of it read before anything is touched."""

    def __init__(self, asked):
        if len(asked.rest) != 2:
            raise Undone("a tape and a session number (--help)")
        for option in ("--reader", "--start"):
            if not asked.get(option):
                raise Undone(f"{option} is missing (--help)")
        self.tape, self.over = asked.rest[0], bool(asked.get("--over"))
        self.session = self.number("session number", asked.rest[1], numbers.MOST)
        self.reader = asked.get("--reader")
        self.wait = self.number("--wait", asked.get("--wait", b"60"), MOST_SECONDS)
        self.within = self.number("--within", asked.get("--within", b"30"), MOST_SECONDS)
        self.given = {option: self.octets(option, asked.get(option)) for _, _, option in sessions.WORDS if option in asked.options}
        self.start = self.start_in(asked.get("--start"))
        self.files = (self.tape, self.tape + b".json")
        for name in self.files:
            if os.path.lexists(name) and not self.over:
                raise Undone(f"{text(name)}: is there already; --over writes over it")
            if os.path.lexists(name) and (os.path.islink(name) or not os.path.isfile(name)):
                raise Undone(f"{text(name)}: is there, and is no file that could be written over")

    def clear(self):
        """Takes away what may be written over: an old tape must not be judged for a new one, nor an old story stand beside it."""
        for name in self.files:
            with contextlib.suppress(FileNotFoundError):
                os.unlink(name)

    @staticmethod
    def number(what, digits, most):
        try:
            return numbers.number(digits, most)
        except numbers.NoNumber as why:
            raise Undone(f"{what}: {why}") from None

    @staticmethod
    def octets(option, digits):
        if not OCTETS.fullmatch(digits):
            raise Undone(f"{option}: not whole bytes in hexadecimal")
        return bytes.fromhex(digits.decode())

    @staticmethod
    def start_in(name):
        with open(name, "rb") as file:
            found = START.fullmatch(file.read(2000))
        if not found:
            raise Undone(f"{text(name)}: not one line START HEX, as bin/start makes it")
        return bytes.fromhex(found.group(1).decode())


class Story:
    """What became of a session, for TAPE.json."""

    def __init__(self, here):
        self.facts = {"reader": text(here.reader), "atr": here.atr.hex().upper(), "read_atr": here.told, "protocol": here.protocol.decode(),
                      "began": self.now(), "ended": None, "last": None, "silence": None, "stopped": None}

    @staticmethod
    def now():
        return time.strftime("%Y-%m-%dT%H:%M:%SZ", time.gmtime())

    def ended(self, **facts):
        self.facts.update(facts, ended=self.now())

    def decided(self):
        return (self.facts["last"] or "").startswith("DECISION ")


def played(wanted, here, story):
    """The session itself. Whatever stops it, what is on the tape stays there and is judged."""
    reader = exchange.Reader(here.card, wanted.within)
    protocol = exchange.PROTOCOLS[here.protocol][1](reader)
    tape = b"./" + wanted.tape if wanted.tape.startswith(b"-") else wanted.tape
    session = sessions.Session(tape, wanted.session, protocol, wanted.given)
    last = stopped = None
    try:
        last = session.run(wanted.start).decode().strip()
    except (sessions.Stopped, Undone) as why:
        stopped = str(why)
    except programs.Ended as why:
        stopped = f"a program ended before its time: {why}"
    except Interrupted:
        stopped = "interrupted"
    for talking in (session, protocol):
        talking.close()
    story.ended(last=last, stopped=stopped, silence=session.silence)
    if not reader.under_way:
        with contextlib.suppress(pcsc.Fault, pcsc.Hung):
            pcsc.within(readers.RESETTING, here.card.close)


def judged(wanted, story):
    """The tape's finding, TAPE.json, and the line. A PASS where the kernel did not decide is none: then something is wrong with us."""
    with judging.Judges(1) as judges:
        [[found]] = judges.in_order([(wanted.tape, numbers.number_in_name(wanted.tape))])
    kernel = programs.judge_version("play")
    record = dict(reports.record(found, programs.judge_version(judging.PROGRAM)), kernel=kernel, **story.facts)
    files.write_new(wanted.tape + b".json", json.dumps(record, indent=1).encode() + b"\n")
    if found.error:
        raise Undone(f"{text(wanted.tape)}: {found.error}")
    if found.finding.verdict == "PASS" and not story.decided():
        raise Undone(f"{text(wanted.tape)}: PASS, and the kernel gave no decision: this tape is not that of the session")
    voice.line(reports.line(found))
    if found.finding.verdict != "PASS":
        voice.worse(NOT_ALL)


def main(asked):
    wanted = Wanted(asked)
    programs.ready(*PROGRAMS)
    said = sessions.begins(wanted.start)
    if not said.startswith(b"COMMAND"):
        raise Undone(f"the kernel does not take this START: {said.decode().strip()}")
    known = readers.service()
    try:
        here = readers.opened(known, wanted.reader, wanted.wait)
    except readers.NotAccepted as why:
        voice.worse(NOT_ACCEPTED)
        return voice.note(f"no session: the answer to reset is refused: {why}")
    story = Story(here)
    if wanted.over:
        wanted.clear()
    played(wanted, here, story)
    if story.facts["silence"]:
        voice.note(f"silence: {story.facts['silence']}")
    if story.facts["stopped"]:
        voice.fault(f"the session stopped: {story.facts['stopped']}")
    if os.path.exists(wanted.tape):
        judged(wanted, story)


def start():
    command(USAGE, PROGRAMS, main, flags=("--over",), valued=("--reader", "--start", "--wait", "--within",
                                                            *(option for _, _, option in sessions.WORDS)))
