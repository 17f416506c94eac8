"""A session played: the kernel asks, the card, the issuer and the attendant answer. The kernel is `play`, with its tape."""
import re

from lab import programs
from lab.exchange import Silence
from lab.words import Undone

COMMAND = re.compile(rb"COMMAND ((?:[0-9A-F]{2})+)\n")
ENDED = re.compile(rb"DECISION (?:[0-9A-F]{2}){9}\n|CLOSED\n")
REFUSED = re.compile(rb"REFUSED ([0-9]+)\n")
HANDED = re.compile(rb"ANSWER (?:[0-9A-F]{2})+\n|SILENCE\n")
# Whose word the kernel asks for: how its line begins, and the option that has the word's bytes. None is ever made up.
WORDS = (
    (re.compile(rb"HOST\n"), "HOST", "--host"),
    (re.compile(rb"RESULTS [0-9]+\n"), "RESULTS", "--results"),
)


class Stopped(Exception):
    """The session cannot go on, and its tape ends here; the text says why."""


def begins(start):
    """Whether the kernel takes these bytes for START; it is asked without a tape."""
    [words] = programs.ready("play")
    said, errors, _ = programs.said(words, b"START " + start.hex().upper().encode() + b"\n")
    if errors or not (COMMAND.fullmatch(said) or REFUSED.fullmatch(said)):
        raise Undone("the kernel could not be asked" + (f": {errors}" if errors else ""))
    return said


class Session:
    """`play` with a tape, and `hand_answer` between it and the card."""

    def __init__(self, tape, number, protocol, given):
        play, hand = programs.ready("play", "hand_answer")
        self.play = programs.Talk([*play, tape, b"%d" % number])
        self.hand = programs.Talk(hand)
        self.protocol, self.given, self.silence = protocol, given, None

    def run(self, start):
        """From START to the kernel's last line."""
        said = self.play.ask(b"START " + start.hex().upper().encode() + b"\n")
        while not ENDED.fullmatch(said):
            said = self.play.ask(self.word_for(said))
        return said

    def word_for(self, said):
        """What the kernel is told to what it has said."""
        found = COMMAND.fullmatch(said)
        if found:
            return self.answer_to(bytes.fromhex(found.group(1).decode()))
        for form, word, option in WORDS:
            if form.fullmatch(said):
                if option not in self.given:
                    raise Stopped(f"the kernel asks for {said.decode().strip()}, and {option} was not given")
                return f"{word} {self.given[option].hex().upper()}".strip().encode() + b"\n"
        if REFUSED.fullmatch(said):
            raise Stopped(f"the kernel turned the word away: {said.decode().strip()}")
        raise Undone("play said what is none of its lines: " + said.decode("utf-8", "backslashreplace").strip())

    def answer_to(self, command):
        try:
            line = self.protocol.answered(command)
        except Silence as why:
            self.silence, line = str(why), b"END SILENCE\n"
        handed = self.hand.ask(line)
        if not HANDED.fullmatch(handed):
            raise Undone("hand_answer said what is none of its lines: " + handed.decode("utf-8", "backslashreplace").strip())
        return handed

    def close(self):
        for talk in (self.play, self.hand):
            talk.close()
