"""bin/play: the kernel over standard input and output, with a tape."""
import os

from lab import numbers, programs
from lab.words import Undone, command, text

USAGE = """
bin/play [[--over] TAPE [SESSION]]    the kernel, a line each way: START, ANSWER, SILENCE, HOST and RESULTS in, what is due out

TAPE is a file for the tape, SESSION its number (0 if not said). A file that is there is refused, unless --over says that it may be
written over. A block is on the disk before the line that it belongs to is said.

In, with bytes in hexadecimal; each is answered with one line before the next is read:
    START bytes     the terminal's data, as bin/start makes it
    ANSWER bytes    the card's answer, its status bytes included
    SILENCE         the card gave none
    HOST bytes      the issuer's word
    RESULTS bytes   of cardholder verification, a byte for each rule of the card's list
Out:
    COMMAND bytes   for the card
    HOST            the issuer's word is due
    RESULTS n       so many results are due
    DECISION bytes  outcome, reason, TVR and TSI
    CLOSED          the session is over without one
    REFUSED n       by number n of 01's table; nothing has changed
    ERROR words     what is wrong with the line

Example:  bin/play /tmp/session.tape 7 < samples/online-pin.script
Status:   2 where it could not be started; else 0, which says nothing: where a line or a block cannot be written, the program says so on
          standard error and stops before the line
"""


def main(asked):
    if len(asked.rest) > 2:
        raise Undone("a tape and a session number, no more")
    if asked.get("--over") and not asked.rest:
        raise Undone("--over needs the name of a tape")
    words = []
    if asked.rest:
        tape = asked.rest[0]
        if os.path.lexists(tape) and not asked.get("--over"):
            raise Undone(f"{text(tape)}: is there already; --over writes over it")
        words = [b"--over"] if asked.get("--over") else []
        words.append(b"./" + tape if tape.startswith(b"-") else tape)
        try:
            words += [b"%d" % numbers.number(digits) for digits in asked.rest[1:]]
        except numbers.NoNumber as why:
            raise Undone(f"session number: {why}") from None
    [program] = programs.ready("play")
    os.execv(program[0], program + words)


def start():
    command(USAGE, ["play"], main, flags=("--over",))
