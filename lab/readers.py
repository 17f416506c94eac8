"""From the name of a reader to a card that was reset: which reader, a card in it, its answer to reset and what `read_atr` says of that."""
import re
import time
from typing import NamedTuple

from lab import exchange, pcsc, programs
from lab.words import Undone, text, voice

ACCEPTED = re.compile(rb"ACCEPTED (?:direct|inverse) (T=[01]) (?:specific|negotiable)(?: [A-Za-z]+=[0-9]+)+"
                      rb" historical=[0-9]+\.\.[0-9]+:(?:-|(?:[0-9A-F]{2})+)(?: data=(?:-|(?:[0-9A-F]{2})+))?\n")
REFUSED = re.compile(rb"REFUSED(?: [A-Z0-9-]+@[0-9]+)+\n")
# How long one look at a reader takes at most: an interrupt is heard between two.
LOOK = 400
# Seconds for the calls that reset a card.
RESETTING = 20
INVERSE = 0x3F


class NotAccepted(Exception):
    """The answer to reset breaks rules of R-1; the text is the program's line."""


class Here(NamedTuple):
    """A card that was reset."""
    reader: bytes
    card: pcsc.Card
    atr: bytes
    protocol: bytes
    told: str


def service():
    try:
        return pcsc.Service()
    except OSError as why:
        raise Undone(f"no PC/SC library here ({pcsc.LIBRARY}; Debian: libpcsclite1): {why}") from None
    except pcsc.Fault as fault:
        raise Undone(f"no PC/SC service here (pcscd is not running, or may not be used): {fault}") from None


def chosen(names, wanted):
    """The reader whose name is, or else the only one whose name holds, what was asked for."""
    if not names:
        raise Undone("no reader: the PC/SC service knows of none")
    fit = [name for name in names if name == wanted] or [name for name in names if wanted in name]
    if len(fit) != 1:
        found = "no reader" if not fit else f"{len(fit)} readers"
        raise Undone(f"{found} with {text(wanted)!r} in the name; there are: " + ", ".join(text(name) for name in names))
    return fit[0]


def wait_for_card(known, reader, seconds):
    """The answer to reset of the card in the reader, once there is one."""
    ends, state, said = time.monotonic() + seconds, 0, False
    while True:
        left = ends - time.monotonic()
        state, atr = known.look(reader, state, int(max(0, min(LOOK, 1000 * left))))
        if state & pcsc.PRESENT and atr:
            return atr
        if state & pcsc.MUTE or state & pcsc.PRESENT and left <= 0:
            raise Undone(f"{text(reader)}: the card is mute, it gives no answer to reset")
        if left <= 0:
            raise Undone(f"{text(reader)}: no card within {seconds} s")
        if not said:
            voice.note(f"waiting for a card in {text(reader)}")
            said = True


def line_bytes(atr):
    """An answer to reset as `read_atr` takes it. A reader hands over data bytes; under the inverse convention the program wants those of
    the line, each with its bits in opposite order and all complemented (R-1)."""
    if atr[0] != INVERSE:
        return atr
    return bytes(int(f"{byte:08b}"[::-1], 2) ^ 0xFF for byte in atr)


def read(atr):
    """The protocol that an answer to a cold reset asks for, and the program's line."""
    [words] = programs.ready("read_atr")
    said, errors, _ = programs.said(words, b"COLD " + line_bytes(atr).hex().upper().encode() + b"\n")
    found = ACCEPTED.fullmatch(said)
    if found:
        return found.group(1), said.decode().strip()
    if REFUSED.fullmatch(said):
        raise NotAccepted(said.decode().strip())
    raise Undone("read_atr could not be asked" + (f": {errors}" if errors else ""))


def reset(known, reader, atr):
    """The card, after a cold reset, under the protocol that its answer to reset asks for."""
    protocol, told = read(atr)
    number, _ = exchange.PROTOCOLS[protocol]
    card = pcsc.within(RESETTING, lambda: pcsc.Card(known, reader, number))
    if card.active.value != number or card.atr() != atr:
        raise Undone(f"{text(reader)}: after a cold reset the card does not come back as it was: protocol or answer to reset is another")
    return Here(reader, card, atr, protocol, told)


def opened(known, wanted, seconds):
    """A card in the reader that was asked for."""
    try:
        reader = chosen(known.readers(), wanted)
        return reset(known, reader, wait_for_card(known, reader, seconds))
    except pcsc.Fault as fault:
        raise Undone(str(fault)) from None
    except pcsc.Hung as why:
        raise Undone(f"the PC/SC service does not answer: a reset {why}") from None
