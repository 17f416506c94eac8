"""What comes of a command at a reader: the line that `hand_answer` takes, or silence and why. What is silence is decided here alone."""
import re

from lab import pcsc, programs
from lab.words import Undone

# Of an answer over 496 bytes a session is handed the first 259, whatever follows: more than this is not told to the program that cuts it.
TOLD_MOST = 4096
SEND = re.compile(rb"SEND ((?:[0-9A-F]{2})+)\n")
WAIT = re.compile(rb"WAIT (?:procedure|length|sw2|data [1-9][0-9]*)\n")
ANSWER = re.compile(rb"ANSWER (?:[0-9A-F]{2}){2,}\n")
REFUSED = re.compile(rb"REFUSED ([A-Z0-9-]+)\n")


class Silence(Exception):
    """The card said nothing that may be taken for an answer; the text says why."""


class Reader:
    """A card in a reader, asked one thing at a time. An answer has at least its two status bytes. Less is none, whatever the reader calls
    it: readers give success with no bytes for a card that was pulled, and handed on it would end the session with reason 1, a PASS."""

    def __init__(self, card, seconds):
        self.card, self.seconds, self.under_way = card, seconds, False

    def ask(self, data):
        """The answer. `under_way` stays where a call has not come back, also where an interrupt ends the waiting."""
        self.under_way = True
        try:
            answer = pcsc.within(self.seconds, lambda: self.card.transmit(data))
        except pcsc.Hung as why:
            raise Silence(f"no answer in time: SCardTransmit {why}") from None
        except pcsc.Fault as fault:
            self.under_way = False
            raise Silence(str(fault)) from None
        self.under_way = False
        if len(answer) < 2:
            raise Silence(f"the reader gave {len(answer)} bytes, and an answer has at least two")
        return answer


class Whole:
    """T=1: the reader keeps the protocol, a command goes out whole and its answer comes back whole."""

    def __init__(self, reader):
        self.reader = reader

    def answered(self, command):
        return b"MESSAGE " + self.reader.ask(command)[:TOLD_MOST].hex().upper().encode() + b"\n"

    def close(self):
        pass


class Layered:
    """T=0: `exchange_t0` keeps the protocol. A reader takes a header together with its data and has the procedure bytes for itself, so
    they are put back for the layer: INS before the data goes out, and the complement of INS before each byte that has come in, since with
    it a card may stop after any of them. Status, '61' and '6C' are the card's own."""

    def __init__(self, reader):
        [words] = programs.ready("exchange_t0")
        self.reader, self.talk = reader, programs.Talk(words)

    def told(self, line):
        """What is to be sent, if anything, and the line behind it."""
        said = self.talk.ask(line)
        found = SEND.fullmatch(said)
        return (bytes.fromhex(found.group(1).decode()), self.talk.more()) if found else (b"", said)

    def byte(self, value):
        return self.told(b"CARD %02X\n" % value)

    def answered(self, command):
        header, said = self.told(b"COMMAND " + command.hex().upper().encode() + b"\n")
        with_data = len(command) > 5
        while WAIT.fullmatch(said) and header:
            header, said = self.turn(header, with_data)
            with_data = False
        if ANSWER.fullmatch(said):
            return said
        refused = REFUSED.fullmatch(said)
        if refused:
            raise Silence(f"the T=0 layer refused what the reader gave: {refused.group(1).decode()}")
        if WAIT.fullmatch(said):
            raise Silence("the T=0 layer waits for more than the reader gave")
        raise Undone("exchange_t0 said what is none of its lines: " + said.decode("utf-8", "backslashreplace").strip())

    def turn(self, header, with_data):
        """One header, the command's own with its data, and all that the reader gives for it: what is to be sent next, and the last line."""
        data = b""
        if with_data:
            data, said = self.byte(header[1])
            if not WAIT.fullmatch(said):
                return b"", said
        answer = self.reader.ask(header + data)
        for value in answer[:-2]:
            for told in (header[1] ^ 0xFF, value):
                sent, said = self.byte(told)
                if sent or not WAIT.fullmatch(said):
                    return b"", said
        sent, said = self.byte(answer[-2])
        return self.byte(answer[-1]) if WAIT.fullmatch(said) and not sent else (b"", said)

    def close(self):
        self.talk.close()


PROTOCOLS = {b"T=0": (pcsc.T0, Layered), b"T=1": (pcsc.T1, Whole)}
