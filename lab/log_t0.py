"""Exchanges of T=0 put together by the proved program exchange_t0: it is told the terminal's command and the card's bytes, and says what is
sent and, at the end, what the answer is. What it says is sent must be what the log has; nothing is put together here."""
from lab import programs
from lab.log_reading import Exchange
from lab.words import Undone

PROGRAM = "exchange_t0"


def with_le(command, le):
    """A command that has none with its Le."""
    without = len(command) == 4 or len(command) > 5 and len(command) == 5 + command[4]
    return command + le if without and le else command


class Layer:
    """exchange_t0, asked about one command after the other."""

    def __init__(self):
        [words] = programs.ready(PROGRAM)
        self.talk = programs.Talk(words)

    def told(self, word, data):
        """What is sent now, or nothing; and ANSWER, REFUSED or WAIT with what stands behind it."""
        line, sent = self.talk.ask(f"{word} {data.hex().upper()}\n".encode()).decode().rstrip("\n"), b""
        if line.startswith("SEND "):
            sent = bytes.fromhex(line[5:])
            line = self.talk.more().decode().rstrip("\n")
        kind, _, value = line.partition(" ")
        if kind not in ("WAIT", "ANSWER", "REFUSED"):
            raise Undone(f"{PROGRAM} says {line[:80]}")
        return sent, kind, value

    def answered(self, data):
        """The card's bytes of one TPDU, one after the other: what is sent behind the last of them, and what is said."""
        for at, byte in enumerate(data, 1):
            sent, kind, value = self.told("CARD", bytes([byte]))
            if kind == "REFUSED":
                break
            if (sent or kind != "WAIT") and at < len(data):
                raise Undone(f"{len(data) - at} bytes of the card's stand behind the end of what it was asked for")
        return sent, kind, value

    def close(self):
        self.talk.close()


def card_bytes(one):
    """What the card sent for one TPDU. The procedure byte INS, by which it takes or gives data, is not in the log: the reader has it."""
    return (one.command[1:2] if len(one.answer) > 2 else b"") + one.answer


def put_together(layer, exchanges, le):
    """The first of the terminal's commands among TPDUs: its exchange, and how many TPDUs it took. Only the log's last may lack its end."""
    command, used = with_le(exchanges[0].command, le), 0
    sent, kind, value = layer.told("COMMAND", command)
    while kind == "WAIT" and sent:
        if used == len(exchanges):
            return Exchange(command, None, exchanges[0].line), used
        one = exchanges[used]
        used += 1
        if one.command[:len(sent)] != sent:
            raise Undone(f"line {one.line}: T=0 sends {sent.hex().upper()} here, and the log has {one.command.hex().upper()}")
        if one.command[len(sent):]:
            data, kind, value = layer.told("CARD", one.command[1:2])
            if data != one.command[len(sent):] or kind != "WAIT":
                raise Undone(f"line {one.line}: the data that T=0 sends here is not the log's")
        if one.answer is None:
            return Exchange(command, None, exchanges[0].line), used
        try:
            sent, kind, value = layer.answered(card_bytes(one))
        except Undone as why:
            raise Undone(f"line {one.line}: {why}") from None
    if kind != "ANSWER":
        raise Undone(f"line {exchanges[0].line}: {PROGRAM} comes to no answer: {kind} {value}")
    return Exchange(command, bytes.fromhex(value), exchanges[0].line), used


def assembled(exchanges, le):
    """Exchanges of TPDUs as the terminal had them."""
    layer, made, left = Layer(), [], list(exchanges)
    try:
        while left:
            one, used = put_together(layer, left, le)
            made.append(one)
            left = left[used:]
    except programs.Ended as why:
        raise Undone(f"{PROGRAM} ended: {why}") from None
    finally:
        layer.close()
    return made
