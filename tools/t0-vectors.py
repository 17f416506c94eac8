#!/usr/bin/env python3
"""Exchanges for crates/exchange_t0: writes its stdin, and the stdout that it must give. Run this in the repository's root.

The exchanges of crates/exchange_t0/t0.jsonl come from outside, with what is sent after how many bytes, how many bytes are taken,
and the end. What is waited for at each cut they do not tell: it is given by the reader below, written from source document 000,
I-5.2.2, I-5.3.1 and I-5.4, which must also agree with everything that they do tell. The last exchange is the longest there is.
"""
import json

FOLDER = "crates/exchange_t0/"
STORED = FOLDER + "t0.jsonl"
GET_RESPONSE = bytes.fromhex("00C00000")


class End(Exception):
    """The exchange is over: the line that says how."""


def refuse(name):
    raise End("REFUSED " + name)


def is_status(b):
    return b >> 4 in (6, 9)


def is_warning(sw):
    return sw[0] in (0x62, 0x63) or sw[0] >> 4 == 9 and sw != b"\x90\x00"


def exchange(command):
    """Told each byte of the card's, answers what is to be sent and what is then waited for."""
    size = len(command)
    lc = command[4] if size > 5 else 0
    if size < 4 or size > 5 and (lc == 0 or size not in (5 + lc, 6 + lc)):
        refuse("COMMAND")
    if is_status(command[1]):
        refuse("INS")
    head, data = command[:4], command[5:5 + lc]
    gives, asks = size > 5, size == 5 or size == 6 + lc
    p3 = command[4] if size > 4 else 0
    received, warning = b"", None
    waits, gets, repeats = 255, 16, 1
    to_send = head + bytes([p3])

    while True:  # one header
        left = len(data) if gives else (p3 or 256) if asks else 0
        untouched = True
        while True:  # one procedure byte, or a status
            b = yield to_send, "procedure"
            to_send = b""
            if b in (head[1], 255 - head[1]):
                if left == 0:
                    refuse("PLACE")
                count = left if b == head[1] else 1
                left -= count
                untouched = False
                if gives:
                    start = len(data) - left - count
                    to_send = data[start:start + count]
                    continue
                while count:
                    received += bytes([(yield b"", f"data {count}")])
                    count -= 1
            elif b == 0x60:
                waits -= 1
                if waits < 0:
                    refuse("MANY-60")
            elif b == 0x61:
                gets -= 1
                if gets < 0:
                    refuse("MANY-61")
                if not asks or gives and left:
                    refuse("PLACE")
                p3 = yield b"", "length"
                head, gives = GET_RESPONSE, False
                break
            elif b == 0x6C:
                repeats -= 1
                if repeats < 0:
                    refuse("MANY-6C")
                if gives or not asks or not untouched:
                    refuse("PLACE")
                p3 = yield b"", "length"
                break
            elif is_status(b):
                sw = bytes([b, (yield b"", "sw2")])
                if gives and asks and left == 0 and is_warning(sw):
                    warning, head, gives, p3 = sw, GET_RESPONSE, False, 0
                    break
                raise End("ANSWER " + (received + (warning or sw)).hex().upper())
            else:
                refuse("BYTE")
        to_send = head + bytes([p3])


def played(command, pieces):
    """The lines of a whole exchange, what was sent after how many bytes, and how many were taken."""
    lines, sends, taken, over = [], [], 0, False
    try:
        card = exchange(command)
        sent, wait = next(card)
        sends.append([0, sent.hex()])
        lines += ["SEND " + sent.hex().upper(), "WAIT " + wait]
    except End as end:
        lines.append(str(end))
        over = True
    for piece in pieces:
        if over:
            lines.append("REFUSED CLOSED")
            continue
        try:
            for b in piece:
                taken += 1
                sent, wait = card.send(b)
                if sent:
                    sends.append([taken, sent.hex()])
                    lines += ["SEND " + sent.hex().upper(), "WAIT " + wait]
            if not piece or not sent:
                lines.append("WAIT " + wait)
        except End as end:
            lines.append(str(end))
            over = True
    return lines, sends, taken


def told(expect):
    """The line that an exchange from outside ends with."""
    if "answer" in expect:
        return "ANSWER " + expect["answer"].upper()
    if "refusal" in expect:
        return "REFUSED " + expect["refusal"]
    wait = expect["wait"]
    return "WAIT " + (wait if isinstance(wait, str) else " ".join(str(w) for w in wait))


def cut(capture, cuts):
    places = [0, *cuts, len(capture)]
    return [capture[a:b] for a, b in zip(places, places[1:])]


def outside():
    with open(STORED) as lines:
        for line in lines:
            v = json.loads(line)
            command, capture = bytes.fromhex(v["command"]), bytes.fromhex(v["capture"])
            pieces = cut(capture, v["cuts"])
            given, sends, taken = played(command, pieces)
            ended = [line for line in given if line != "REFUSED CLOSED"][-1]
            assert [sends, taken, ended] == [v["expect"]["sends"], v["expect"]["taken"], told(v["expect"])], v
            yield command, pieces, given


def longest():
    command = bytes.fromhex("00A40400FF") + bytes(range(255)) + b"\0"
    slow = bytes.fromhex("3FAA") * 256
    capture = b"\x60" * 255 + b"\x5B" * 255 + bytes.fromhex("62006C00") + slow + (b"\x61\0" + slow) * 16 + b"\x90\0"
    pieces = cut(capture, [4000, 9251])
    return command, pieces, played(command, pieces)[0]


def main():
    asked, given = [], []
    for command, pieces, lines in [*outside(), longest()]:
        asked += ["COMMAND " + command.hex().upper(), *("CARD " + p.hex().upper() for p in pieces)]
        given += lines
    with open(FOLDER + "stdin", "w") as f:
        f.write("\n".join(asked) + "\n")
    with open(FOLDER + "stdout", "w") as f:
        f.write("\n".join(given) + "\n")


main()
