#!/usr/bin/env python3
"""Captures for crates/read_atr: writes its stdin, and the stdout that it must give.

The readings come from two programs that were written from source 000, section I-4, and share nothing with the proved code. Those of the
first are stored with their captures in crates/read_atr/atr.jsonl. Those of the second, reference/, are of captures of over 33 bytes, as it
prints them: crates/read_atr/long.txt, a capture and its line. Run this in the repository's root.
"""
import json

FOLDER = "crates/read_atr/"

# The parameters that are printed, in this order; only those of the protocol in use are there.
PARAMETERS = ["F", "D", "N", "interval", "WI", "IFSC", "BWI", "CWI"]

# Lines that are no question.
FAULTS = [
    ("", "ERROR unknown word"),
    ("HOT 3B", "ERROR unknown word"),
    ("cold 3B600000", "ERROR unknown word"),
    ("COLD 3B6", "ERROR not whole bytes in hexadecimal"),
    ("COLD 3B 60 00 00", "ERROR not whole bytes in hexadecimal"),
    ("WARM 3G600000", "ERROR not whole bytes in hexadecimal"),
    ("COLD " + "00" * 4097, "ERROR line too long"),
]


def as_data(line_byte):
    """A data byte: the bits of a line byte in opposite order, all complemented."""
    return int(f"{line_byte:08b}"[::-1], 2) ^ 0xFF


def hexadecimal(data):
    return bytes(data).hex().upper() or "-"


def question(vector):
    word = "WARM" if vector["warm"] else "COLD"
    return f"{word} {vector['capture'].upper()}".rstrip()


def accepted(capture, expect):
    start, end = expect["historical"]
    part = capture[start:end]
    mode = "specific" if expect["specific"] else "negotiable"
    words = ["ACCEPTED", expect["convention"], f"T={expect['protocol']}", mode]
    words += [f"{name}={expect['params'][name]}" for name in PARAMETERS if name in expect["params"]]
    words.append(f"historical={start}..{end}:{hexadecimal(part)}")
    if expect["convention"] == "inverse":
        words.append(f"data={hexadecimal(map(as_data, part))}")
    return " ".join(words)


def refused(expect):
    return " ".join(["REFUSED", *(f"{broken['rule']}@{broken['at']}" for broken in expect["refusals"])])


def reply(vector):
    expect = vector["expect"]
    return accepted(bytes.fromhex(vector["capture"]), expect) if expect["ok"] else refused(expect)


def long_captures():
    """Captures of over 33 bytes with the lines of reference/, which writes a place behind a colon."""
    with open(FOLDER + "long.txt") as lines:
        parts = [line.rstrip("\n").split(" | ") for line in lines]
    return [(capture, line.replace(":", "@")) for capture, line in parts]


def main():
    with open(FOLDER + "atr.jsonl") as lines:
        vectors = [json.loads(line) for line in lines]
    pairs = FAULTS + [(question(v), reply(v)) for v in vectors] + long_captures()
    for name, texts in zip(("stdin", "stdout"), zip(*pairs)):
        with open(FOLDER + name, "w") as out:
            out.writelines(text + "\n" for text in texts)


main()
