#!/usr/bin/env python3
"""Lines for crates/play and crates/bench_samples: writes their stdin, the stdout that they must give, and the tapes of samples/, which
bench_samples has in its data/ too, to hold what was stored against them.

Replies and tapes come from `reference play`, verdicts from `reference judge`, the scripts of SAMPLES from `reference sample`: a program
that was written from the scope paper and shares nothing with the proved code. What an ERROR line says is written here by hand. Build the
reference first (cd reference && cargo build --release --offline), then run this in the repository's root. Afterwards
`play SCRIPT.tape 7 < SCRIPT.script` must give the same tape.
"""
import glob
import os
import subprocess
import tempfile
import zlib

FOLDER = "crates/play/"
RECORDED = "crates/bench_samples/"
REFERENCE = "reference/target/release/reference"
SESSION = "7"
SAMPLES = {"offline-pin": "offline-pin", "signature": "signature", "verification-failed": "failed"}
PLAYED = "samples/online-pin.script"
BLOCK = 512

# What is put before the line of a script with this number, and the reply by hand; None: the reference gives it.
EXTRA = {
    0: [
        ("", "ERROR unknown word"),
        ("HELLO 00", "ERROR unknown word"),
        ("start 00", "ERROR unknown word"),
        ("STARTS", "ERROR unknown word"),
        (" START 00", "ERROR unknown word"),
        ("START", None),
        ("START ", None),
        ("HOST", None),
        ("RESULTS", None),
        ("START 0", "ERROR odd number of digits"),
        ("START 0G", "ERROR not hexadecimal"),
        ("START 00 00", "ERROR not hexadecimal"),
        ("START 00", None),
        ("SILENCE", None),
    ],
    1: [
        ("SILENCE 00", "ERROR text after SILENCE"),
        ("ANSWER 6F0", "ERROR odd number of digits"),
        ("ANSWER " + "5A" * 497, None),
        ("ANSWER " + "5A" * 4096, None),
        ("ANSWER " + "5A" * 4096 + "0", "ERROR odd number of digits"),
        ("RESULTS " + "00" * 4096, None),
        ("RESULTS " + "00" * 4096 + "0", "ERROR line too long"),
        ("X" * 20000, "ERROR line too long"),
        ("HOST 013030", None),
    ],
    5: [
        ("RESULT 010000", "ERROR unknown word"),
        ("RESULTS", None),
        ("RESULTS 0100", None),
        ("RESULTS 01000000", None),
        ("RESULTS 010500", None),
        ("RESULTS 01000", "ERROR odd number of digits"),
        ("ANSWER 9000", None),
        ("SILENCE", None),
        ("HOST 013030", None),
    ],
    6: [
        ("RESULTS 010000", None),
    ],
    7: [
        ("HOST", None),
        ("HOST 0130", None),
        ("HOST 030001", None),
        ("ANSWER", None),
        ("SILENCE", None),
    ],
    9: [
        ("SILENCE", None),
    ],
}


def played(lines, *words):
    text = "".join(line + "\n" for line in lines)
    return subprocess.run([REFERENCE, "play", *words], input=text, capture_output=True, text=True, check=True).stdout.splitlines()


def lines_of(script):
    with open(script) as lines:
        return lines.read().splitlines()


def judged(tape):
    return subprocess.run([REFERENCE, "judge"], input=tape, capture_output=True, check=True).stdout.decode().rstrip("\n")


def write(name, lines):
    with open(name, "w") as out:
        out.write("".join(line + "\n" for line in lines))


def bytes_of(name):
    with open(name, "rb") as tape:
        return tape.read()


def with_start(tape, start):
    """A tape with another START, the check of its block made good."""
    body = tape[:10] + len(start).to_bytes(2, "big") + start.ljust(496, b"\x00")
    return body + zlib.crc32(body).to_bytes(4, "big") + tape[BLOCK:]


def tapes_alone():
    """Of approved-offline: START's date is 260230; START is without the three bytes of Terminal Capabilities."""
    tape = bytes_of("samples/approved-offline.tape")
    start = tape[12:12 + 77]
    yield "no-such-day", with_start(tape, start[:17] + bytes.fromhex("260230") + start[20:])
    yield "without-capabilities", with_start(tape, start[:74])


def longest():
    """The script with 500 records, most of which tell nothing: as many entries as there can be."""
    lines = lines_of(PLAYED)
    lines[2] = "ANSWER 800E1800080102001001FF001801F3009000"
    journeys = [f"ANSWER 7009DF20062606300{i:03d}{(37 * i + 11) % 256:02X}9000" for i in range(498)]
    return lines[:5] + journeys + lines[5:]


def record_samples():
    """Every sample played, judged, and its file held against the sample's tape; the longest session played and judged."""
    asked, expected = [], []
    for script in sorted(glob.glob("samples/*.script")):
        name = os.path.basename(script).replace(".script", ".tape")
        lines, tape = lines_of(script), bytes_of("samples/" + name)
        asked += ["SESSION", *lines, "JUDGE", "SAME " + name]
        expected += [*played(lines), judged(tape), "same"]
        with open(RECORDED + "data/" + name, "wb") as out:
            out.write(tape)
    with tempfile.TemporaryDirectory() as folder:
        tape = os.path.join(folder, "longest.tape")
        asked += ["SESSION", *longest(), "JUDGE", "SAME online-pin.tape", "SAME no-such.tape"]
        expected += [*played(longest(), "--tape", tape), judged(bytes_of(tape)), "other", "unread"]
    write(RECORDED + "stdin", asked)
    write(RECORDED + "stdout", expected)
    print(f"{len(asked)} lines recorded, {len(expected)} said of them")


def main():
    for name, known in SAMPLES.items():
        lines = subprocess.run([REFERENCE, "sample", known], capture_output=True, text=True, check=True).stdout.splitlines()
        write(f"samples/{name}.script", lines)
    for script in sorted(glob.glob("samples/*.script")):
        played(lines_of(script), "--tape", script.replace(".script", ".tape"), "--session", SESSION)
    for name, tape in tapes_alone():
        with open(f"samples/{name}.tape", "wb") as out:
            out.write(tape)
    record_samples()
    # digits of either case
    calls = [(f"{word} {digits.lower() if i % 2 else digits}", None)
             for i, (word, digits) in enumerate(line.split() for line in lines_of(PLAYED))]
    asked = []
    for i in range(len(calls) + 1):
        asked += EXTRA.get(i, []) + calls[i:i + 1]
    replies = iter(played([line for line, reply in asked if reply is None]))
    expected = [next(replies) if reply is None else reply for _, reply in asked]
    # the last line has no line feed
    with open(FOLDER + "stdin", "w") as out:
        out.write("\n".join(line for line, _ in asked))
    write(FOLDER + "stdout", expected)
    print(f"{len(expected)} lines")


main()
