#!/usr/bin/env python3
"""Calls for crates/bench_kernel: writes its stdin, and the stdout that it must give.

The replies come from two programs that were written from the scope paper and share nothing with the proved code: those of
crates/bench_kernel/calls.jsonl were stored with the calls; of those made before a rule was amended the ones are taken of which the
reference says the same. The others are given by `reference make-calls`, where `reference play` says how many results are due, and by
`reference play` for the scripts of samples/. Build it first (cd reference && cargo build --release --offline), then run this in the
repository's root.
"""
import glob
import json
import subprocess

FOLDER = "crates/bench_kernel/"
REFERENCE = "reference/target/release/reference"
STORED = "crates/bench_kernel/calls.jsonl"
COUNT, SEED = 220, 1

# Answers over this length make up most of the generator's text. They are turned away, whatever their bytes, and a call that
# is turned away changes nothing: all but the first few are left out.
LONG, LONG_KEPT = 496, 60


def reply_line(reply):
    word, *rest = reply
    return " ".join([word.upper(), *(str(r).upper() for r in rest)])


# Sequences of calls, each (event, payload, room, reply)

def sequence(line):
    calls = json.loads(line)["calls"]
    return [(c["event"], c["payload"].upper(), c["room"], reply_line(c["reply"]), c.get("zeros")) for c in calls]


def counted(calls):
    """The calls with the number where results are due; None where the reference says otherwise."""
    lines, lent = [], 261
    for event, payload, room, _, _ in calls:
        if room != lent:
            lines.append(f"ROOM {room}")
            lent = room
        lines.append(f"{event} {payload}".rstrip())
    text = "".join(line + "\n" for line in lines)
    played = subprocess.run([REFERENCE, "play"], input=text, capture_output=True, text=True).stdout.splitlines()
    said = [line for line in played if line]
    replies = [line.split(" ")[0] if reply == "RESULTS" else line for line, (_, _, _, reply, _) in zip(said, calls)]
    if len(said) != len(calls) or replies != [reply for _, _, _, reply, _ in calls]:
        return None
    return [(event, payload, room, line, zeros) for (event, payload, room, _, zeros), line in zip(calls, said)]


def stored():
    with open(STORED) as lines:
        told = [counted(sequence(line)) for line in lines]
    taken = [calls for calls in told if calls is not None]
    print(f"{len(taken)} of {len(told)} of {STORED}")
    return taken


def made():
    words = [REFERENCE, "make-calls", str(COUNT), str(SEED)]
    lines = subprocess.run(words, capture_output=True, text=True, check=True).stdout.splitlines()
    long = 0
    for calls in map(sequence, lines):
        kept = []
        for call in calls:
            if LONG < len(call[1]) // 2:
                assert call[3].startswith("REFUSED")
                long += 1
            if len(call[1]) // 2 <= LONG or long <= LONG_KEPT:
                kept.append(call)
        yield counted(kept)


def scripts():
    for name in sorted(glob.glob("samples/*.script")):
        with open(name) as script:
            lines = script.read()
        played = subprocess.run([REFERENCE, "play"], input=lines, capture_output=True, text=True, check=True)
        calls = [(line + " ").split(" ")[:2] for line in lines.splitlines()]
        replies = played.stdout.splitlines()
        assert len(calls) == len(replies)
        yield [(event, payload, 261, reply, None) for (event, payload), reply in zip(calls, replies)]


def main():
    asked, expected = [], []
    for calls in [*stored(), *made(), *scripts()]:
        asked.append("SESSION")
        lent, told = None, 0
        for event, payload, room, reply, zeros in calls:
            if room != lent:
                asked.append(f"ROOM {room}")
                lent = room
            asked.append(f"{event} {payload}".rstrip())
            expected.append(reply)
            if zeros is not None and (zeros != told or reply.startswith(("DECISION", "CLOSED"))):
                asked.append("ZEROS")
                expected.append(f"ZEROS {zeros}")
                told = zeros
    for name, lines in (("stdin", asked), ("stdout", expected)):
        with open(FOLDER + name, "w") as out:
            out.write("".join(line + "\n" for line in lines))
    print(f"{len(expected)} calls")


main()
