#!/usr/bin/env python3
"""Damaged tapes for crates/recover_tape: writes its stdin, the stdout that it must give, and samples/damaged.tape. Run this in the
repository's root.

    tools/recover-vectors.py            writes them
    tools/recover-vectors.py --each     also runs recover_tape and judge_tape on each stored case by itself; they are built first where
                                        they must be

The cases of crates/recover_tape/recover.jsonl come from outside: bytes, the blocks to be found as step, number, session number, kind
and length of the payload, the tail, the judge's line, and for a good tape with blocks overwritten which steps are untouched. The reader below was
written from the tape's layout in document 01, with zlib's CRC-32, and must agree with all of them. The program reads one input a run,
so stdin has the cases one behind the other: each but the last is filled up to a whole step, which must then hold no good block.
"""
import json, os, subprocess, sys, zlib

FOLDER = "crates/recover_tape/"
KINDS = range(1, 8)  # a block of another kind is not listed
STEP = 512


def is_good(block):
    length = int.from_bytes(block[10:12], "big")
    return (
        int.from_bytes(block[508:], "big") == zlib.crc32(block[:508])
        and block[8] in KINDS
        and block[9] == 0
        and length <= 496
        and not any(block[12 + length:508])
    )


def blocks(data):
    """[step, number, session, kind, payload] of each good block."""
    for step in range(len(data) // STEP):
        b = data[step * STEP:][:STEP]
        if is_good(b):
            payload = b[12:12 + int.from_bytes(b[10:12], "big")]
            yield [step, int.from_bytes(b[:4], "big"), int.from_bytes(b[4:8], "big"), b[8], payload]


def sized(found):
    return [b[:4] + [len(b[4])] for b in found]


def lines(data):
    found = ["BLOCK %d %d %d %d %s" % (*b[:4], b[4].hex().upper() or "-") for b in blocks(data)]
    return "".join(line + "\n" for line in found + ["END %d %d" % divmod(len(data), STEP)])


def verdict_of(case):
    """What the request says of a good tape with blocks overwritten: the first of them is named, with code 3."""
    there = len(bytes.fromhex(case["bytes"])) // STEP
    first = min(set(range(there)) - set(case["untouched"]))
    return f"UNREADABLE {first} 3"


def told(case):
    """The case's bytes, where the reader agrees with all that is told of them."""
    data = bytes.fromhex(case["bytes"])
    every = sized(blocks(data))
    known = case["blocks"] == every and case["tail"] == len(data) % STEP
    if case["premise"]:
        known = known and case["untouched"] == [b[0] for b in every] and case["judge"].startswith(verdict_of(case) + " ")
    if not known:
        sys.exit(f"{case['name']}: the reader does not agree")
    return data


def filled(data):
    """Filled up to a whole step."""
    more = -len(data) % STEP
    whole = data + b"\xa5" * more
    if more and is_good(whole[-STEP:]):
        sys.exit("a filled step is good: fill it with something else")
    return whole


def damaged_sample():
    """samples/online-approved.tape: a store torn at step 4, after 200 bytes of another tape's block; zeros at step 7."""
    tape = bytearray(open("samples/online-approved.tape", "rb").read())
    other = open("samples/declined-offline.tape", "rb").read()
    tape[4 * STEP:4 * STEP + 200] = other[4 * STEP:4 * STEP + 200]
    tape[7 * STEP:8 * STEP] = bytes(STEP)
    left = [b[0] for b in blocks(tape)]
    if left != [step for step in range(len(tape) // STEP) if step not in (4, 7)]:
        sys.exit("samples/damaged.tape: other blocks are left than were meant")
    return bytes(tape)


def said(program, data):
    return subprocess.run(program, input=data, capture_output=True).stdout.decode()


cases = [json.loads(line) for line in open(FOLDER + "recover.jsonl")]
cases.sort(key=lambda case: case["name"] == "beyond")  # the longest last: its tail is that of the whole
tapes = [told(case) for case in cases]
whole = b"".join(filled(data) for data in tapes[:-1]) + tapes[-1]
open(FOLDER + "stdin", "wb").write(whole)
open(FOLDER + "stdout", "w").write(lines(whole))
open("samples/damaged.tape", "wb").write(damaged_sample())
print(len(cases), "cases,", len(whole) // STEP, "steps,", lines(whole).count("BLOCK"), "blocks")
if sys.argv[1:] == ["--each"]:
    sys.dont_write_bytecode = True
    sys.path.insert(0, os.getcwd())
    from lab import programs

    recover, judge = programs.ready("recover_tape", "judge_tape")
    for case, data in zip(cases, tapes):
        if said(recover, data) != lines(data):
            sys.exit(f"{case['name']}: recover_tape says otherwise")
        if said(judge, data) != case["judge"] + "\n":
            sys.exit(f"{case['name']}: judge_tape says otherwise")
    print("each by itself as expected, and judged so")
