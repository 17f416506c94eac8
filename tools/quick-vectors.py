#!/usr/bin/env python3
"""Makes the tapes that bench_quick reads, and the lines that it must print.

    tools/quick-vectors.py FOLDER [FOLDER ..]

A FOLDER has tapes (tapes/) and `NAME VERDICT place code zeros` lines for them (expected.txt), made by an independent program. Place and code
of an UNREADABLE one are what is due, and 0 and 0 for any other verdict: it reads as entries. Those are taken of which the reading below, from
01 with zlib's CRC-32, says the same; others were made under earlier limits, and are named. Beside them stand blocks changed and sealed
again, one way for each test of 01 and each end of what it looks at, whose place and code are known from the change; and one tape with a
payload of every length there can be. The verdict that both judges must say is the line of expected.txt; a changed tape is UNREADABLE, and the two
made here that read as entries break the rules at once: the one has a START of one byte, the other has none.
"""
import os, struct, sys, zlib

SIZE, MOST, CHECK, PAYLOAD = 512, 1024, 508, 496
TAPES, SMALL, LONG, GOOD = 160, 16, 1, 50
here = os.path.join(os.path.dirname(os.path.abspath(__file__)), "..", "crates", "bench_quick")


def sealed(body):
    return body + struct.pack(">I", zlib.crc32(body))


def block(number, session, kind, payload):
    return sealed((struct.pack(">IIBBH", number, session, kind, 0, len(payload)) + payload).ljust(CHECK, b"\0"))


def code(b, number, session):
    """The first test of 01 that a block fails; 0 where it fails none."""
    num, ses, kind, spare, size = struct.unpack(">IIBBH", b[:12])
    tests = [
        (3, zlib.crc32(b[:CHECK]) != struct.unpack(">I", b[CHECK:])[0]),
        (4, num != number),
        (5, ses != session),
        (6, not 1 <= kind <= 7),
        (7, spare != 0),
        (8, size > PAYLOAD),
        (9, any(b[12 + size : CHECK])),
    ]
    return next((n for n, fails in tests if fails), 0)


def damage(tape):
    if len(tape) > MOST * SIZE:
        return 0, 1
    if len(tape) % SIZE:
        return len(tape) // SIZE, 2
    for n in range(len(tape) // SIZE):
        found = code(tape[n * SIZE : (n + 1) * SIZE], n, struct.unpack(">I", tape[4:8])[0])
        if found:
            return n, found
    return 0, 0


def given(folder):
    """The tapes of a folder that are taken, with place and code; and the names of those of which the reading says something else."""
    taken, others = [], []
    for line in open(os.path.join(folder, "expected.txt")):
        name, verdict, place, found = line.split()[:4]
        tape = open(os.path.join(folder, "tapes", name), "rb").read()
        due = (int(place), int(found)) if verdict == "UNREADABLE" else (0, 0)
        if due != damage(tape):
            others.append(name)
        elif len(tape) <= SMALL * SIZE or verdict == "UNREADABLE":
            taken.append((tape, due, line.split(maxsplit=1)[1].rstrip("\n")))
    print(f"{folder}: {len(taken)} can be taken; not said of {len(others)}: {' '.join(others)}")
    return taken


def changed(tape, at, **bytes_at):
    """A tape with bytes of one block changed (`b9=1`), and the block sealed again."""
    b = bytearray(tape[at * SIZE : at * SIZE + CHECK])
    for place, value in bytes_at.items():
        b[int(place[1:])] = value
    return tape[: at * SIZE] + sealed(bytes(b)) + tape[(at + 1) * SIZE :]


def flipped(tape, at):
    return tape[:at] + bytes([tape[at] ^ 0x40]) + tape[at + 1 :]


def made():
    """Tapes with place and code, known from how they were made."""
    s = 0x01020304
    tape = b"".join(block(n, s, 1 + n % 7, bytes([7]) * (60 * n + 1)) for n in range(8))
    yield tape, (0, 0)
    yield tape[:-1], (7, 2)
    yield tape + b"\0", (8, 2)
    yield b"\0", (0, 2)
    for at in (0, 100, 507, 508, 511):
        yield flipped(tape, 3 * SIZE + at), (3, 3)
    # the first block's session number is the one that is due, and a bad block is named before those behind it
    yield changed(tape, 0, b7=9), (1, 5)
    yield flipped(changed(tape, 2, b3=9), 5 * SIZE + 300), (2, 4)
    yield changed(flipped(tape, 6 * SIZE), 1, b9=1), (1, 7)
    for n, due in ((b, c) for b in (1, 4, 7) for c in (4, 5, 6, 7, 8)):
        change = {4: {"b3": 77}, 5: {"b4": 2}, 6: {"b8": 8}, 7: {"b9": 1}, 8: {"b10": 1, "b11": 0xF1}}[due]
        yield changed(tape, n, **change), (n, due)
        # the earlier test decides where a later one fails too
        yield changed(tape, n, **dict(change, b507=1)), (n, due)
    for n in range(8):
        # right behind the payload, at each end of what is passed 32 at a time, and right before the check
        behind = 12 + 60 * n + 1
        for at in sorted({behind, behind + 4, CHECK - (CHECK - behind) // 32 * 32 - 1, CHECK - 33, CHECK - 32, CHECK - 1}):
            if behind <= at < CHECK:
                yield changed(tape, n, **{f"b{at}": 1}), (n, 9)
    yield b"".join(block(n, s, 3, bytes(1 + (n + i) % 255 for i in range(n))) for n in range(PAYLOAD + 1)), (0, 0)


def said(due):
    """The verdict of a made tape: one that reads as entries does not begin with a valid START."""
    return "UNREADABLE %d %d 0" % due if due[1] else "FAIL 0 0 0"


tapes = [(tape, due, said(due)) for tape, due in made()]
assert all(damage(tape) == due for tape, due, line in tapes)
rest = [one for folder in sys.argv[1:] for one in given(folder)]
long = [one for one in rest if len(one[0]) > SMALL * SIZE]
tapes += [one for one in long if len(one[0]) <= MOST * SIZE // 4] + [one for one in long if len(one[0]) > MOST * SIZE][:LONG]
bad = [one for one in rest if one[1][1] and len(one[0]) <= SMALL * SIZE]
good = [one for one in rest if not one[1][1]]
tapes += bad + good[:: len(good) // GOOD + 1]
assert len(tapes) <= TAPES, len(tapes)
ends, at = [], 0
for tape, due, line in tapes:
    at += len(tape)
    ends.append(at)
spare = TAPES - len(tapes)
with open(os.path.join(here, "stdin"), "wb") as out:
    out.write(struct.pack(f">{TAPES}I", *ends, *[0] * spare) + b"".join(tape for tape, due, line in tapes))
with open(os.path.join(here, "stdout"), "w") as out:
    out.write(2 * "".join("%d %d\n" % due for due in [due for tape, due, line in tapes] + [(0, 0)] * spare))
    out.write("".join(2 * (line + "\n") for line in [line for tape, due, line in tapes] + ["INCONCLUSIVE 0 0 0"] * spare))
print(len(tapes), "tapes,", at, "bytes")
