#!/usr/bin/env python3
"""Makes the tapes that bench_judge reads, and the lines that it must print.

    tools/judge-vectors.py REFERENCE [FOLDER ..]

REFERENCE is the reference program (reference/target/release/reference). Its generator's fixed table goes through every outcome, every way
to spoil an answer, to cut or change the entries and to damage a block. Of the tapes whose labels differ in more than numbers, or whose
codes differ, the first is taken, if it is small: each that breaks a rule of cardholder verification, every few of the others, and one
session of as many entries as there can be. A FOLDER has further tapes (tapes/) and `NAME VERDICT place code zeros` lines for them
(expected.txt), made by another independent program; before R-6 the line had no fourth number. Those are taken of which the reference
says the same, as far as the line goes: others were made before a rule was amended, or by one that has not landed, and how many these
are is printed. Each tape stands behind its length in four bytes, big-endian.
"""
import os, re, subprocess, sys, tempfile

reference = os.path.abspath(sys.argv[1])
here = os.path.join(os.path.dirname(os.path.abspath(__file__)), "..", "crates", "bench_judge")
tapes = [(b"", "INCONCLUSIVE 0 0 0"), (b"\x00", "UNREADABLE 0 2 0")]  # 01, "Sessions on the bench"
for folder in sys.argv[2:]:
    others = []
    for line in open(os.path.join(folder, "expected.txt")):
        name, said = line.rstrip("\n").split(" ", 1)
        tape = open(os.path.join(folder, "tapes", name), "rb").read()
        whole = subprocess.run([reference, "judge"], input=tape, capture_output=True).stdout.decode().rstrip("\n")
        if whole.split(" ")[: len(said.split(" "))] == said.split(" "):
            tapes.append((tape, whole))
        else:
            others.append(name)
    print(f"{folder}: not said of {len(others)}: {' '.join(others)}")
TABLE, SMALL = 3219, 8192
LONGEST = "500 records, verified, whole"


def every(label, said):
    """Of how many such tapes one is taken."""
    verifies = re.search("verified|formerly|RESULTS|method|condition|capabilities", label)
    if said.startswith("PASS"):
        return 4 if verifies else 20
    return 1 if verifies else 4


with tempfile.TemporaryDirectory() as work:
    labels = os.path.join(work, "labels")
    words = [reference, "make", work, str(TABLE), "20", "--list", labels]
    lines = subprocess.run(words, check=True, capture_output=True, text=True).stdout
    met, taken = set(), {}
    for line, labelled in zip(lines.splitlines(), open(labels)):
        (name, said), label = line.split(" ", 1), labelled.rstrip("\n").split(" ", 1)[1]
        tape = open(os.path.join(work, name), "rb").read()
        alike = re.sub("[0-9A-F]*[0-9][0-9A-F]*", "N", re.sub(r" \(reason .*\)", "", label)), said.split(" ")[2]
        if label == LONGEST:
            tapes.append((tape, said))
        elif len(tape) <= SMALL and alike not in met:
            met.add(alike)
            few = every(label, said)
            taken[few] = taken.get(few, -1) + 1
            if taken[few] % few == 0:
                tapes.append((tape, said))
with open(os.path.join(here, "stdin"), "wb") as out:
    for tape, said in tapes:
        out.write(len(tape).to_bytes(4, "big") + tape)
with open(os.path.join(here, "stdout"), "w") as out:
    for tape, said in tapes:
        out.write(said + "\n")
print(len(tapes), "tapes")
