#!/usr/bin/env python3
"""Books for crates/bench_book and crates/book_file: writes what they read and must print. Run this in the repository's root.

The books of crates/bench_book/book.jsonl come from outside: entries handed in, with replies and counts; the bytes stored; and what is
done to these bytes, with the counts that they then reopen with, or none where they are refused. The block at which bytes are refused,
and the fault, they do not tell: these are given by the book below, written from R-11 and the layout in docs/DECISIONS.md, which must
also agree with everything that they do tell. A run of zero bytes in the stored file is written as (count).

The book that crates/book_file lists is made here too. With the path of such a file as an argument, that file is stored first.
"""
import binascii
import json
import re
import sys

FOLDER = "crates/bench_book/"
STORED = FOLDER + "book.jsonl"
BLOCK, MOST = 512, 4096
VERDICTS = (1, 2, 3, 4)


def sealed(body):
    return body + binascii.crc32(body).to_bytes(4, "big")


def block(number, entry):
    tape, verdict, place, code = (n.to_bytes(w, "big") for n, w in zip(entry, (4, 1, 4, 4)))
    return sealed((number.to_bytes(4, "big") + tape + verdict + bytes(3) + place + code).ljust(508, b"\0"))


class Book:
    def __init__(self, room):
        self.room, self.blocks, self.tapes, self.counts = room, [], set(), [0, 0, 0, 0]

    def enter(self, entry):
        if entry[1] not in VERDICTS:
            return "no verdict"
        if entry[0] in self.tapes:
            return "already entered"
        if len(self.blocks) == MOST or self.room < BLOCK * (len(self.blocks) + 1):
            return "full"
        self.blocks.append(block(len(self.blocks), entry))
        self.tapes.add(entry[0])
        self.counts[entry[1] - 1] += 1
        return "entered"


def fault(b, number, tapes):
    """What is wrong with a block, or 0."""
    if sealed(b[:508]) != b:
        return 3
    if int.from_bytes(b[:4], "big") != number:
        return 4
    if b[8] not in VERDICTS:
        return 5
    if any(b[9:12]) or any(b[20:508]):
        return 6
    return 7 if b[4:8] in tapes else 0


def reopened(data):
    """The counts, or the block and the fault."""
    if len(data) > MOST * BLOCK:
        return None, (0, 1)
    if len(data) % BLOCK:
        return None, (len(data) // BLOCK, 2)
    tapes, counts = set(), [0, 0, 0, 0]
    for k in range(len(data) // BLOCK):
        b = data[k * BLOCK:(k + 1) * BLOCK]
        why = fault(b, k, tapes)
        if why:
            return None, (k, why)
        tapes.add(b[4:8])
        counts[b[8] - 1] += 1
    return counts, None


def pieces(do, data):
    """The bytes that an action makes of those stored: parts of them as (from, to), and other bytes."""
    kind, *what = do
    end = len(data)
    if kind == "blocks":
        return [(0, what[0] * BLOCK)]
    if kind == "bytes":
        return [(0, what[0])]
    if kind in ("add", "block"):
        return [(0, end), bytes.fromhex(what[0])]
    at = what[0] * BLOCK
    if kind == "again":
        return [(0, end), (at, at + BLOCK)]
    if kind == "drop":
        return [(0, at), (at + BLOCK, end)]
    if kind == "swap":
        b, c = sorted(what)
        b, c = b * BLOCK, c * BLOCK
        return [(0, b), (c, c + BLOCK), (b + BLOCK, c), (b, b + BLOCK), (c + BLOCK, end)]
    if kind == "bit":
        place = at + what[1]
        return [(0, place), bytes([data[place] ^ 1 << what[2]]), (place + 1, end)]
    if kind == "set":
        body = bytearray(data[at:at + 508])
        body[what[1]] = what[2]
        check = sealed(bytes(body))[508:]
        return [(0, at + what[1]), bytes([what[2]]), (at + what[1] + 1, at + 508), check, (at + BLOCK, end)]
    raise ValueError(kind)


def put_together(parts, data):
    return b"".join(data[p[0]:p[1]] if isinstance(p, tuple) else p for p in parts)


def lines_for(parts):
    for p in parts:
        if isinstance(p, tuple):
            if p[0] < p[1]:
                yield f"PART {p[0]:X} {p[1]:X}"
            continue
        for run in re.findall(rb"\0{8,}|(?:(?!\0{8}).)+", p, re.S):
            yield f"ZEROS {len(run):X}" if not any(run) else f"HEX {run.hex()}"


def said(counts):
    return " ".join(map(str, counts + [sum(counts)]))


def entries_of(step):
    if "enter" in step:
        return [step["enter"]]
    first, count = step["run"]
    (verdict,) = step["verdicts"]
    return [[first + i, verdict, i % 1000, 0] for i in range(count)]


def told(book, step):
    """One step's line in and line out; must agree with what the vector tells."""
    replies = [book.enter(e) for e in entries_of(step)]
    assert all((r if r != "entered" else 0) == step["reply"] for r in replies), step
    assert book.counts == step["counts"], step
    if "enter" in step:
        asked = "ENTER " + " ".join(f"{n:X}" for n in step["enter"])
    else:
        asked = f"RUN {step['run'][0]:X} {step['verdicts'][0]:X} {step['run'][1]:X}"
    return asked, f"{replies[-1]} {said(book.counts)}"


def kept(vector):
    """A vector's lines in and lines out."""
    book = Book(vector["room"])
    yield f"BOOK {vector['room']:X}", None
    for step in vector["steps"]:
        yield told(book, step)
    data = b"".join(book.blocks)
    if "stored" in vector:
        assert bytes.fromhex(vector["stored"]) == data
    else:
        assert vector["stored_crc"] == binascii.crc32(data)
    yield "STORED", f"{len(book.blocks)} {binascii.crc32(data)} {binascii.crc32(bytes(vector['room'] - len(data)))}"
    for again in vector["reopen"]:
        parts = pieces(again["do"], data)
        whole = put_together(parts, data)
        counts, refused = reopened(whole)
        assert counts == again["counts"] and again["entries"] == (None if counts is None else len(whole) // BLOCK), again
        for line in lines_for(parts):
            yield line, None
        yield "OPEN", f"refused {refused[0]} {refused[1]}" if refused else f"open {len(whole) // BLOCK} {said(counts)}"


def shortened(text):
    return re.sub(r"(?:00){8,}", lambda m: f"({len(m[0]) // 2})", text)


def expanded(text):
    return re.sub(r"\((\d+)\)", lambda m: "00" * int(m[1]), text)


# The book that crates/book_file adds to and lists: numbers at the ends of their range, and each verdict.
LISTED = [(1, 1, 11, 0), (4294967295, 2, 5, 0), (0, 3, 0, 0), (417, 4, 3, 7), (418, 4, 4294967295, 9)]
NAMES = ("PASS", "FAIL", "INCONCLUSIVE", "UNREADABLE")


# What is handed in, the reply that 02, R-11, has for it, and the entry that it makes, if it makes one.
HANDED_IN = [
    ("419 PASS 7 0 2", "entered", (419, 1, 7, 0)),
    ("1 FAIL 2 0 0", "already entered", None),
    ("419 PASS 7 0 2", "already entered", None),
    ("420 MAYBE 1 0 0", "no verdict", None),
    ("4294967296 PASS 1 0 0", "no number", None),
    ("", "no number", None),
    ("2 UNREADABLE 6 3 0", "entered", (2, 4, 6, 3)),
    ("3 INCONCLUSIVE 4 0 1", "entered", (3, 3, 4, 0)),
]


def listed():
    """Entries handed in one after the other, and the list of what the file holds then, read anew."""
    with open("crates/book_file/data/book", "wb") as out:
        out.writelines(block(k, entry) for k, entry in enumerate(LISTED))
    with open("crates/book_file/stdin", "w") as out:
        out.writelines(line + "\n" for line, _, _ in HANDED_IN)
    entries = LISTED + [entry for _, _, entry in HANDED_IN if entry]
    with open("crates/book_file/stdout", "w") as out:
        out.writelines(reply + "\n" for _, reply, _ in HANDED_IN)
        out.writelines(f"{tape} {NAMES[verdict - 1]} {place} {code}\n" for tape, verdict, place, code in entries)


def main():
    listed()
    if sys.argv[1:]:
        with open(sys.argv[1]) as given, open(STORED, "w") as out:
            out.write(shortened(given.read()))
    asked, answers = [], []
    with open(STORED) as stored:
        for vector in stored:
            for line, answer in kept(json.loads(expanded(vector))):
                asked.append(line + "\n")
                answers += [] if answer is None else [answer + "\n"]
    with open(FOLDER + "stdin", "w") as out:
        out.writelines(asked)
    with open(FOLDER + "stdout", "w") as out:
        out.writelines(answers)


main()
