#!/usr/bin/env python3
"""Verification lists for crates/bench_cvm: writes its stdin, and the stdout that it must give.

Each case is put to two programs that share no code with the proved one. `reference play`, which was written from the documents by
somebody who has not seen ours, plays a whole session around it: the list and 9F42 stand in a record, the other data in START, and
what 8C asks for, TVR and TSI, is read off the first GENERATE AC command. The reader below was written from the same documents
beside the proved code, so that it is no outside witness; it names the cases where the two differ, and none may.

Build the reference first (cd reference && cargo build --release --offline), then run this in the repository's root:

    tools/cvm-vectors.py [REFERENCE]
"""
import random
import subprocess
import sys

FOLDER = "crates/bench_cvm/"
REFERENCE = sys.argv[1] if len(sys.argv) > 1 else "reference/target/release/reference"

AID = bytes.fromhex("A000000003")
TOP = 10**12 - 1
METHODS = (0x00, 0x01, 0x02, 0x03, 0x1E, 0x1F, 0x04, 0x05, 0x20, 0x3F)
MEANS = (0x00, 0x20, 0x40, 0x60, 0x80, 0xA0, 0xC0, 0xE0, 0x1F, 0xFF)


# The reader: 003, section 7.5 and Annex A3, with 02, R-7.

def has(means, method):
    """Whether 9F33 byte 2 has all that a method needs; None where the method is not one of Table A-3."""
    needs = {0x00: 0, 0x01: 0x80, 0x02: 0x40, 0x03: 0xA0, 0x1E: 0x20, 0x1F: 0}.get(method)
    return None if needs is None else means & needs == needs


def applies(case, code, method, limits):
    cash = case["type"] == 1 or case["other"] != 0
    home = case["application"] == case["currency"]
    amount = case["amount"]
    x, y = limits
    return {
        0: True, 1: cash, 2: not cash, 3: bool(has(case["means"], method)), 4: not has(case["means"], method),
        6: home and amount < x, 7: home and amount > x, 8: home and amount < y, 9: home and amount > y,
    }.get(code, False)


def attempt(case, method, result):
    """What a try sets in TVR byte 3, and whether it succeeds."""
    if has(case["means"], method) is None:
        return 0x40, False
    if method in (0x00, 0x1F):
        return 0, method == 0x1F
    pad = {0x01: 0x80, 0x02: 0x40, 0x03: 0x80}.get(method)
    if pad is not None and not case["means"] & pad:
        return 0x10, False
    if pad is not None and result in (2, 3, 4):
        return {2: 0x10, 3: 0x08, 4: 0x20}[result], False
    success = result == 1 and has(case["means"], method)
    return (0x04 if success and method == 0x02 else 0), success


def read(case):
    data = case["list"]
    limits = int.from_bytes(data[0:4], "big"), int.from_bytes(data[4:8], "big")
    bits = 0
    for at, result in zip(range(8, len(data), 2), case["results"]):
        method, code = data[at] & 0x3F, data[at + 1]
        if not applies(case, code, method, limits):
            continue
        more, success = attempt(case, method, result)
        bits |= more
        if success:
            return bits
        if not data[at] & 0x40:
            break
    return bits | 0x80


def right(case):
    return len(case["results"]) == (len(case["list"]) - 8) // 2 and all(b <= 4 for b in case["results"])


def answer(case):
    rules = (len(case["list"]) - 8) // 2
    return f"{rules} {read(case):02X}" if right(case) else f"{rules} refused"


# The same from the reference.

def tlv(tag, value):
    size = len(value)
    length = bytes([size]) if size < 0x80 else b"\x81" + bytes([size])
    return bytes.fromhex(tag) + length + value


def start(case):
    return (
        b"\x02" + bytes.fromhex(f"{case['amount']:012d}{case['other']:012d}") + bytes.fromhex("0826") + case["currency"]
        + bytes.fromhex("250630") + bytes([case["type"]]) + bytes(4) + bytes.fromhex(f"{TOP:012d}") + bytes([1, 0]) + bytes(6) + bytes(1)
        + bytes(2) + bytes(15) + bytes([len(AID)]) + AID.ljust(16, b"\0") + bytes([0, case["means"], 0])
    )


def session(case):
    record = tlv("5A", b"\x12") + tlv("5F24", bytes.fromhex("301231")) + tlv("8C", bytes.fromhex("95059B02")) + tlv("8D", b"")
    record += tlv("8E", case["list"])
    if case["application"]:
        record += tlv("9F42", case["application"])
    good = b"\x90\x00"
    calls = [
        ("START", start(case)),
        ("ANSWER", tlv("6F", tlv("84", AID) + tlv("A5", b"")) + good),
        ("ANSWER", tlv("80", bytes.fromhex("1000" + "08010100")) + good),
        ("ANSWER", tlv("70", record) + good),
        ("RESULTS", case["results"]),
    ]
    return "".join(f"{name} {payload.hex()}\n" for name, payload in calls)


def asked(case):
    replies = subprocess.run([REFERENCE, "play"], input=session(case), capture_output=True, text=True, check=True).stdout.split("\n")
    rules, last = replies[3], replies[4]
    if not rules.startswith("RESULTS "):
        raise SystemExit(f"no results due: {replies} for {case}")
    rules = rules.split()[1]
    if last == "REFUSED 12":
        return f"{rules} refused"
    data = bytes.fromhex(last.split()[1])[5:12]
    if not data[5] & 0x40:
        raise SystemExit(f"TSI byte 1 b7 is clear: {last} for {case}")
    return f"{rules} {data[2]:02X}"


# The cases.

def made(rules, results, x=1000, y=2000, **other):
    case = {"amount": 1500, "other": 0, "type": 0, "means": 0xE0, "currency": b"\x08\x26", "application": b"\x08\x26"}
    case.update(other)
    case["list"] = x.to_bytes(4, "big") + y.to_bytes(4, "big") + bytes(rules)
    case["results"] = bytes(results)
    return case


def cases():
    draw = random.Random(75)
    # each method with each byte and each set of means
    for method in METHODS:
        for means in MEANS:
            for result in range(5):
                yield made([method, 0], [result], means=means)
    # each condition before 'no verification' and before a PIN, on both sides of each limit
    for code in list(range(12)) + [0x7F, 0x80, 0xFF]:
        for amount in (0, 999, 1000, 1001, 1999, 2000, 2001, TOP):
            for application in (b"\x08\x26", b"\x09\x78", b""):
                yield made([0x1F, code], [0], amount=amount, application=application)
        for kind in (0x00, 0x01, 0x09, 0x20):
            for other in (0, 1, TOP):
                yield made([0x1F, code], [0], type=kind, other=other)
        for method in METHODS:
            for means in MEANS:
                yield made([method, code], [3], means=means)
    # limits of X and Y themselves
    for x, y in ((0, 0), (2**32 - 1, 0), (0, 2**32 - 1), (2**31, 2**31)):
        for amount in {0, max(x - 1, 0), x, x + 1, max(y - 1, 0), y, y + 1}:
            for code in range(6, 10):
                yield made([0x1F, code], [0], x=x, y=y, amount=amount)
    # payloads that are not right, and lists without rules
    for results in ([], [0], [5], [0, 0], [0, 5], [0, 0, 0], [255, 0]):
        yield made([0x41, 0, 0x1E, 0], results)
        yield made([], results)
    # any lists
    for _ in range(1500):
        count = draw.choice((1, 2, 3, 4, 5, 8, 50))
        rules, results = [], []
        for _ in range(count):
            method = draw.choice(METHODS + (draw.randrange(64),))
            rules += [method | draw.choice((0, 0x40, 0x40, 0xC0)), draw.choice((0, 0, 0, 1, 2, 3, 4, 5, 6, 7, 8, 9, draw.randrange(256)))]
            results.append(draw.choice((0, 0, 1, 2, 3, 4)))
        yield made(
            rules, results, amount=draw.choice((0, 999, 1000, 1001, 2000, 2001, draw.randrange(10**6))), other=draw.choice((0, 0, 500)),
            type=draw.choice((0, 0, 1, 0x20)), means=draw.choice(MEANS), application=draw.choice((b"\x08\x26", b"\x08\x26", b"\x08\x27", b"")),
        )


def text(data):
    return data.hex().upper() or "-"


def main():
    differ = 0
    with open(FOLDER + "stdin", "w") as given, open(FOLDER + "stdout", "w") as wanted:
        for count, case in enumerate(cases(), 1):
            line = asked(case)
            if line != answer(case):
                differ += 1
                print(f"the reference says {line}, the reader {answer(case)}: {case}")
            words = start(case)[:21], start(case)[74:], case["application"], case["list"], case["results"]
            given.write(" ".join(map(text, words)) + "\n")
            wanted.write(line + "\n")
    print(f"{count} cases, {differ} differ")


main()
