#!/usr/bin/env python3
"""Three tapes for samples/, each of an error that 01 names as seen in approved products. Run this in the repository's root.

The beginning, up to the last record, is played by `reference play`, which shares no code with the kernel (cd reference && cargo build
--release --offline). What the faulty terminal sends, how the card answers and what is decided is written here by hand, and so is the
command that was due; the reference must say the same of it.
"""
import subprocess
import sys
import tempfile
import zlib

REFERENCE = "reference/target/release/reference"
SESSION = 7
COMMAND, ANSWER, HOST, DECISION = 2, 3, 5, 6
APPROVED = "samples/approved-offline.script"
TC = "8012400012112233445566778806010A03A0B0009000"
ARQC = "8012800012112233445566778806010A03A0B0009000"
# 8C of the sample: amount, other amount, country, TVR, currency, date, type, number; and 8D: response code, TVR, number
FIRST = "80AE{p1}001D {amount} 000000000000 0826 {tvr} 0826 260630 00 1A2B3C4D 00"
SECOND = "80AE{p1}000B {code} {tvr} 1A2B3C4D 00"


def script():
    with open(APPROVED) as lines:
        return [line.split() for line in lines.read().splitlines()]


def started(changes):
    """START of the sample with other fields, by their offsets."""
    start = bytearray.fromhex(script()[0][1])
    for place, digits in changes.items():
        value = bytes.fromhex(digits)
        start[place:place + len(value)] = value
    return start.hex().upper()


def floor_limit_not_seen():
    """The amount is the floor limit, tested with > instead of >=: TC is asked where ARQC is due (TAC online has byte 4 b8)."""
    start = started({1: "000000010000", 47: "0000008000"})
    return start, None, FIRST.format(p1="80", amount="000000010000", tvr="8000008000"), [
        (COMMAND, FIRST.format(p1="40", amount="000000010000", tvr="8000000000")), (ANSWER, TC), (DECISION, "01 00 8000000000 2800")]


def percentage_rounded():
    """Case K: amount 7499, random 40, target 10, maximum 70, threshold 5000, floor limit 10000. The percentage, 39.988, was rounded to 40
    first: ARQC is asked where TC is due (TAC online has byte 4 b5)."""
    start = started({1: "000000007499", 31: "28", 39: "46", 47: "0000001000"})
    return start, None, FIRST.format(p1="40", amount="000000007499", tvr="8000000000"), [
        (COMMAND, FIRST.format(p1="80", amount="000000007499", tvr="8000001000")), (ANSWER, ARQC), (HOST, "013030"),
        (COMMAND, SECOND.format(p1="40", code="3030", tvr="8000001000")), (ANSWER, TC), (DECISION, "01 00 8000001000 2800")]


def absent_code_as_zeros():
    """Type 0, and the card has no default code (9F0D): all ones, so that AAC is due. It was taken as zeros, and TC asked and approved."""
    start = started({0: "00"})
    record = "70308C159F02069F03069F1A0295055F2A029A039C019F37048D078A0295059F37049F0E0500000000009F0F0500000000009000"
    return start, record, FIRST.format(p1="00", amount="000000001000", tvr="8000000000"), [
        (COMMAND, FIRST.format(p1="40", amount="000000001000", tvr="8000000000")), (ANSWER, TC), (DECISION, "01 00 8000000000 2800")]


TAPES = {"floor-limit-not-seen": floor_limit_not_seen, "percentage-rounded": percentage_rounded,
         "absent-code-as-zeros": absent_code_as_zeros}


def block(number, kind, payload):
    head = number.to_bytes(4, "big") + SESSION.to_bytes(4, "big") + bytes((kind, 0)) + len(payload).to_bytes(2, "big")
    body = head + payload.ljust(496, b"\0")
    return body + zlib.crc32(body).to_bytes(4, "big")


def beginning(start, last_record):
    """The tape up to the answer to the last record."""
    lines = [f"START {start}"] + [" ".join(line) for line in script()[1:5]]
    if last_record:
        lines[4] = f"ANSWER {last_record}"
    with tempfile.NamedTemporaryFile(suffix=".tape") as tape:
        subprocess.run([REFERENCE, "play", "--tape", tape.name, "--session", str(SESSION)], input="\n".join(lines) + "\n", text=True,
                       check=True, capture_output=True)
        data = tape.read()
    # the right command that the reference wrote behind it goes
    return data[:9 * 512]


def main():
    for name, made in TAPES.items():
        start, record, right, entries = made()
        tape = beginning(start, record)
        for kind, digits in entries:
            tape += block(len(tape) // 512, kind, bytes.fromhex(digits))
        with open(f"samples/{name}.tape", "wb") as out:
            out.write(tape)
        said = subprocess.run([REFERENCE, "due"], input=tape, capture_output=True, check=True).stdout.decode().splitlines()
        print(f"{name}.tape {said[-1]}")
        if said[-2:] != [f"DUE 9 COMMAND {right.replace(' ', '')}", "FAIL 9 0 0"]:
            sys.exit(f"{name}.tape: what is due at entry 9 is not what was meant")


if __name__ == "__main__":
    main()
