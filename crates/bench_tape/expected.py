#!/usr/bin/env python3
"""Makes the tapes that bench_tape reads and what it must write about them, from documents 01 and 02 (1,024 blocks, kind 7) and with zlib's
CRC-32: python3 expected.py, in this folder, writes the files stdin and stdout."""
import struct
import zlib

SIZE = 512
MOST = 1024


def sealed(body):
    """A block of 508 bytes with its check."""
    return body + struct.pack(">I", zlib.crc32(body))


def block(number, session, kind, payload, spare=0, length=None, padding=None):
    size = len(payload) if length is None else length
    rest = bytes(496 - len(payload)) if padding is None else padding
    return sealed(struct.pack(">IIBBH", number, session, kind, spare, size) + payload + rest)


def code(b, number, session):
    """The first test of 01 that a block fails; 0 where it fails none."""
    num, ses, kind, spare, size = struct.unpack(">IIBBH", b[:12])
    tests = [
        (3, zlib.crc32(b[:508]) != struct.unpack(">I", b[508:])[0]),
        (4, num != number),
        (5, ses != session),
        (6, not 1 <= kind <= 7),
        (7, spare != 0),
        (8, size > 496),
        (9, any(b[12 + size : 508])),
    ]
    return next((n for n, fails in tests if fails), 0)


def reading(tape):
    """The lines that a tape gives."""
    if len(tape) > MOST * SIZE:
        return [" 0 1"]
    if len(tape) % SIZE:
        return [" %d 2" % (len(tape) // SIZE)]
    blocks = [tape[i : i + SIZE] for i in range(0, len(tape), SIZE)]
    session = struct.unpack(">I", blocks[0][4:8])[0] if blocks else 0
    for n, b in enumerate(blocks):
        c = code(b, n, session)
        if c:
            return [" %d %d" % (n, c)]
    lines = [" read"]
    for b in blocks:
        size = struct.unpack(">H", b[10:12])[0]
        lines.append("%d %d %08x" % (b[8], size, zlib.crc32(b[12 : 12 + size])))
    return lines + ["written %08x" % zlib.crc32(tape)]


S = 0x01020304
start = block(0, S, 1, bytes(range(1, 78)))
earlier = block(0, S, 1, bytes(range(1, 75)))
command = block(1, S, 2, bytes.fromhex("00a40400050102030405" + "00"))
answer = block(2, S, 3, b"\x6f\x00\x90\x00")
decision = block(3, S, 6, bytes([3, 8, 0x80, 0, 0, 0, 0, 0, 0]))


def changed(b, at, value):
    return b[:at] + bytes([value]) + b[at + 1 :]


CASES = [
    ("empty", b"", 1),
    ("good", start + command + answer + decision, 1),
    ("cut", earlier + command, 1),
    ("silence", start + command + block(2, S, 4, b""), 1),
    ("full", block(0, 0xFFFFFFFF, 3, bytes(i % 251 for i in range(496))) + block(1, 0xFFFFFFFF, 5, b"\x01\x30\x30"), 1),
    ("long", start, MOST + 1),
    ("longodd", start[:511], MOST + 3),
    ("limit", start, MOST),
    ("onebyte", b"\x00", 1),
    ("ragged", start + command + answer[:100], 1),
    ("check", start + changed(command, 20, 0xFF), 1),
    ("check4", start + changed(block(7, S, 2, b""), 511, 0xFF), 1),
    ("number", start + block(5, S, 2, b"\x01"), 1),
    ("session", start + command + block(2, S + 1, 3, b""), 1),
    ("kind0", start + block(1, S, 0, b"\x01"), 1),
    ("kind7", start + block(1, S, 7, b"\x01\x00\x04") + block(2, S, 7, b""), 1),
    ("kind8", start + block(1, S, 8, b"\x01"), 1),
    ("spare", start + block(1, S, 2, b"\x01", spare=1), 1),
    ("length", start + block(1, S, 2, b"\x01", length=497), 1),
    ("after", start + block(1, S, 2, b"\x01", padding=b"\x01" + bytes(494)), 1),
    ("last", start + block(1, S, 2, b"\x01", padding=bytes(494) + b"\x80"), 1),
    ("order45", start + block(2, S + 1, 9, b"\x01", spare=3), 1),
    ("order56", start + block(1, S + 1, 9, b"\x01", spare=3), 1),
    ("order67", start + block(1, S, 9, b"\x01", spare=3, length=500), 1),
    ("two", start + block(1, S, 2, b"\x01", spare=1) + block(7, S, 2, b""), 1),
]

with open("stdin", "wb") as f:
    for name, data, times in CASES:
        f.write(name.encode().ljust(8) + struct.pack(">HH", len(data), times) + data.ljust(2048, b"\x00"))
with open("stdout", "w") as f:
    for name, data, times in CASES:
        f.write(name.ljust(8) + "\n".join(reading(data * times)) + "\n")
